/* The processes of the machine that share the queues: how one comes, by a fork, and how the others
 * find out that one has gone.
 *
 * Each process has a place with its descriptor numbers, and holds a robust mutex there, which the
 * kernel marks when the thread that took it ends, or calls exec. A process whose mutex is marked is
 * looked for in /proc (lives.c). What the dead held is taken away when somebody needs it: nothing
 * polls. */
#define _GNU_SOURCE
#include "explored_calls.h"
#include "lives.h"
#include "log.h"

#include <errno.h>
#include <limits.h>
#include <linux/futex.h>
#include <stdlib.h>
#include <string.h>
#include <sys/mman.h>
#include <sys/syscall.h>
#include <unistd.h>

program *program_at;
here *program_here;
bool program_is_apart;
waiting *program_waits;
static bool is_first; /* this process made the arena */
static unsigned forks;

YAK_HOT unsigned program_forks(void)
{
    return forks;
}

static bool is_fork_word(const char *word)
{
    const char *wanted = getenv("YAK_FORK");
    return wanted != 0 && strcmp(wanted, word) == 0;
}

bool program_shares(void)
{
    if (explored_decides())
        return false;
    return !is_fork_word("new");
}

void program_read_fork_word(void)
{
    const char *wanted = getenv("YAK_FORK");
    if (wanted != 0 && *wanted != 0 && !is_fork_word("new") && !is_fork_word("shared"))
        fprintf(stderr, "yakyrombe: YAK_FORK=%s is neither new nor shared: it counts as shared\n",
                wanted);
}

/* Whether a fork copies the queues: each run of yak-explore is a child of its own. */
static bool is_copied(void)
{
#ifdef YAK_EXPLORED
    return explored_decides() || getenv("YAK_EXPLORE") != 0 || getenv("YAK_SCHEDULE") != 0;
#else
    return false;
#endif
}

/* ---- who lives ---- */

bool program_is_alone(void)
{
    for (unsigned i = 0; i < the_program.owners_used; ++i)
        if (atomic_load(&the_program.owners[i].state) != OWNER_FREE &&
            &the_program.owners[i] != program_here->me)
            return false;
    return true;
}

/* Whether a process is dead whose place was in a state; after lives_look_for_children. */
static bool is_dead(const owner *it, uint32_t state)
{
    if (state == OWNER_COMING || state == OWNER_JOINING)
        return !lives_to_come(it);
    return state == OWNER_GONE || !lives_still(it);
}

bool program_is_left_alone(void)
{
    lives_look_for_children(false);
    for (unsigned i = 0; i < the_program.owners_used; ++i) {
        const owner *it = &the_program.owners[i];
        const uint32_t state = atomic_load(&it->state);
        if (state != OWNER_FREE && it != program_here->me && !is_dead(it, state))
            return false;
    }
    return true;
}

bool program_keeps_journal(void)
{
    bool is_last;
    if (is_first || program_thread.place == INSIDE || program_come_in() != 0)
        return is_first;
    program_sweep();
    is_last = program_is_alone();
    program_leave();
    return is_last;
}

bool program_is_held(uint32_t d)
{
    for (unsigned i = 0; i < the_program.owners_used; ++i) {
        const owner *it = &the_program.owners[i];
        if (d < DESCRIPTIONS && atomic_load(&it->state) != OWNER_FREE &&
            memchr(it->numbers, (int)d + 1, NUMBERS) != 0)
            return true;
    }
    return false;
}

/* ---- what the dead held ---- */

/* Tells everybody of the messages that have gone back to their queues. */
static void tell_of_returned(void)
{
    notices found;
    found.count = 0;
    program_collect_notices(DESCRIPTIONS, &found);
    program_tell_polls(DESCRIPTIONS);
}

/* Ends the wait of a dead thread. False if it is still open: then its message has no room in its
 * queue, or memory is refused. */
static bool end_dead_wait(unsigned process)
{
    uint32_t answered;
    bool is_returned = false;
    if (!did_return(process, &is_returned))
        return false;
    answered = program_note_answers(process);
    program_release(process);
    program_wake_them(answered);
    if (is_returned)
        tell_of_returned();
    return true;
}

void program_end_dead_waits(void)
{
    const tables *all = &the_program.tables;
    for (uint32_t left = all->waiters & ~all->idle; left != 0; left &= left - 1) {
        const unsigned process = (unsigned)__builtin_ctz(left);
        const pending *it = &all->waits[process];
        const owner *of = &the_program.owners[it->owner];
        if (lives_is_marked(of) && it->is_open && !lives_thread(of, it->tid))
            end_dead_wait(process);
    }
}

static bool end_waits_of(unsigned number)
{
    bool is_ended = true;
    for (unsigned process = 0; process < PROCESSES; ++process) {
        const pending *it = &the_program.tables.waits[process];
        if (it->is_open && it->owner == number)
            is_ended = end_dead_wait(process) && is_ended;
    }
    return is_ended;
}

/* Releases what a dead process held. Its place stays as long as it has a wait. */
static void bury(unsigned number)
{
    owner *it = &the_program.owners[number];
    const bool is_ended = end_waits_of(number);
    for (uint32_t d = 0; d < DESCRIPTIONS; ++d)
        program_unregister(d, number);
    for (unsigned i = 0; i < NUMBERS && is_ended; ++i)
        if (it->numbers[i] != 0) {
            const uint32_t d = it->numbers[i] - 1u;
            it->numbers[i] = 0;
            if (!program_is_held(d))
                program_close_description(d);
        }
    the_program.overflow -= it->overflow;
    it->overflow = 0;
    the_program.polls -= it->polls;
    it->polls = 0;
    if (is_ended)
        atomic_store(&it->state, OWNER_FREE);
}

static void sweep(bool looks_at_once)
{
    lives_look_for_children(looks_at_once);
    for (unsigned i = 0; i < the_program.owners_used; ++i) {
        owner *it = &the_program.owners[i];
        uint32_t state = atomic_load(&it->state);
        if (state == OWNER_FREE || !is_dead(it, state))
            continue;
        /* One that has come since then has its place. */
        if (atomic_compare_exchange_strong(&it->state, &state, OWNER_GONE))
            bury(i);
    }
}

void program_sweep(void)
{
    sweep(false);
}

void program_sweep_at_once(void)
{
    sweep(true);
}

void program_mend(void)
{
    notices found = {0};
    the_program.overflow = 0;
    the_program.polls = 0;
    for (unsigned i = 0; i < the_program.owners_used; ++i) {
        owner *it = &the_program.owners[i];
        if (atomic_load(&it->state) == OWNER_FREE)
            continue;
        the_program.overflow += it->overflow;
        the_program.polls += it->polls;
        for (unsigned n = 0; n < NUMBERS; ++n)
            if (it->numbers[n] != 0 &&
                the_program.tables.descriptions[it->numbers[n] - 1].made == 0)
                it->numbers[n] = 0;
    }
    for (uint32_t d = 0; d < DESCRIPTIONS; ++d)
        if (the_program.tables.descriptions[d].made != 0 && !program_is_held(d))
            program_close_description(d);
    ++the_program.closes;
    for (uint32_t left = the_program.tables.idle; left != 0; left &= left - 1)
        program_release((unsigned)__builtin_ctz(left));
    /* A message may have come whose notice was not taken. */
    program_collect_notices(DESCRIPTIONS, &found);
    program_tell_polls(DESCRIPTIONS);
    program_sweep();
    ++the_program.opens; /* no number is given twice */
}

/* ---- a process comes ---- */

static owner *take_place(void)
{
    for (unsigned round = 0; round < 2; ++round) {
        for (unsigned i = 0; i < OWNERS; ++i) {
            owner *it = &the_program.owners[i];
            if (atomic_load(&it->state) != OWNER_FREE)
                continue;
            ++it->life;
            it->forked = lives_now();
            it->overflow = 0;
            it->own_threads = 0;
            it->polls = 0;
            memset(it->due, 0, sizeof it->due);
            memset(it->numbers, 0, sizeof it->numbers);
            if (i >= the_program.owners_used)
                the_program.owners_used = i + 1;
            return it;
        }
        program_sweep_at_once();
    }
    return 0;
}

/* A process has come to its place, and shows that it lives. */
static void come(owner *it)
{
    pthread_mutexattr_t kind;
    it->pid = getpid();
    it->start = lives_start(it->pid);
    it->holder = (pid_t)syscall(SYS_gettid);
    memset(&it->alive, 0, sizeof it->alive);
    pthread_mutexattr_init(&kind);
    pthread_mutexattr_setpshared(&kind, PTHREAD_PROCESS_SHARED);
    pthread_mutexattr_setrobust(&kind, PTHREAD_MUTEX_ROBUST);
    pthread_mutex_init(&it->alive, &kind);
    pthread_mutexattr_destroy(&kind);
    REAL(pthread_mutex_lock)(&it->alive);
    atomic_store(&it->state, OWNER_LIVE);
}

/* Maps an arena for this process, and takes its first place. */
static bool begin_arena(void)
{
    program_at =
        (program *)(void *)arena_map(sizeof(program), offsetof(program, arena), is_copied());
    if (program_at == 0)
        return false;
    the_program.arena.openings = 1;
    program_here->seen = 0;
    program_here->me = take_place();
    come(program_here->me);
    is_first = true;
    return true;
}

/* ---- forks ---- */

/* The place of the child that is being made, and the number of the fork. */
static _Thread_local owner *coming;
static _Thread_local unsigned coming_life;
static _Thread_local uint64_t fork_number;

/* What a handler needs that forks inside a call: its child goes on with that call, and is not to
 * write where its parent does. So it does that on a picture of the arena, and comes back to the
 * arena when that call is over. */
static _Thread_local bool is_inside;
static _Thread_local owner *parent;
static _Thread_local unsigned parent_seen;
static _Thread_local char *picture;
static _Thread_local size_t picture_size;
static _Thread_local char *again; /* a second mapping of the arena */

/* The log, if the system is being made again from it; and what waiters keep. */
static size_t log_in_use(char **from)
{
    *from = the_program.arena.parts[ARENA_LOG + the_program.log].from;
    return the_program.is_torn ? (size_t)(the_program.log_next[the_program.log] - *from) : 0;
}

/* The other log, if messages are laid aside there. */
static size_t aside_in_use(char **from)
{
    *from = the_program.arena.parts[ARENA_LOG + (the_program.log ^ 1)].from;
    return the_program.aside != 0 ? (size_t)(the_program.aside - *from) : 0;
}

static size_t kept_in_use(char **from)
{
    const uint32_t busy = the_program.tables.waiters & ~the_program.tables.idle;
    *from = the_program.arena.parts[ARENA_KEPT].from;
    return busy != 0 ? (size_t)(32 - __builtin_clz(busy)) * MOST_BYTES : 0;
}

/* The picture has the tables, the log, what is laid aside, what is kept, and the blocks. */
static void take_picture(void)
{
    char *to, *log, *aside, *kept;
    const size_t log_size = log_in_use(&log), aside_size = aside_in_use(&aside),
                 kept_size = kept_in_use(&kept);
    picture_size = sizeof(program) + log_size + aside_size + kept_size + arena_image_size();
    picture = mmap(0, picture_size, PROT_READ | PROT_WRITE, MAP_PRIVATE | MAP_ANONYMOUS, -1, 0);
    if (picture == MAP_FAILED)
        return;
    to = mempcpy(picture, program_at, sizeof(program));
    to = mempcpy(to, log, log_size);
    to = mempcpy(to, aside, aside_size);
    to = mempcpy(to, kept, kept_size);
    arena_save(to);
}

static void drop_picture(void)
{
    if (picture != 0 && picture != MAP_FAILED)
        munmap(picture, picture_size);
    picture = 0;
}

/* Puts the picture where the arena was. */
static void hang_picture(void)
{
    const char *at = picture;
    char *to;
    size_t size = the_program.arena.size;
    if (picture == MAP_FAILED ||
        mmap(program_at, size, PROT_READ | PROT_WRITE,
             MAP_PRIVATE | MAP_ANONYMOUS | MAP_FIXED | MAP_NORESERVE, -1, 0) == MAP_FAILED)
        abort();
    /* The first part says where the others lie. */
    memcpy(program_at, at, sizeof(program));
    at += sizeof(program);
    size = log_in_use(&to);
    memcpy(to, at, size);
    at += size;
    size = aside_in_use(&to);
    memcpy(to, at, size);
    at += size;
    size = kept_in_use(&to);
    memcpy(to, at, size);
    arena_load(at + size);
    drop_picture();
}

/* From now on other processes may sleep on the words of the waits, and wake those who do. A thread
 * that sleeps on a private word wakes, and sleeps again. */
static void share_words(void)
{
    if (atomic_load(&the_program.is_shared))
        return;
    for (unsigned process = 0; process < PROCESSES; ++process) {
        atomic_fetch_add(&the_program.news[process], 1);
        yak_wake_on_(program_news(process), INT_MAX);
    }
    atomic_store(&the_program.is_shared, true);
}

/* Takes a place for the child, which has the numbers of its parent. From then on the log is to
 * count, which the next call sees to, before it changes anything. */
static void make_place(void)
{
    if ((coming = take_place()) == 0)
        return;
    memcpy(coming->numbers, program_here->me->numbers, sizeof coming->numbers);
    coming->pid = program_here->me->pid;
    coming->start = program_here->me->start;
    coming_life = coming->life;
    fork_number = 2 * ++the_program.serials + 1;
    atomic_store(&coming->is_made, fork_number);
    if (the_program.inode == 0)
        the_program.inode = lives_inode();
    atomic_store(&coming->state, OWNER_COMING);
    the_program.is_at_rest = !the_program.is_logged && !is_inside;
    the_program.arena.openings += !the_program.is_logged;
    share_words();
    if (program_has_thread_notices() || program_has_polls())
        program_begin_notifier();
}

/* Leaves the lock for the place at which the thread was. A handler may have interrupted it when it
 * was about to take the lock. */
static void leave_for(int place)
{
    program_unlock(place);
    if (place == INSIDE)
        *program_thread.pending = PROGRAM_NODE;
}

/* ThreadSanitizer does not forget in a child that another thread held the lock, so nobody is to
 * hold it then. */
static _Thread_local bool is_held_for_fork;
static _Thread_local int place_before;

static void make_place_outside(void)
{
    place_before = program_thread.place;
    if (program_lock() != 0)
        return;
    arena_follow();
    if (program_shares() && !the_program.is_torn && !the_program.is_lost)
        make_place();
    is_held_for_fork = program_is_watched;
    if (!is_held_for_fork)
        leave_for(place_before);
}

static void before_fork(void)
{
    coming = 0;
    again = 0;
    is_inside = program_here->me != 0 && program_thread.place == INSIDE && program_holds_lock();
    if (program_here->me == 0)
        return;
    if (is_inside) {
        parent = program_here->me;
        parent_seen = program_here->seen;
        if (program_shares() && (again = arena_again((char *)program_at)) != 0)
            make_place();
        take_picture();
    } else if (program_shares() || program_is_watched) {
        make_place_outside();
    }
}

static void in_parent(void)
{
    if (is_held_for_fork)
        leave_for(place_before);
    is_held_for_fork = false;
    /* By now the child may have come and gone, and the place be that of another fork. */
    if (coming != 0)
        atomic_compare_exchange_strong(&coming->is_made, &fork_number, 2 * lives_now());
    drop_picture();
    if (again != 0)
        munmap(again, the_program.arena.size);
    again = 0;
}

/* What a child has that no fork gives it. */
static void forget(void)
{
    const waiting *it = &program_own_wait;
    /* A sleep that a handler interrupted, and that the kernel begins again, ends by this. */
    if (it->number != 0)
        atomic_fetch_add(&the_program.news[it->process], 1);
    program_own_wait.number = 0;
    program_own_wait.is_listed = false;
    program_waits = 0;
    program_forget_notices();
    program_forget_polls();
}

/* The child takes its place, in which it writes nothing before. */
static void take_part_in_family(void)
{
    uint32_t was = OWNER_COMING;
    program_here->seen = 0;
    program_here->me = 0;
    if (coming->life != coming_life ||
        !atomic_compare_exchange_strong(&coming->state, &was, OWNER_JOINING))
        return;
    come(coming);
    program_here->me = coming;
}

void program_come_to_family(void)
{
    program_is_apart = false;
    program_here->me = 0;
    program_meet_thread();
    if (again != 0 && coming != 0 && arena_return((char *)program_at, again, sizeof(program)))
        take_part_in_family();
    again = 0;
}

static void in_child(void)
{
    ++forks;
    is_first = false;
    program_here->me = 0;
    if (program_is_watched)
        program_tell_forked(is_inside);
    if (program_at == 0)
        return;
    if (is_inside) {
        hang_picture();
        forget();
        program_here->me = parent;
        program_here->seen = parent_seen;
        program_is_apart = true;
        /* So that the end of the call is told. */
        __atomic_fetch_or(PROGRAM_WORD, (int)FUTEX_WAITERS, __ATOMIC_RELAXED);
        return;
    }
    forget();
    if (is_held_for_fork) {
        /* It is the parent's. */
        program_thread.place = place_before;
        is_held_for_fork = false;
    }
    /* A handler may have interrupted it on its way into the lock, which is taken by this number. */
    program_meet_thread();
    *program_thread.pending = program_thread.place == INSIDE ? PROGRAM_NODE : 0;
    if (program_thread.place == WAITING)
        program_thread.place = OUTSIDE;
    if (coming != 0) {
        take_part_in_family();
    } else if (is_fork_word("new")) {
        arena_unmap((char *)program_at);
        program_at = 0;
        begin_arena();
    }
}

static __attribute__((constructor)) void begin(void)
{
    const size_t page = 4096;
    void *own;
    if (program_here != 0)
        return;
    own = mmap(0, page, PROT_READ | PROT_WRITE, MAP_PRIVATE | MAP_ANONYMOUS, -1, 0);
    if (own == MAP_FAILED)
        abort();
#ifdef MADV_WIPEONFORK
    if (!is_copied())
        madvise(own, page, MADV_WIPEONFORK);
#endif
    program_here = own;
    begin_arena();
    pthread_atfork(before_fork, in_parent, in_child);
}
