/* The lock of the program, and what is done when a process has died inside.
 *
 * It is a robust futex of the kernel's own form, in the memory of a robust mutex of the C library.
 * As long as a thread holds it or asks for it, the head of its robust list names it as pending, so
 * the kernel marks it if the thread dies. That takes fewer instructions than the mutex, and the
 * same number with one process as with many. */
#define _GNU_SOURCE
#include "log.h"

#include <errno.h>
#include <linux/futex.h>
#include <string.h>
#include <sys/syscall.h>
#include <unistd.h>

enum {
    /* So often a thread tries before it sleeps, and passes so many turns of a loop before the next
       try: the first time, and then twice as many, up to so many. All are some 16 microseconds. */
    TRIES = 24,
    SHORTEST_PAUSE = 128,
    LONGEST_PAUSE = 2048,
    /* So many nanoseconds a sleeper sleeps until it looks again, and whether the holder lives: the
       first time, and then each time twice as many, up to so many. */
    FIRST_SLEEP = 500000,
    LONGEST_SLEEP = 50000000,
    /* And so many for the next sleep of one that starves: it has slept twice. */
    STARVING_SLEEP = 4 * FIRST_SLEEP,
    /* So many the others sleep at most to let one in that starves. */
    LONGEST_HOLD = 1000000
};

bool program_is_watched;

/* ---- ThreadSanitizer, which is there if its functions are ---- */

extern void __tsan_mutex_pre_lock(void *at, unsigned flags) __attribute__((weak));
extern void __tsan_mutex_post_lock(void *at, unsigned flags, int recursion) __attribute__((weak));
extern int __tsan_mutex_pre_unlock(void *at, unsigned flags) __attribute__((weak));
extern void __tsan_mutex_post_unlock(void *at, unsigned flags) __attribute__((weak));

static __attribute__((constructor)) void begin(void)
{
    program_is_watched = __tsan_mutex_pre_lock != 0 && __tsan_mutex_post_lock != 0 &&
                         __tsan_mutex_pre_unlock != 0 && __tsan_mutex_post_unlock != 0;
}

/* ThreadSanitizer knows the lock by one of these addresses. If another thread is in a call below at
 * a fork, then in the child this address stays taken for ever, so the child uses the next one. */
static char addresses[64];
static unsigned address;

void program_tell_locked(void)
{
    __tsan_mutex_pre_lock(&addresses[address], 1);
    __tsan_mutex_post_lock(&addresses[address], 1, 0);
}

static void tell_unlocked(bool is_before)
{
    if (is_before)
        __tsan_mutex_pre_unlock(&addresses[address], 1);
    else
        __tsan_mutex_post_unlock(&addresses[address], 1);
}

void program_tell_forked(bool is_inside)
{
    address = (address + 1) % sizeof addresses;
    if (is_inside)
        program_tell_locked();
}

/* ---- the lock ---- */

void program_meet_thread(void)
{
    /* For a kernel without robust lists, as qemu-user is: there nobody is told of a death. */
    static _Thread_local struct robust_list_head no_list;
    struct robust_list_head *head = 0;
    size_t size;
    if (syscall(SYS_get_robust_list, 0, &head, &size) != 0 || head == 0)
        head = &no_list;
    program_thread.pending = (void *volatile *)&head->list_op_pending;
    program_thread.number = (int)syscall(SYS_gettid);
}

bool program_holds_lock(void)
{
    return (__atomic_load_n(PROGRAM_WORD, __ATOMIC_RELAXED) & FUTEX_TID_MASK) ==
           program_thread.number;
}

static yak_word_ lock_word(void)
{
    return (yak_word_){.at = (uint32_t *)PROGRAM_WORD, .is_shared = true};
}

/* A thread that starves writes its number to the_program.starving while it tries, and marks the
 * lock's word as one on which threads sleep. Who releases the lock then leaves the free word
 * marked, instead of waking a sleeper: so nobody else acquires it by a first attempt, and all that
 * try again see who starves, and wait until that one is inside. */
void program_wake_next(void)
{
    int nobody = 0;
    if (program_is_apart)
        program_come_to_family();
    else if (__atomic_load_n(&the_program.starving, __ATOMIC_RELAXED) == 0)
        yak_wake_on_(lock_word(), 1);
    else
        __atomic_compare_exchange_n(PROGRAM_WORD, &nobody, (int)FUTEX_WAITERS, false,
                                    __ATOMIC_RELAXED, __ATOMIC_RELAXED);
}

void program_unlock_watched(void)
{
    tell_unlocked(true);
    if (__atomic_exchange_n(PROGRAM_WORD, 0, __ATOMIC_RELEASE) < 0)
        program_wake_next();
    tell_unlocked(false);
}

/* Says that this thread starves, unless another one does, and marks the word. */
static void starve(int seen)
{
    int nobody = 0;
    __atomic_compare_exchange_n(&the_program.starving, &nobody, program_thread.number, false,
                                __ATOMIC_RELAXED, __ATOMIC_RELAXED);
    if (seen > 0)
        __atomic_compare_exchange_n(PROGRAM_WORD, &seen, seen | (int)FUTEX_WAITERS, false,
                                    __ATOMIC_RELAXED, __ATOMIC_RELAXED);
}

/* Sleeps while the lock is held, or free for one that starves. A wake is lost if the thread that
 * was woken is killed before it takes the lock, and a death is if a handler inside used a robust
 * mutex. So nobody sleeps for long. Who starves may be stopped or dead: then it starves no longer,
 * and says so again if it only was late. */
static void sleep_for_lock(int seen, int starving, long nanos)
{
    const int holder = seen & FUTEX_TID_MASK;
    const struct timespec delay = {.tv_nsec = holder != 0 ? nanos : LONGEST_HOLD};
    if (syscall(SYS_futex, PROGRAM_WORD, FUTEX_WAIT, seen, &delay, 0, 0) >= 0 || errno != ETIMEDOUT)
        return;
    if (holder == 0)
        __atomic_compare_exchange_n(&the_program.starving, &starving, 0, false, __ATOMIC_RELAXED,
                                    __ATOMIC_RELAXED);
    else if (kill(holder, 0) != 0 && errno == ESRCH)
        __atomic_compare_exchange_n(PROGRAM_WORD, &seen, (int)(FUTEX_WAITERS | FUTEX_OWNER_DIED),
                                    false, __ATOMIC_RELAXED, __ATOMIC_RELAXED);
}

/* Takes the lock: whether its holder has died. The pauses become long: meanwhile the holder makes
 * several calls, for which the memory stays with its processor. A thread that has slept twice
 * starves. */
static bool take(void)
{
    int *const word = PROGRAM_WORD, waiters = 0;
    unsigned tries = 0, pause = SHORTEST_PAUSE;
    long nanos = FIRST_SLEEP;
    for (;;) {
        int seen = __atomic_load_n(word, __ATOMIC_RELAXED);
        const int sleepers = seen & (int)FUTEX_WAITERS;
        const int starving = __atomic_load_n(&the_program.starving, __ATOMIC_RELAXED);
        const bool is_first = starving == program_thread.number;
        if ((seen & FUTEX_TID_MASK) == 0 && (starving == 0 || is_first)) {
            if (!__atomic_compare_exchange_n(word, &seen,
                                             program_thread.number | waiters | sleepers, false,
                                             __ATOMIC_ACQUIRE, __ATOMIC_RELAXED))
                continue;
            if (is_first)
                __atomic_store_n(&the_program.starving, 0, __ATOMIC_RELAXED);
            return (seen & FUTEX_OWNER_DIED) != 0;
        }
        if (tries < TRIES) {
            if (nanos >= STARVING_SLEEP)
                starve(seen);
            ++tries;
            yak_pause_(pause);
            pause *= pause < LONGEST_PAUSE ? 2 : 1;
            continue;
        }
        if (is_first) /* nobody is to wait for a thread that sleeps */
            __atomic_store_n(&the_program.starving, 0, __ATOMIC_RELAXED);
        if (sleepers == 0 &&
            !__atomic_compare_exchange_n(word, &seen, seen | (int)FUTEX_WAITERS, false,
                                         __ATOMIC_RELAXED, __ATOMIC_RELAXED))
            continue;
        sleep_for_lock(seen | (int)FUTEX_WAITERS, starving, nanos);
        nanos = 2 * nanos < LONGEST_SLEEP ? 2 * nanos : LONGEST_SLEEP;
        waiters = (int)FUTEX_WAITERS;
        tries = 0;
        pause = SHORTEST_PAUSE;
    }
}

/* The system made again by the log, and the tables by who lives. False if memory is refused. */
static bool recover(void)
{
    if (the_program.is_ready && !log_replay())
        return false;
    the_program.is_torn = false;
    program_tell("a call did not come to its end: the queues were made again by");
    if (the_program.is_ready)
        program_mend();
    for (unsigned process = 0; process < PROCESSES; ++process) {
        atomic_fetch_add(&the_program.news[process], 1);
        yak_wake_on_(program_news(process), OWNERS * 1024);
    }
    return true;
}

/* Leaves the lock for want of something. */
static int refuse(int error)
{
    program_unlock(OUTSIDE);
    return error;
}

/* Makes the system again if it is torn: 0, or an error, and then the lock is left. */
static int repair(void)
{
    const int error = errno;
    bool is_well;
    if (the_program.is_ready && !the_program.is_logged)
        the_program.is_lost = true;
    if (the_program.is_lost)
        return refuse(ENOTRECOVERABLE);
    is_well = recover();
    errno = error;
    return is_well ? 0 : refuse(ENOMEM);
}

int program_lock_slowly(void)
{
    const bool has_died = take();
    if (program_is_watched)
        program_tell_locked();
    if (!has_died)
        return 0;
    arena_follow();
    ++the_program.arena.openings; /* so that each process looks at what is torn */
    if (the_program.is_at_rest)
        return 0;
    the_program.is_torn = true;
    return repair();
}

/* Tells those who find the system after the death of this process that it is at rest, or that it
 * may not be. */
static void set_at_rest(bool is_at_rest)
{
    atomic_signal_fence(memory_order_seq_cst);
    the_program.is_at_rest = is_at_rest;
    atomic_signal_fence(memory_order_seq_cst);
}

/* Begins the log if other processes live, from when on it is to count. */
static void begin_log(void)
{
    if (!program_shares() || program_is_alone())
        return;
    set_at_rest(true);
    if (!program_is_left_alone())
        log_checkpoint();
    set_at_rest(false);
    program_sweep();
}

/* Makes the log short, or ends it if no other process is left. If there is no memory for that, the
 * log grows to twice its size before the next attempt. */
static void shorten(void)
{
    const unsigned log = the_program.log;
    const size_t size =
        (size_t)(the_program.log_next[log] - the_program.arena.parts[ARENA_LOG + log].from);
    program_sweep();
    if (program_is_alone()) {
        the_program.is_logged = false;
        return;
    }
    set_at_rest(true);
    if (!log_checkpoint())
        the_program.log_limit = 2 * size;
    set_at_rest(false);
}

int program_attend(void)
{
    int error = 0;
    arena_follow();
    if (the_program.is_torn || the_program.is_lost)
        error = repair();
    if (error == 0 && !the_program.is_ready)
        error = program_first();
    if (error != 0)
        return error;
    if (!the_program.is_stored && !the_program.is_logged)
        begin_log();
    else if (!the_program.is_stored && the_program.log_limit == SIZE_MAX)
        shorten();
    set_at_rest(false);
    __atomic_store_n(&program_here->seen, the_program.arena.openings, __ATOMIC_SEQ_CST);
    return 0;
}

void program_leave_waking(uint32_t answered)
{
    unsigned last;
    /* Threads die together: nobody is left then who would miss the wake. */
    if (answered == 0 || !the_program.is_logged) {
        program_leave();
        if (answered != 0)
            program_wake_them(answered);
        return;
    }
    last = (unsigned)__builtin_ctz(answered);
    program_wake_them(answered & (answered - 1));
    if (program_is_watched)
        tell_unlocked(true);
    /* One call of the kernel sets the lock free, wakes the waiter, and one that sleeps for the
       lock. */
    if (syscall(SYS_futex, &the_program.news[last], FUTEX_WAKE_OP,
                last == DISPATCHER ? OWNERS * 1024 : 1, 1, PROGRAM_WORD,
                FUTEX_OP(FUTEX_OP_SET, 0, FUTEX_OP_CMP_LT, 0)) < 0) {
        program_wake_them(1u << last);
        if (__atomic_exchange_n(PROGRAM_WORD, 0, __ATOMIC_RELEASE) < 0)
            program_wake_next();
    }
    if (program_is_watched)
        tell_unlocked(false);
    if (program_is_apart)
        program_come_to_family();
    *program_thread.pending = 0;
    program_thread.place = OUTSIDE;
}
