/* The machine: who goes on, and the trace of it. One thread runs at a time, so nothing guards it.
 */
#define _GNU_SOURCE
#include "machine.h"
#include "races.h"

#include <dlfcn.h>
#include <execinfo.h>
#include <limits.h>
#include <linux/futex.h>
#include <signal.h>
#include <stdlib.h>
#include <string.h>
#include <sys/syscall.h>
#include <unistd.h>

machine the_machine;

/* The number of this thread; 0 if the machine does not know it, and HAS_LEFT once it has ended. */
enum { HAS_LEFT = MACHINE_SEATS + 1 };
static __thread unsigned number_here;
/* Whether the thread is parked, where a signal handler may interrupt it. */
static __thread volatile bool is_parked;
/* Whether the thread looks for its place, by functions that lock mutexes of their own. */
static __thread bool is_aside;

/* ThreadSanitizer, if it is there, is told that a turn comes after the one before it. */
extern void __tsan_acquire(void *at) __attribute__((weak));
extern void __tsan_release(void *at) __attribute__((weak));

static void end_trace(yak_end why);

void machine_stop(const char *why)
{
    const char *seed = the_machine.seed;
    if (seed == 0 && !the_machine.is_direct) {
        snprintf(the_machine.shared->doubt, YAK_DOUBT, "%s", why);
        end_trace(YAK_END_DOUBT);
        machine_quit(2);
    }
    fprintf(stderr, "yakyrombe: the run%s%s ends: %s\n", seed != 0 ? " with seed " : "",
            seed != 0 ? seed : "", why);
    the_machine.is_on = false;
    machine_quit(2);
}

bool machine_decides(void)
{
    if (!the_machine.is_on || number_here == HAS_LEFT || is_aside)
        return false;
    if (number_here == 0 && the_machine.is_inner)
        return false;
    if (number_here == 0)
        machine_stop("there is a thread that was not started by pthread_create");
    return true;
}

seat *machine_seat(void)
{
    return &the_machine.seats[number_here - 1];
}

unsigned machine_number(void)
{
    return number_here;
}

static unsigned number_of(const seat *it)
{
    return (unsigned)(it - the_machine.seats) + 1;
}

/* ---- objects ---- */

uint32_t machine_object(const void *at, yak_kind kind)
{
    yak_explored *all = the_machine.shared;
    yak_object *it;
    if (at == 0 || (the_machine.is_direct && !the_machine.sees_memory))
        return 0;
    for (uint32_t i = 0; i < all->objects; ++i)
        if (all->object[i].at == (uint64_t)(uintptr_t)at && all->object[i].name[0] == 0)
            return i + 1;
    /* All that have no place of their own are one object, which makes more steps depend. */
    if (all->objects == YAK_MOST_OBJECTS)
        return YAK_MOST_OBJECTS;
    it = &all->object[all->objects];
    it->at = (uint64_t)(uintptr_t)at;
    it->kind = (uint8_t)kind;
    return ++all->objects;
}

static const char the_clock;

uint32_t machine_clock_object(void)
{
    return machine_object(&the_clock, STEP_CLOCK);
}

/* ---- the trace ---- */

/* Whether a step of this kind only reads what others may change. */
static bool only_looks(yak_kind kind)
{
    return kind == STEP_GETATTR || kind == STEP_LOAD || kind == STEP_SLEEP || kind == STEP_YIELD ||
           kind == STEP_SEMVALUE;
}

/* Whether a step can leave all as it was. */
static bool may_be_vain(const seat *it)
{
    const yak_kind kind = it->op.kind;
    return only_looks(kind) || kind == STEP_TRYLOCK || kind == STEP_SEMTRY ||
           kind == STEP_SPINTRY ||
           (machine_is_try(it) &&
            (kind == STEP_SEND || kind == STEP_RECEIVE || kind == STEP_LOCK ||
             kind == STEP_SEMWAIT || kind == STEP_RDLOCK || kind == STEP_WRLOCK));
}

static void note(yak_record it)
{
    yak_explored *all = the_machine.shared;
    if (the_machine.is_direct || all->records == YAK_MOST_RECORDS)
        return;
    it.step = (uint16_t)(the_machine.steps + (it.what == YAK_AT));
    all->record[all->records++] = it;
}

/* The last records are kept for the end. */
static bool is_full(void)
{
    return the_machine.shared->records > YAK_MOST_RECORDS - 4 * YAK_SEATS;
}

static void touch(uint32_t object)
{
    if (the_machine.touches == MACHINE_TOUCHED)
        the_machine.touches_all = true;
    else
        the_machine.touched[the_machine.touches++] = object;
}

void machine_also(yak_kind kind, uint32_t object)
{
    if (!machine_decides() || !the_machine.chooses || !the_machine.is_noted)
        return;
    note((yak_record){.what = YAK_ALSO, .kind = (uint8_t)kind, .object = object});
    if (kind == STEP_CREATE)
        the_machine.touches_all = true;
    else
        touch(object);
    if (!the_machine.sees_memory || kind == STEP_READ || kind == STEP_WRITE)
        return;
    if (kind == STEP_CREATE)
        races_create(number_here, object);
    else
        races_step(number_here, object);
}

void machine_gave(int error, uint32_t value)
{
    if (!machine_decides() || !the_machine.is_noted)
        return;
    note((yak_record){.what = YAK_GAVE, .object = (uint32_t)error, .arg = value});
    if (error == 0 && !only_looks(machine_seat()->op.kind))
        machine_seat()->vain = 0;
}

void machine_was_vain(void)
{
    if (machine_decides() && the_machine.is_noted)
        machine_seat()->vain = machine_seat()->before + 1;
}

void machine_misses(unsigned what)
{
    if (the_machine.shared != 0)
        __atomic_fetch_or(&the_machine.shared->unseen, what, __ATOMIC_SEQ_CST);
}

void machine_note_entries(void)
{
    uint64_t count;
    if (the_machine.threads == 0 || number_here == 0 || number_here == HAS_LEFT)
        return;
    count = machine_entries(the_machine.entries);
    for (; the_machine.entries < count; ++the_machine.entries)
        dprintf(the_machine.threads, "%llu %u %u\n", (unsigned long long)the_machine.entries,
                number_here, the_machine.steps);
}

/* ---- steps ---- */

static yak_record record_of(const seat *it, yak_what what, unsigned able)
{
    return (yak_record){
        .what = (uint8_t)what,
        .thread = (uint8_t)number_of(it),
        .kind = (uint8_t)it->op.kind,
        .flags = (uint8_t)(it->op.flags | (machine_is_try(it) ? YAK_TRY : 0u) |
                           (machine_may_be_odd(it) ? YAK_ODD : 0u)),
        .able = (uint8_t)able,
        .variants = (uint8_t)machine_variants(it),
        .object = it->op.object,
        .arg = it->op.arg,
    };
}

/* Another thread's step may end the vain polls of all. */
static void count_polls(seat *it)
{
    for (unsigned i = 0; i < the_machine.used; ++i)
        if (&the_machine.seats[i] != it)
            the_machine.seats[i].vain = 0;
    it->before = it->vain;
    it->vain = may_be_vain(it) || it->is_late ? it->vain + 1 : 0;
}

/* The step that a seat makes: what it touches, and the time. */
static void begin_step(seat *it, unsigned able, unsigned variant)
{
    const machine_op *op = &it->op;
    it->is_late = able == YAK_LATE;
    it->variant = variant;
    it->is_odd =
        it->is_late && op->odd != ODD_NONE && ((op->flags & YAK_TIMED) == 0 || variant == 1);
    it->odds[op->odd] += it->is_odd;
    it->ran = the_machine.steps;
    the_machine.shared->running = it->tid;
    if (!machine_is_local(op->kind) || it->is_late)
        count_polls(it);
    touch(op->object);
    the_machine.touches_all = op->kind == STEP_EXIT || (it->is_late && the_machine.shared->is_last);
    the_machine.touches_names =
        op->kind == STEP_OPEN || op->kind == STEP_CLOSE || op->kind == STEP_UNLINK;
    if (it->is_late && !it->is_odd) {
        if (simulation_is_before(&the_machine.now, &op->until))
            the_machine.now = op->until;
        machine_also(STEP_SLEEP, machine_clock_object());
    }
    if (!machine_is_local(op->kind) || it->is_late)
        the_machine.last = number_of(it) - 1;
    it->state = SEAT_RUNS;
    if (!the_machine.sees_memory)
        return;
    races_step(number_of(it), op->object);
    if (op->kind == STEP_JOIN)
        races_join(number_of(it), op->arg);
}

static void note_choice(const seat *it, unsigned variant)
{
    if (the_machine.shared->wants_places && the_machine.steps < YAK_MOST_STEPS)
        memcpy(the_machine.shared->place[the_machine.steps], it->frames, sizeof it->frames);
    ++the_machine.steps;
    the_machine.is_noted = true;
    note((yak_record){
        .what = YAK_CHOSE, .thread = (uint8_t)number_of(it), .variants = (uint8_t)variant});
}

static void end_by_deadlock(void)
{
    const char *doubt = machine_doubt();
    char why[256];
    if (doubt == 0)
        machine_end_run(YAK_END_DEADLOCK, 5);
    snprintf(why, sizeof why, "no thread that the machine knows can go on, but %s", doubt);
    machine_stop(why);
}

/* A run by a seed may have any number of steps. */
static bool has_too_many_steps(void)
{
    return the_machine.seed == 0 &&
           (the_machine.steps - the_machine.first >= the_machine.shared->most_steps ||
            the_machine.steps >= YAK_MOST_STEPS || is_full());
}

static void let_go_on(seat *it)
{
    if (__tsan_release != 0)
        __tsan_release(&it->go);
    __atomic_store_n(&it->go, 1, __ATOMIC_SEQ_CST);
    YAK_REAL(syscall)(SYS_futex, &it->go, FUTEX_WAKE_PRIVATE, 1, 0, 0, 0);
}

/* Chooses who goes on, and lets it; null if no thread is left. */
static seat *choose(void)
{
    uint8_t able[MACHINE_SEATS];
    unsigned parked = 0, variant, local, chosen;
    seat *it;
    machine_note_entries();
    machine_wake_sleepers();
    for (unsigned i = 0; i < the_machine.used; ++i)
        parked += the_machine.seats[i].state == SEAT_PARKED;
    if (parked == 0)
        return 0;
    local = machine_look(able);
    if (machine_count(able, YAK_CANNOT) == the_machine.used)
        end_by_deadlock();
    if (has_too_many_steps())
        machine_end_run(YAK_END_STEPS, 6);
    chosen = machine_decide(able, local, &variant);
    it = &the_machine.seats[chosen];
    for (unsigned i = 0; i < the_machine.used; ++i)
        if (the_machine.seats[i].state == SEAT_PARKED)
            note(record_of(&the_machine.seats[i], YAK_AT, able[i]));
    note_choice(it, variant);
    begin_step(it, able[chosen], variant);
    if (it != machine_seat())
        let_go_on(it);
    return it;
}

static void await_turn(seat *it)
{
    while (__atomic_load_n(&it->go, __ATOMIC_SEQ_CST) != 1)
        YAK_REAL(syscall)(SYS_futex, &it->go, FUTEX_WAIT_PRIVATE, 0, 0, 0, 0);
    __atomic_store_n(&it->go, 0, __ATOMIC_SEQ_CST);
    if (__tsan_acquire != 0)
        __tsan_acquire(&it->go);
}

/* A thread that is alone has no choice, unless it waits. */
static bool goes_on_alone(seat *it)
{
    if (machine_ability(it) != YAK_CAN)
        return false;
    machine_note_entries();
    the_machine.is_noted = false;
    if (it->op.kind >= STEP_OPEN && it->op.kind <= STEP_NOTIFY) {
        note(record_of(it, YAK_AT, YAK_CAN));
        note_choice(it, 0);
    }
    it->state = SEAT_RUNS;
    return true;
}

/* Keeps where this thread asked for its operation: the calls outside this library, the last first;
 * and what it is called. */
static void note_place(seat *it)
{
    yak_explored *all = the_machine.shared;
    const unsigned at = number_of(it) - 1;
    void *frames[YAK_FRAMES + 16];
    unsigned kept = 0;
    int count;
    Dl_info here, there;
    memset(it->frames, 0, sizeof it->frames);
    if (at >= YAK_SEATS || dladdr((void *)&the_machine, &here) == 0)
        return;
    is_aside = true;
    count = backtrace(frames, YAK_FRAMES + 16);
    is_aside = false;
    for (int i = 0; i < count && kept < YAK_FRAMES; ++i)
        if (dladdr(frames[i], &there) != 0 && there.dli_fbase != here.dli_fbase)
            it->frames[kept++] = (uint64_t)(uintptr_t)frames[i];
    memcpy(all->last_place[at], it->frames, sizeof it->frames);
    pthread_getname_np(pthread_self(), all->thread_name[at], YAK_THREAD_NAME);
}

bool machine_act(const machine_op *op)
{
    static const struct timespec moment = {.tv_nsec = 1000};
    seat *it = machine_seat();
    if (is_parked)
        machine_stop("a signal handler, which interrupted a thread that is parked, made a call");
    if (the_machine.seed != 0)
        the_machine.now = machine_later(&moment);
    if (the_machine.shared->wants_places)
        note_place(it);
    it->op = *op;
    it->state = SEAT_PARKED;
    it->is_late = it->is_odd = false;
    is_parked = true;
    if (the_machine.chooses || !goes_on_alone(it)) {
        machine_begin_choices();
        if (choose() != it)
            await_turn(it);
    }
    is_parked = false;
    /* A wait for a condition ends with its mutex, also then. */
    if (machine_is_cancelled_in(it) && op->kind != STEP_WAKE)
        pthread_testcancel();
    return !it->is_late;
}

bool machine_was_odd(void)
{
    return machine_decides() && machine_seat()->is_odd;
}

machine_op machine_op_on(yak_kind kind, const void *at, const struct timespec *until)
{
    machine_op op = {.kind = kind, .object = machine_object(at, kind), .at = at};
    if (until != 0) {
        const bool is_moment = until->tv_nsec >= 0 && until->tv_nsec < 1000000000;
        /* Whether a deadline is to come depends on those that have passed. */
        machine_also(STEP_CLOCK, machine_clock_object());
        op.flags = is_moment && simulation_is_before(&the_machine.now, until) ? YAK_TIMED : YAK_TRY;
        op.until = *until;
    }
    return op;
}

int machine_acts(yak_kind kind, const void *at, const struct timespec *until)
{
    const machine_op op = machine_op_on(kind, at, until);
    return machine_act(&op) ? 0 : ETIMEDOUT;
}

bool machine_waits(bool (*goes_on)(void *with), void *with, const struct timespec *until,
                   const char *what)
{
    machine_op op = machine_op_on(STEP_COLLECT, 0, until);
    op.goes_on = goes_on;
    op.with = with;
    op.what = what;
    return machine_act(&op);
}

unsigned machine_tell(const void *at, unsigned most)
{
    unsigned skipped = most == 1 ? machine_seat()->variant : 0, told = 0;
    for (unsigned i = 0; i < the_machine.used && told < most; ++i) {
        seat *it = &the_machine.seats[i];
        if (!machine_waits_for(it, at))
            continue;
        if (skipped != 0) {
            --skipped;
            continue;
        }
        it->told = the_machine.steps != 0 ? the_machine.steps : 1;
        ++told;
    }
    return told;
}

/* ---- threads ---- */

/* Whether a thread has ended, and nobody waits for that. */
static bool is_over(const seat *it)
{
    for (unsigned i = 0; i < the_machine.used; ++i)
        if (the_machine.seats[i].state == SEAT_PARKED &&
            the_machine.seats[i].op.kind == STEP_JOIN &&
            the_machine.seats[i].op.arg == number_of(it))
            return false;
    return it->state == SEAT_OUT || it->state == SEAT_FREE;
}

/* Whether there may be any number of threads, one after the other. A trace, and the clocks of
 * races.c, know each by its number. */
static bool reuses_seats(void)
{
    return the_machine.seed != 0 && !the_machine.sees_memory;
}

/* The seat of the first thread is its own for good. */
static unsigned place_of_new(void)
{
    unsigned at = 1;
    while (at < the_machine.used && !(reuses_seats() && is_over(&the_machine.seats[at])))
        ++at;
    return at;
}

seat *machine_add_seat(void)
{
    const unsigned at = place_of_new();
    seat *it = &the_machine.seats[at];
    seat fresh = {.state = SEAT_PARKED, .op = {.kind = STEP_START}};
    if (at >= (reuses_seats() ? (unsigned)MACHINE_SEATS : (unsigned)YAK_SEATS)) {
        if (the_machine.seed == 0)
            machine_stop("the program starts more than 64 threads");
        return 0;
    }
    fresh.rank = machine_new_rank();
    /* Who sleeps is known before the threads are there. */
    fresh.asleep = it->asleep;
    memcpy(fresh.wakes, it->wakes, sizeof fresh.wakes);
    *it = fresh;
    the_machine.used += at == the_machine.used;
    return it;
}

void machine_drop_seat(seat *it)
{
    it->state = SEAT_FREE;
    the_machine.used -= number_of(it) == the_machine.used;
}

/* The stack of a thread may have been that of another. */
static void forget_stack(void)
{
    pthread_attr_t attr;
    void *from;
    size_t size;
    if (pthread_getattr_np(pthread_self(), &attr) != 0)
        return;
    if (pthread_attr_getstack(&attr, &from, &size) == 0)
        races_forget((uintptr_t)from, size);
    pthread_attr_destroy(&attr);
}

void machine_sit_down(seat *it, bool is_first)
{
    number_here = number_of(it);
    it->thread = pthread_self();
    it->tid = gettid();
    pthread_setspecific(the_machine.key, &the_machine);
    if (is_first)
        return;
    is_parked = true;
    await_turn(it);
    is_parked = false;
    if (the_machine.sees_memory)
        forget_stack();
}

void machine_leave(void)
{
    if (!machine_decides())
        return;
    machine_seat()->state = SEAT_OUT;
    if (the_machine.chooses)
        choose();
    number_here = HAS_LEFT;
}

bool machine_has_others(void)
{
    for (unsigned i = 0; i < the_machine.used; ++i)
        if (the_machine.seats[i].state == SEAT_PARKED)
            return true;
    return false;
}

void machine_cancels(pthread_t thread)
{
    for (unsigned i = 0; machine_decides() && i < the_machine.used; ++i)
        if (the_machine.seats[i].state != SEAT_FREE && !the_machine.seats[i].is_joined &&
            pthread_equal(the_machine.seats[i].thread, thread))
            the_machine.seats[i].is_cancelled = true;
}

struct timespec machine_later(const struct timespec *time)
{
    return simulation_later(&the_machine.now, time);
}

/* ---- the end of a run ---- */

static void say_who_waits(void)
{
    for (unsigned i = 0; i < the_machine.used; ++i) {
        const seat *it = &the_machine.seats[i];
        const yak_object *object =
            it->op.object != 0 ? &the_machine.shared->object[it->op.object - 1] : 0;
        const char *name = object != 0 ? object->name : "";
        const char *call = the_machine.seed != 0 && it->op.what != 0
                               ? it->op.what
                               : yak_call_name(it->op.kind, it->op.flags, it->op.mutex != 0);
        if (it->state != SEAT_PARKED)
            continue;
        /* Of waits that have begun, only those at a barrier are for an object. */
        if (it->op.kind == STEP_COLLECT && it->op.at != 0)
            fprintf(stderr, "yakyrombe: thread %u waits at a barrier\n", i + 1);
        else
            fprintf(stderr, "yakyrombe: thread %u waits in %s%s%s\n", i + 1, call,
                    *name != 0 ? " on " : "", name);
    }
}

static void say_end(yak_end why)
{
    if (why == YAK_END_DEADLOCK) {
        fprintf(stderr, "yakyrombe: deadlock: no thread can run, after %u steps\n",
                the_machine.steps);
        say_who_waits();
    } else if (why == YAK_END_UNFIT) {
        fprintf(stderr, "yakyrombe: YAK_SCHEDULE does not fit the program at step %u\n",
                the_machine.steps + 1);
    } else {
        fprintf(stderr, "yakyrombe: the run ends after %u steps\n", the_machine.steps);
    }
}

/* What the program does that is not seen, as far as it shows at the end of a run. */
static void look_for_handlers(void)
{
    for (int number = 1; number < SIGRTMIN; ++number) {
        struct sigaction action;
        const bool is_crash = number == SIGSEGV || number == SIGBUS || number == SIGFPE ||
                              number == SIGILL || number == SIGABRT;
        if (!is_crash && sigaction(number, 0, &action) == 0 && action.sa_handler != SIG_DFL &&
            action.sa_handler != SIG_IGN)
            machine_misses(UNSEEN_HANDLERS);
    }
}

void machine_keep_journal(void)
{
    const char *path = getenv("YAK_JOURNAL");
    FILE *to;
    if (path == 0 || *path == 0 || the_machine.write == 0 || (to = fopen(path, "we")) == 0)
        return;
    the_machine.write(the_machine.with, to);
    fclose(to);
}

/* Who holds what a thread waits for. */
static void note_holder(const seat *it)
{
    const pthread_mutex_t *mutex = it->op.kind == STEP_LOCK ? it->op.at : it->op.mutex;
    for (unsigned i = 0; mutex != 0 && i < the_machine.used; ++i)
        if (the_machine.seats[i].tid == machine_holder(mutex) && machine_holder(mutex) != 0)
            note((yak_record){.what = YAK_HOLDS,
                              .thread = (uint8_t)(i + 1),
                              .object = machine_object(mutex, STEP_LOCK)});
}

/* Writes the end of the trace. From here on nobody parks. */
static void end_trace(yak_end why)
{
    machine_note_entries();
    for (unsigned i = 0; i < the_machine.used; ++i) {
        const seat *it = &the_machine.seats[i];
        if (it->state != SEAT_PARKED)
            continue;
        note(record_of(it, YAK_LEFT, machine_ability(it)));
        note_holder(it);
    }
    note((yak_record){.what = YAK_END, .kind = (uint8_t)why});
    if (!the_machine.is_direct)
        look_for_handlers();
    the_machine.is_on = false;
}

void machine_exits(int status)
{
    machine_op op = {.kind = STEP_EXIT, .arg = (uint32_t)status};
    /* A child by vfork has the memory of its parent. */
    if (!machine_decides() || the_machine.process != getpid())
        return;
    machine_begin_choices();
    machine_act(&op);
    end_trace(YAK_END_DONE);
}

void machine_end_run(yak_end why, int status)
{
    end_trace(why);
    if (the_machine.is_direct)
        say_end(why);
    machine_keep_journal();
    if (why == YAK_END_DEADLOCK || why == YAK_END_STEPS)
        fflush(0);
    machine_quit(status);
}
