/* How a call by a handle waits: for the lock, and for the call of another process that answers it.
 *
 * A futex word is a word of the library that is 1 if a thread may sleep on it. A thread that is
 * about to sleep stores 1, looks once more at what it waits for, and sleeps while the word is 1. A
 * thread that changes what others wait for stores 0 and wakes one. Word 0 is the futex word of the
 * lock, word j that of process j's flag, and word YAK_ANSWER_WORD_ + j that of its answer. No
 * wake-up is lost (docs/lock.md), so a thread that waits for an answer sleeps until it is woken, or
 * until its deadline. */
#define _GNU_SOURCE
/* quick.h must not define yak_send and yak_receive: they are below. */
#define YAK_DEFINES_CALLS_
#include "wait.h"

#include "proved.h"

#include <errno.h>
#include <limits.h>
#include <stdlib.h>
#include <string.h>
#ifdef __linux__
#include <linux/futex.h>
#include <sys/syscall.h>
#include <unistd.h>
#ifndef SYS_futex_waitv
#define SYS_futex_waitv 449
#endif
#endif

#define SELDOM(what) __builtin_expect(!!(what), 0)

enum { SECOND = 1000000000, MILLISECOND = 1000000 };

/* The longest sleep for the lock, in seconds. */
enum { LONGEST_SLEEP = 60 };

/* The index of the futex word of the lock, and of the word that counts how often the owner of a
 * clock has said that it moved, which the library never accesses. */
enum { LOCK_WORD = 0, MOVES_WORD = 105 };

/* The process that the thread is attached to (yakyrombe/mqueue.h). */
_Thread_local yak_process *yak_attached;

/* ---- the sleep and the wake-up ---- */

#if defined __linux__ && defined FUTEX_32
/* A sleep with a deadline that a handler with SA_RESTART does not end: -1 with ENOSYS before Linux
 * 5.16. Without a deadline FUTEX_WAIT begins again by itself. */
static long sleep_and_restart(yak_word_ word, uint32_t value, const yak_sleep_ *sleep)
{
    static bool is_missing;
    struct futex_waitv one;
    long slept;
    if (__atomic_load_n(&is_missing, __ATOMIC_RELAXED)) {
        errno = ENOSYS;
        return -1;
    }
    memset(&one, 0, sizeof one);
    one.val = value;
    one.uaddr = (uintptr_t)word.at;
    one.flags = FUTEX_32 | (word.is_shared ? 0 : FUTEX_PRIVATE_FLAG);
    slept = syscall(SYS_futex_waitv, &one, 1, 0, sleep->until, sleep->clock);
    if (slept < 0 && errno == ENOSYS)
        __atomic_store_n(&is_missing, true, __ATOMIC_RELAXED);
    return slept;
}
#endif

YAK_HOT int yak_sleep_on_(yak_word_ word, uint32_t value, const yak_sleep_ *sleep)
{
#ifdef __linux__
    const int how = FUTEX_WAIT_BITSET | (word.is_shared ? 0 : FUTEX_PRIVATE_FLAG) |
                    (sleep->clock == CLOCK_REALTIME ? FUTEX_CLOCK_REALTIME : 0);
    long slept;
#ifdef FUTEX_32
    if (sleep->restarts && sleep->until != 0 &&
        ((slept = sleep_and_restart(word, value, sleep)) >= 0 || errno != ENOSYS))
        return slept < 0 && errno == EINTR ? EINTR : 0;
#endif
    slept = syscall(SYS_futex, word.at, how, value, sleep->until, 0, FUTEX_BITSET_MATCH_ANY);
    return slept < 0 && errno == EINTR ? EINTR : 0;
#else
    const struct timespec delay = {.tv_nsec = MILLISECOND};
    (void)word, (void)value, (void)sleep;
    return nanosleep(&delay, 0) != 0 ? EINTR : 0;
#endif
}

YAK_HOT void yak_wake_on_(yak_word_ word, int most)
{
#ifdef __linux__
    syscall(SYS_futex, word.at, FUTEX_WAKE | (word.is_shared ? 0 : FUTEX_PRIVATE_FLAG), most, 0, 0,
            0);
#else
    (void)word, (void)most;
#endif
}

/* The half of a futex word that is 0 or 1. */
static yak_word_ low_half(uint64_t *futex_word)
{
    const yak_word_ half = {
        .at = (uint32_t *)futex_word + (__BYTE_ORDER__ == __ORDER_BIG_ENDIAN__),
    };
    return half;
}

/* The moment after so many nanoseconds. */
static struct timespec after(int64_t nanos)
{
    struct timespec end;
    clock_gettime(CLOCK_MONOTONIC, &end);
    end.tv_sec += (time_t)(nanos / SECOND);
    end.tv_nsec += (long)(nanos % SECOND);
    if (end.tv_nsec >= SECOND) {
        ++end.tv_sec;
        end.tv_nsec -= SECOND;
    }
    return end;
}

/* Sleeps while a futex word has the value, for so many nanoseconds at the most. */
static void sleep_on(uint64_t *futex_word, uint32_t value, int64_t nanos)
{
    const struct timespec end = after(nanos);
    const yak_sleep_ sleep = {.until = &end, .clock = CLOCK_MONOTONIC};
    yak_sleep_on_(low_half(futex_word), value, &sleep);
}

static void announce(uint64_t *futex_word)
{
    __atomic_store_n(futex_word, 1, __ATOMIC_SEQ_CST);
}

/* Wakes one that announced that it sleeps on the futex word. */
static void wake(uint64_t *futex_word)
{
    if (__atomic_load_n(futex_word, __ATOMIC_SEQ_CST) == 1) {
        __atomic_store_n(futex_word, 0, __ATOMIC_SEQ_CST);
        yak_wake_on_(low_half(futex_word), 1);
    }
}

bool yak_spin_(unsigned *tries, unsigned most)
{
    unsigned left = YAK_SHORT_BACKOFF_;
    if (*tries >= most)
        return false;
    for (unsigned i = 0; i < *tries && left < YAK_LONG_BACKOFF_; ++i)
        left *= 2;
    yak_pause_(left);
    ++*tries;
    return true;
}

/* ---- what watches calls: a seed, and ThreadSanitizer ---- */

/* ThreadSanitizer does not see the atomics of the library, so it is told what they give: a call
 * comes after those that came inside before it. It is there if its functions are. */
extern void __tsan_acquire(void *at) __attribute__((weak));
extern void __tsan_release(void *at) __attribute__((weak));

static const yak_turns_ *turns;
/* Whether there is either. */
static bool is_watched;

static __attribute__((constructor)) void begin(void)
{
    is_watched = is_watched || __tsan_acquire != 0;
}

void yak_follow_(const yak_turns_ *them)
{
    turns = them;
    is_watched = turns != 0 || __tsan_acquire != 0;
}

/* Where ThreadSanitizer keeps the order: at an address that no access has, since a store to a futex
 * word would begin it anew. */
static void *order_of(const yak_process *process)
{
    return (char *)process->futex_words + 4;
}

static void begin_call(const yak_process *process)
{
    if (!SELDOM(is_watched))
        return;
    if (turns != 0)
        turns->turn();
    if (__tsan_release != 0 && process->futex_words != 0)
        __tsan_release(order_of(process));
}

/* ---- who starves ---- */

/* A process that has waited for the lock for long says so in a word, while it tries. The others
 * look at that word behind each call: they return only once that process is inside, or is about to
 * sleep. So each of them is inside at most once before it. The word is no futex word of the
 * algorithm, and nobody is woken later for it. */

/* How far a call has come that tries to acquire the lock. */
typedef struct way {
    unsigned tries;
    bool starves;
    int64_t since; /* when it was about to sleep first, in nanoseconds; 0 before that */
    int64_t nanos; /* how long its last sleep lasted at most */
} way;

static int64_t nanos_now(void)
{
    struct timespec now;
    clock_gettime(CLOCK_MONOTONIC, &now);
    return (int64_t)now.tv_sec * SECOND + now.tv_nsec;
}

_Static_assert((int)YAK_STARVING_ == (int)YAK_STARVING_WORD_,
               "quick.h loads the word of who starves");

static void starve(yak_process *process)
{
    uint64_t *word = &process->futex_words[YAK_STARVING_WORD_], nobody = 0;
    if (__atomic_load_n(word, __ATOMIC_RELAXED) == 0)
        __atomic_compare_exchange_n(word, &nobody, process->number, false, __ATOMIC_SEQ_CST,
                                    __ATOMIC_RELAXED);
}

static void end_starving(yak_process *process)
{
    uint64_t *word = &process->futex_words[YAK_STARVING_WORD_];
    if (__atomic_load_n(word, __ATOMIC_RELAXED) % YAK_HELD_ == process->number &&
        __atomic_exchange_n(word, 0, __ATOMIC_SEQ_CST) >= YAK_HELD_)
        yak_wake_on_(low_half(word), INT_MAX);
}

/* Waits until the process that starves is inside. It may be stopped: then, after a millisecond, it
 * starves no longer, and says so again if it only was late. */
static __attribute__((noinline)) void let_starving_in(uint64_t *word)
{
    unsigned tries = 0;
    uint64_t starving, held;
    do
        starving = __atomic_load_n(word, __ATOMIC_SEQ_CST);
    while (starving != 0 && yak_spin_(&tries, YAK_POLLS_HELD_BACK_));
    held = starving % YAK_HELD_ + YAK_HELD_;
    if (starving == 0 ||
        (starving != held && !__atomic_compare_exchange_n(word, &starving, held, false,
                                                          __ATOMIC_SEQ_CST, __ATOMIC_RELAXED)))
        return;
    sleep_on(word, (uint32_t)held, (int64_t)YAK_LONGEST_HOLD_ * MILLISECOND);
    if (__atomic_compare_exchange_n(word, &held, 0, false, __ATOMIC_SEQ_CST, __ATOMIC_RELAXED))
        yak_wake_on_(low_half(word), INT_MAX);
}

/* ---- the way into the lock ---- */

/* Wakes those that wait for what the last call of the process changed, and lets one in that
 * starves. */
static void end_call(yak_process *process)
{
    if (process->futex_words == 0)
        return;
    if (SELDOM(is_watched) && __tsan_acquire != 0)
        __tsan_acquire(order_of(process));
    wake(&process->futex_words[LOCK_WORD]);
    wake(&process->futex_words[process->number]);
    for (uint32_t left = process->answered; left != 0; left &= left - 1)
        wake(&process->futex_words[YAK_ANSWER_WORD_ + 1 + __builtin_ctz(left)]);
    if (SELDOM(__atomic_load_n(&process->futex_words[YAK_STARVING_WORD_], __ATOMIC_SEQ_CST) != 0))
        let_starving_in(&process->futex_words[YAK_STARVING_WORD_]);
}

/* Once the tries of a call have gone on from the flag at which they announced a sleep, wakes the
 * next one there, since nobody may come to lower that flag again. */
static void go_on(yak_process *process, unsigned tries)
{
    if (SELDOM(tries > YAK_SPINS_ + 1))
        wake(&process->futex_words[tries - YAK_SPINS_ - 1]);
}

/* The same once a call is made. */
static void come_through(yak_process *process, const way *its)
{
    go_on(process, its->tries);
    if (SELDOM(its->starves))
        end_starving(process);
}

/* Sleeps on a futex word that was announced, until it is woken. The first sleep of a call lasts for
 * half a millisecond at the most, so that it finds out that it starves, and each further one for
 * twice as long. */
static void sleep_for_lock(yak_process *process, way *its, uint32_t futex_word)
{
    end_starving(process); /* nobody is to wait for one that sleeps */
    if (its->since == 0)
        its->since = nanos_now();
    its->nanos = its->nanos == 0 ? (int64_t)YAK_LOCK_SLEEP_ * 1000 : 2 * its->nanos;
    if (its->nanos > (int64_t)LONGEST_SLEEP * SECOND)
        its->nanos = (int64_t)LONGEST_SLEEP * SECOND;
    sleep_on(&process->futex_words[futex_word], 1, its->nanos);
    its->starves = nanos_now() - its->since >= (int64_t)YAK_LOCK_SLEEP_ * 1000;
}

/* Passes the time before the next try of a call: pauses, and after some tries announces that the
 * process sleeps. If the next try fails too, and for the same reason, it sleeps, and begins anew.
 * If the last step of a try made progress, there is no futex word on which it could sleep, and it
 * tries again. A process that wakes from a sleep for the lock announces the next sleep for those
 * that sleep on, since each departure wakes one. A process that wakes from a sleep for the flag of
 * another wakes the next, since nobody may come to lower that flag again. */
static __attribute__((noinline)) void rest(yak_process *process, way *its)
{
    uint32_t futex_word;
    if (its->starves)
        starve(process);
    if (yak_spin_(&its->tries, YAK_SPINS_) || process->futex_words == 0 ||
        yak_proved_futex_word(process, &futex_word) != YAK_DONE || futex_word > YAK_ANSWER_WORD_)
        return;
    wake(&process->futex_words[process->number]); /* its own flag, which the last try may have
                                                     lowered */
    if (its->tries != YAK_SPINS_ + 1 + futex_word) {
        go_on(process, its->tries);
        its->tries = YAK_SPINS_ + 1 + futex_word;
        announce(&process->futex_words[futex_word]);
        return;
    }
    its->tries = 0;
    sleep_for_lock(process, its, futex_word);
    if (futex_word == LOCK_WORD)
        announce(&process->futex_words[futex_word]);
    else
        yak_wake_on_(low_half(&process->futex_words[futex_word]), 1);
}

/* The call of this name, which makes its proved try again until its process comes inside the lock.
 */
#define THROUGH(name, parameters, ...)                                  \
    uint32_t yak_##name parameters                                      \
    {                                                                   \
        way its_ = {0};                                                 \
        uint32_t answer_;                                               \
        begin_call(process);                                            \
        while ((answer_ = yak_proved_##name(__VA_ARGS__)) == YAK_RETRY) \
            rest(process, &its_);                                       \
        come_through(process, &its_);                                   \
        end_call(process);                                              \
        return answer_;                                                 \
    }

#define PROCESS yak_process *process

THROUGH(open, (PROCESS, const uint8_t *name, size_t len, const yak_opening *opening, uint32_t *d),
        process, name, len, opening, d)
THROUGH(close, (PROCESS, uint32_t d), process, d)
THROUGH(unlink, (PROCESS, const uint8_t *name, size_t len), process, name, len)
THROUGH(notify, (PROCESS, uint32_t d, bool registers, uint64_t value), process, d, registers, value)
THROUGH(next_notice, (PROCESS, uint64_t *value), process, value)
THROUGH(getattr, (PROCESS, uint32_t d, yak_attributes *now), process, d, now)
THROUGH(setattr, (PROCESS, uint32_t d, bool nonblock, yak_attributes *old), process, d, nonblock,
        old)
THROUGH(exit, (PROCESS), process)
THROUGH(start_send, (PROCESS, uint32_t d, const uint8_t *bytes, size_t len, uint32_t prio), process,
        d, bytes, len, prio)
THROUGH(start_receive, (PROCESS, uint32_t d, uint8_t *buf, size_t len, yak_message *message),
        process, d, buf, len, message)
THROUGH(start_timed_send,
        (PROCESS, uint32_t d, const uint8_t *bytes, size_t len, uint32_t prio,
         const yak_moment *until, const yak_moment *now),
        process, d, bytes, len, prio, until, now)
THROUGH(start_timed_receive,
        (PROCESS, uint32_t d, uint8_t *buf, size_t len, yak_message *message,
         const yak_moment *until, const yak_moment *now),
        process, d, buf, len, message, until, now)
THROUGH(collect, (PROCESS, uint8_t *buf, size_t len, yak_message *message), process, buf, len,
        message)
THROUGH(end_wait, (PROCESS, uint8_t *buf, size_t len, yak_message *message, const yak_moment *now),
        process, buf, len, message, now)
THROUGH(check, (PROCESS), process)
THROUGH(room, (PROCESS, yak_room_left *room), process, room)
THROUGH(nobody_can_call, (PROCESS), process)

uint32_t yak_through_(yak_process *process, yak_try_ *attempt, void *with)
{
    way its = {0};
    uint32_t answer;
    begin_call(process);
    while ((answer = attempt(process, with)) == YAK_RETRY)
        rest(process, &its);
    come_through(process, &its);
    end_call(process);
    return answer;
}

uint32_t yak_free(yak_process *process)
{
    const uint32_t answer = yak_answered(process);
    return answer == YAK_NOT_WAITING || answer == YAK_EMPTY ? yak_proved_free(process)
                                                            : (uint32_t)YAK_WAITING;
}

/* ---- waits for an answer ---- */

/* An open wait. */
typedef struct waiting {
    const char *call;
    uint32_t d;
    uint8_t *buf;
    size_t len;
    yak_message *message;
    const yak_moment *until; /* null if it has no deadline */
    yak_clock *clock;
} waiting;

/* Whether its deadline is by a clock of the program. */
static bool has_own_clock(const waiting *it)
{
    return it->until != 0 && it->clock != 0 && it->clock != yak_now &&
           it->clock != yak_monotonic_now;
}

/* How often the owner of a clock has said that it moved. */
static uint64_t moves_of(const yak_process *process)
{
    return process->futex_words == 0
               ? 0
               : __atomic_load_n(&process->futex_words[MOVES_WORD], __ATOMIC_SEQ_CST);
}

void yak_time_has_moved(const yak_process *process)
{
    if (process->futex_words == 0)
        return;
    __atomic_add_fetch(&process->futex_words[MOVES_WORD], 1, __ATOMIC_SEQ_CST);
    for (unsigned word = YAK_ANSWER_WORD_ + 1; word <= YAK_MISSES_WORD_; ++word)
        wake(&process->futex_words[word]);
}

static yak_moment now_by(clockid_t clock)
{
    struct timespec now;
    yak_moment moment;
    if (SELDOM(turns != 0))
        now = turns->now();
    else
        clock_gettime(clock, &now);
    moment.sec = (int64_t)now.tv_sec;
    moment.nsec = (int64_t)now.tv_nsec;
    return moment;
}

YAK_HOT yak_moment yak_now(void)
{
    return now_by(CLOCK_REALTIME);
}

yak_moment yak_monotonic_now(void)
{
    return now_by(CLOCK_MONOTONIC);
}

/* The nanoseconds until a moment, and no more than that; 0 if it has come. */
static int64_t time_left(const yak_moment *until, yak_moment now, int64_t most)
{
    int64_t left;
    if (until->sec < now.sec)
        return 0;
    if ((uint64_t)until->sec - (uint64_t)now.sec > 1)
        return most;
    left = (until->sec != now.sec ? SECOND : 0) + until->nsec - now.nsec;
    return left < 0 ? 0 : left < most ? left : most;
}

/* The misses of a process after it has looked for an answer. It doubts if one in four of its last
 * looks or more was in vain, and after so many waits tries again. */
static uint64_t learn(uint64_t misses, bool was_answered)
{
    if (misses >= YAK_MOST_MISSES_ + YAK_WAITS_WITH_FEW_POLLS_)
        return YAK_MOST_MISSES_ - YAK_FOR_A_MISS_;
    if (misses >= YAK_MOST_MISSES_)
        return misses + 1;
    return !was_answered ? misses + YAK_FOR_A_MISS_ : misses != 0 ? misses - 1 : 0;
}

/* Looks with pauses, and says whether the open wait still is not answered. */
static bool polls_fail(yak_process *process)
{
    uint64_t *word = &process->futex_words[YAK_MISSES_WORD_ + process->number];
    const uint64_t misses = __atomic_load_n(word, __ATOMIC_RELAXED);
    const unsigned most = misses < YAK_MOST_MISSES_ ? YAK_LONG_POLLS_ : YAK_SHORT_POLLS_;
    unsigned tries = 0;
    bool in_vain;
    do
        in_vain = yak_answered(process) == YAK_WAITS;
    while (in_vain && yak_spin_(&tries, most));
    __atomic_store_n(word, learn(misses, !in_vain), __ATOMIC_RELAXED);
    return in_vain;
}

/* Looks until the open wait is answered, and then sleeps until the call that answers it wakes the
 * process, or the sleep ends: false if it is not answered. By a clock of the program that has moved
 * since `moves` it does not sleep. */
static bool await_answer(yak_process *process, const waiting *it, const yak_sleep_ *sleep,
                         uint64_t moves)
{
    if (SELDOM(turns != 0)) {
        turns->await_answer(process, it->until, it->call, it->d);
    } else if (process->futex_words != 0 && polls_fail(process)) {
        uint64_t *futex_word = &process->futex_words[YAK_ANSWER_WORD_ + process->number];
        announce(futex_word);
        if (yak_answered(process) == YAK_WAITS &&
            (!has_own_clock(it) || moves_of(process) == moves))
            yak_sleep_on_(low_half(futex_word), 1, sleep);
        __atomic_store_n(futex_word, 0, __ATOMIC_SEQ_CST);
    }
    return yak_answered(process) != YAK_WAITS;
}

uint32_t yak_await_answered(yak_process *process, int64_t nanos)
{
    const int64_t most = nanos < 0 ? 0 : nanos;
    const struct timespec end = after(most);
    const yak_sleep_ sleep = {.until = &end, .clock = CLOCK_MONOTONIC};
    yak_moment until = yak_monotonic_now();
    const waiting it = {.call = "a call", .until = &until};
    until.nsec += most % SECOND;
    until.sec += most / SECOND + until.nsec / SECOND;
    until.nsec %= SECOND;
    if (yak_answered(process) == YAK_WAITS)
        await_answer(process, &it, &sleep, 0);
    return yak_answered(process);
}

/* Until when an open wait sleeps at most: until its deadline if that is by a clock of the system,
 * and if it has none, without an end. By a clock of the program it also sleeps without an end if
 * somebody says when that moves, and else for so many nanoseconds, and then looks at the clock. */
static yak_sleep_ sleep_of(const waiting *it, bool has_other_deadline, bool is_told, int64_t delay,
                           struct timespec *end)
{
    yak_sleep_ sleep = {.until = end, .clock = CLOCK_MONOTONIC};
    const bool is_own = has_own_clock(it);
    if (it->until == 0 || (is_own && !has_other_deadline && is_told)) {
        sleep.until = 0;
    } else if (!is_own && !has_other_deadline && it->until->sec >= 0 && it->until->nsec >= 0 &&
               it->until->nsec < SECOND) {
        end->tv_sec = (time_t)it->until->sec;
        end->tv_nsec = (long)it->until->nsec;
        sleep.clock = it->clock == yak_now ? CLOCK_REALTIME : CLOCK_MONOTONIC;
    } else {
        const int64_t left = has_other_deadline ? delay : time_left(it->until, it->clock(), delay);
        *end = after(left);
    }
    return sleep;
}

/* Waits until the open wait is answered, or its deadline has passed, and ends it. If it is too
 * early for that, the wait has another deadline, or none. */
static uint32_t await_end(yak_process *process, const waiting *it)
{
    int64_t delay = (int64_t)YAK_FIRST_SLEEP_ * MILLISECOND;
    uint32_t answer = YAK_WAITS;
    /* 0 at first: the clock was read before, so if it has moved ever, it is read once more. */
    uint64_t moves = 0;
    while (answer == YAK_WAITS || answer == YAK_EARLY) {
        struct timespec end;
        const yak_sleep_ sleep = sleep_of(it, answer == YAK_EARLY, moves != 0, delay, &end);
        answer = YAK_WAITS;
        if (await_answer(process, it, &sleep, moves)) {
            answer = yak_collect(process, it->buf, it->len, it->message);
        } else if (it->until != 0) {
            yak_moment now;
            moves = moves_of(process);
            now = it->clock();
            if (time_left(it->until, now, 1) == 0)
                answer = yak_end_wait(process, it->buf, it->len, it->message, &now);
        }
        if (delay < (int64_t)YAK_LONGEST_SLEEP_ * MILLISECOND)
            delay *= 2;
    }
    return answer;
}

uint32_t yak_await_until(yak_process *process, uint8_t *buf, size_t len, yak_message *message,
                         const yak_moment *until)
{
    const waiting it = {
        .call = "a call",
        .buf = buf,
        .len = len,
        .message = message,
        .until = until,
        .clock = yak_now,
    };
    return await_end(process, &it);
}

uint32_t yak_await(yak_process *process, uint8_t *buf, size_t len, yak_message *message)
{
    return yak_await_until(process, buf, len, message, 0);
}

uint32_t yak_send_on_(yak_process *process, uint32_t d, const uint8_t *bytes, size_t len,
                      uint32_t prio, uint32_t answer)
{
    uint8_t none = 0;
    yak_message message = {0};
    const waiting it = {.call = "a send", .d = d, .buf = &none, .message = &message};
    way way = {0};
    while (answer == YAK_RETRY) {
        rest(process, &way);
        answer = yak_proved_start_send(process, d, bytes, len, prio);
    }
    come_through(process, &way);
    end_call(process);
    return answer == YAK_WAITS ? await_end(process, &it) : answer;
}

uint32_t yak_receive_on_(yak_process *process, uint32_t d, uint8_t *buf, size_t len,
                         yak_message *message, uint32_t answer)
{
    const waiting it = {.call = "a receive", .d = d, .buf = buf, .len = len, .message = message};
    way way = {0};
    while (answer == YAK_RETRY) {
        rest(process, &way);
        answer = yak_proved_start_receive(process, d, buf, len, message);
    }
    come_through(process, &way);
    end_call(process);
    return answer == YAK_WAITS ? await_end(process, &it) : answer;
}

uint32_t yak_send(yak_process *process, uint32_t d, const uint8_t *bytes, size_t len, uint32_t prio)
{
    if (!SELDOM(is_watched))
        return yak_quick_send_(process, d, bytes, len, prio);
    begin_call(process);
    return yak_send_on_(process, d, bytes, len, prio,
                        yak_proved_start_send(process, d, bytes, len, prio));
}

uint32_t yak_receive(yak_process *process, uint32_t d, uint8_t *buf, size_t len,
                     yak_message *message)
{
    if (!SELDOM(is_watched))
        return yak_quick_receive_(process, d, buf, len, message);
    begin_call(process);
    return yak_receive_on_(process, d, buf, len, message,
                           yak_proved_start_receive(process, d, buf, len, message));
}

uint32_t yak_clock_send(yak_process *process, uint32_t d, const uint8_t *bytes, size_t len,
                        uint32_t prio, const yak_moment *until, yak_clock *clock)
{
    uint8_t none = 0;
    yak_message message = {0};
    const waiting it = {.call = "a timed send",
                        .d = d,
                        .buf = &none,
                        .message = &message,
                        .until = until,
                        .clock = clock};
    const yak_moment now = clock();
    const uint32_t answer = yak_start_timed_send(process, d, bytes, len, prio, until, &now);
    return answer == YAK_WAITS ? await_end(process, &it) : answer;
}

uint32_t yak_clock_receive(yak_process *process, uint32_t d, uint8_t *buf, size_t len,
                           yak_message *message, const yak_moment *until, yak_clock *clock)
{
    const waiting it = {.call = "a timed receive",
                        .d = d,
                        .buf = buf,
                        .len = len,
                        .message = message,
                        .until = until,
                        .clock = clock};
    const yak_moment now = clock();
    const uint32_t answer = yak_start_timed_receive(process, d, buf, len, message, until, &now);
    return answer == YAK_WAITS ? await_end(process, &it) : answer;
}

uint32_t yak_timed_send(yak_process *process, uint32_t d, const uint8_t *bytes, size_t len,
                        uint32_t prio, const yak_moment *until)
{
    return yak_clock_send(process, d, bytes, len, prio, until, yak_now);
}

uint32_t yak_timed_receive(yak_process *process, uint32_t d, uint8_t *buf, size_t len,
                           yak_message *message, const yak_moment *until)
{
    return yak_clock_receive(process, d, buf, len, message, until, yak_now);
}

/* ---- the end of a system ---- */

uint32_t yak_finish(yak_process *processes, size_t count)
{
    if (count == 0)
        return YAK_EMPTY;
    for (size_t i = 0; i < count; ++i)
        if (yak_answered(&processes[i]) == YAK_EMPTY)
            return YAK_EMPTY;
    for (size_t i = 1; i < count; ++i)
        if (processes[i].futex_words != processes[0].futex_words)
            return YAK_INVAL;
    (void)yak_check(&processes[0]);
    for (size_t i = 0; i < count; ++i)
        yak_proved_free(&processes[i]);
    return YAK_DONE;
}

int yak_errno(uint32_t answer)
{
    static const int faults[] = {
        [YAK_DONE] = 0,
        [YAK_AGAIN] = EAGAIN,
        [YAK_BADF] = EBADF,
        [YAK_BUSY] = EBUSY,
        [YAK_EXIST] = EEXIST,
        [YAK_INVAL] = EINVAL,
        [YAK_MFILE] = EMFILE,
        [YAK_MSGSIZE] = EMSGSIZE,
        [YAK_NAMETOOLONG] = ENAMETOOLONG,
        [YAK_NOENT] = ENOENT,
        [YAK_NOSPC] = ENOSPC,
        [YAK_NOMEMORY] = ENOMEM,
        [YAK_TIMEDOUT] = ETIMEDOUT,
        [YAK_JOURNALFULL] = ENOSPC,
    };
    if (answer < sizeof faults / sizeof faults[0])
        return faults[answer];
    return answer == YAK_WAITING    ? EBUSY
           : answer == YAK_EMPTY    ? EPERM
           : answer == YAK_UNSTORED ? ENOTSUP
                                    : EINVAL;
}
