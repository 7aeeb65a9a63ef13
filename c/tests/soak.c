/* 64 threads make calls, with deadlines at all limits, while others cancel them, interrupt them
 * with handlers that make calls of their own, and fork. Each message is received as often as it was
 * sent, no call waits for what is there, no wait is left open, and in a forked child, which has
 * queues of its own (YAK_FORK=new), each call fails.
 *
 * usage: soak SECONDS CALLS [WHAT]     at least CALLS calls, spread over SECONDS seconds. With
 * WHAT = cancel there are only cancellations. */
#define _GNU_SOURCE
#include <errno.h>
#include <fcntl.h>
#include <mqueue.h>
#include <pthread.h>
#include <signal.h>
#include <stdatomic.h>
#include <stdbool.h>
#include <stdint.h>
#include <stdio.h>
#include <stdlib.h>
#include <string.h>
#include <sys/wait.h>
#include <time.h>
#include <unistd.h>
#include <yakyrombe/program.h>

#include "sanitized.h"
#include "stored.h"
#include "want.h"

/* ThreadSanitizer delays signals to a sleeping thread, and starts no thread during a fork. */
enum { HAS_HANDLERS = !HAS_THREAD_SANITIZER };

enum { THREADS = 64, QUEUES = 5, STUCK = 60 };

/* What the successive threads of a slot have done. */
typedef struct slot {
    pthread_t thread;
    pthread_mutex_t changes; /* held while the thread is joined and another is started */
    _Atomic uint64_t random, calls, sent, sent_sum, received, received_sum;
    /* By queue: how many calls without a deadline are in progress. */
    atomic_int sends[QUEUES], receives[QUEUES];
} slot;

static slot slots[THREADS];
static _Thread_local slot *own;
static mqd_t queues[QUEUES], hurried[QUEUES];
static const long room[QUEUES] = {1, 1, 2, 4, 8};
static atomic_bool is_over;
static bool has_signals, has_forks;
static pid_t parent;
static atomic_long forked;
static double began, seconds;
static uint64_t wanted;

static double now(void)
{
    struct timespec t;
    clock_gettime(CLOCK_MONOTONIC, &t);
    return (double)t.tv_sec + (double)t.tv_nsec / 1e9;
}

/* The next number by xorshift. If a handler interrupts it, two numbers can be the same. */
static uint64_t next(_Atomic uint64_t *state)
{
    uint64_t x = atomic_load(state);
    x ^= x << 13;
    x ^= x >> 7;
    x ^= x << 17;
    atomic_store(state, x);
    return x >> 11;
}

static uint64_t calls_made(void)
{
    uint64_t sum = 0;
    for (int i = 0; i < THREADS; ++i)
        sum += atomic_load(&slots[i].calls);
    return sum;
}

/* ---- calls ---- */

static struct timespec after(uint64_t micros)
{
    struct timespec t;
    clock_gettime(CLOCK_REALTIME, &t);
    t.tv_nsec += (long)(micros * 1000);
    t.tv_sec += t.tv_nsec / 1000000000;
    t.tv_nsec %= 1000000000;
    return t;
}

/* A deadline: none, a future one, a past one, the first and the last moments, and an invalid
 * moment. */
static const struct timespec *deadline(uint64_t number, struct timespec *it)
{
    static const struct timespec borders[] = {
        {INT64_MAX, 0},
        {INT64_MAX, 1},
        {INT64_MAX, 999999999},
        {INT64_MAX - 1, 999999999},
        {INT64_MAX / 1000000000, 0},
        {0, 0},
        {0, 1},
        {-1, 999999999},
        {INT64_MIN, 0},
        {INT64_MAX, 1000000000},
        {0, -1},
        {0, INT64_MAX},
    };
    if (number % 4 == 0)
        return 0;
    *it = number % 4 == 1 ? after(number / 4 % 3000)
                          : borders[number / 4 % (sizeof borders / sizeof borders[0])];
    return it;
}

/* Whether a call may fail with this error. */
static bool is_usual(void)
{
    return errno == EAGAIN || errno == EINTR || errno == ETIMEDOUT || errno == EINVAL ||
           errno == EDEADLK;
}

static void in_child(void)
{
    struct mq_attr attr;
    char buf[8];
    if (getpid() == parent)
        return;
    /* There the library says if a handler had interrupted a call inside. */
    close(STDERR_FILENO);
    WANT(mq_getattr(queues[0], &attr) == -1 && (errno == EBADF || errno == ENOSYS));
    WANT(mq_send(queues[0], "a", 1, 0) == -1 && (errno == EBADF || errno == ENOSYS));
    WANT(mq_receive(queues[0], buf, sizeof buf, 0) == -1 && (errno == EBADF || errno == ENOSYS));
    _exit(0);
}

static void end_call(void *of)
{
    atomic_fetch_sub((atomic_int *)of, 1);
}

static void send_one(mqd_t queue, uint64_t id, unsigned prio, const struct timespec *until,
                     bool is_timed)
{
    int result = is_timed ? mq_timedsend(queue, (const char *)&id, sizeof id, prio, until)
                          : mq_send(queue, (const char *)&id, sizeof id, prio);
    int error = errno;
    in_child();
    errno = error;
    WANT(result == 0 || (result == -1 && is_usual()));
    atomic_fetch_add(&own->calls, 1);
    if (result != 0)
        return;
    atomic_fetch_add(&own->sent, 1);
    atomic_fetch_add(&own->sent_sum, id);
}

static void receive_one(mqd_t queue, const struct timespec *until, bool is_timed)
{
    uint64_t id = 0;
    ssize_t result = is_timed ? mq_timedreceive(queue, (char *)&id, sizeof id, 0, until)
                              : mq_receive(queue, (char *)&id, sizeof id, 0);
    int error = errno;
    in_child();
    errno = error;
    WANT(result == sizeof id || (result == -1 && is_usual()));
    atomic_fetch_add(&own->calls, 1);
    if (result == -1)
        return;
    atomic_fetch_add(&own->received, 1);
    atomic_fetch_add(&own->received_sum, id);
}

static void call_one(bool is_send, mqd_t queue, uint64_t id, const struct timespec *until,
                     bool is_timed)
{
    if (is_send)
        send_one(queue, id, (unsigned)(id % 3), until, is_timed);
    else
        receive_one(queue, until, is_timed);
}

/* A call without a deadline. It is counted while it is in progress, even if it is cancelled. */
static __attribute__((noinline)) void call_endless(bool is_send, int queue, uint64_t id,
                                                   bool is_timed)
{
    pthread_cleanup_push(end_call, is_send ? &own->sends[queue] : &own->receives[queue]);
    atomic_fetch_add(is_send ? &own->sends[queue] : &own->receives[queue], 1);
    call_one(is_send, queues[queue], id, 0, is_timed);
    pthread_cleanup_pop(1);
}

/* A random call, which may wait. */
static void call_any(_Atomic uint64_t *random)
{
    struct timespec moment;
    uint64_t number = next(random), id = next(random);
    const struct timespec *until = deadline(next(random), &moment);
    int queue = (int)(number / 64 % QUEUES);
    bool hurries = number % 8 >= 6;
    if (until != 0 || hurries)
        call_one(number % 2 == 0, hurries ? hurried[queue] : queues[queue], id, until, until != 0);
    else
        call_endless(number % 2 == 0, queue, id, number % 16 >= 8);
}

/* A handler that interrupts malloc must not make calls, and the end of a thread and a fork call
 * malloc. */
static void hold_signals(void *before)
{
    sigset_t held;
    sigemptyset(&held);
    sigaddset(&held, SIGUSR1);
    sigaddset(&held, SIGUSR2);
    pthread_sigmask(SIG_BLOCK, &held, before);
}

static void fork_one(void)
{
    pid_t it;
    sigset_t before;
    hold_signals(&before);
    it = fork();
    WANT(it != -1);
    if (it == 0)
        in_child();
    atomic_fetch_add(&forked, 1);
    pthread_sigmask(SIG_SETMASK, &before, 0);
}

/* Interrupts a wait, or anything else, and makes calls of its own, which may wait for a moment. */
static void handle(int signal)
{
    int error = errno, before;
    struct mq_attr attr;
    struct timespec until;
    uint64_t number;
    (void)signal;
    if (own == 0 || getpid() != parent)
        return;
    number = next(&own->random);
    pthread_setcancelstate(PTHREAD_CANCEL_DISABLE, &before);
    until = after(number / 16 % 300);
    if (number % 4 == 0)
        send_one(hurried[number / 16 % QUEUES], number, 0, 0, false);
    else if (number % 4 == 1)
        receive_one(hurried[number / 16 % QUEUES], 0, false);
    else if (number % 16 == 2)
        receive_one(queues[number / 16 % QUEUES], &until, true);
    /* A handler that interrupted the library's own work may have interrupted malloc, in which no
     * fork is allowed. */
    else if (has_forks && number % 128 == 3 && mq_getattr(queues[0], &attr) == 0 &&
             atomic_load(&forked) < 1 + (long)(now() - began) * 20)
        fork_one();
    pthread_setcancelstate(before, 0);
    errno = error;
}

/* ---- threads ---- */

/* Spreads the calls over the time. A thread is not cancelled in the sleep: the GNU C library would
 * cancel it at any point of a call that a handler makes during the sleep. */
static void keep_pace(_Atomic uint64_t *random)
{
    int before;
    pthread_setcancelstate(PTHREAD_CANCEL_DISABLE, &before);
    while (!atomic_load(&is_over)) {
        double part = (now() - began) / seconds;
        struct timespec t = {0, (long)(next(random) % 20000000)};
        if (part >= 1 || (double)atomic_load(&own->calls) * THREADS <= part * (double)wanted)
            break;
        nanosleep(&t, 0);
    }
    pthread_setcancelstate(before, 0);
}

static void work_on(void)
{
    while (!atomic_load(&is_over)) {
        int before;
        call_any(&own->random);
        if (has_forks && next(&own->random) % 4096 == 0) {
            pthread_setcancelstate(PTHREAD_CANCEL_DISABLE, &before);
            fork_one();
            pthread_setcancelstate(before, 0);
        }
        if (next(&own->random) % 16 == 0)
            keep_pace(&own->random);
    }
}

static void *work(void *of)
{
    own = of;
    pthread_cleanup_push(hold_signals, 0);
    work_on();
    pthread_cleanup_pop(1);
    return 0;
}

static void start(slot *it)
{
    WANT(pthread_create(&it->thread, 0, work, it) == 0);
}

/* Cancels one thread after the other, and starts new ones. */
static void *cancel(void *of)
{
    _Atomic uint64_t random = 88172645463325252u;
    (void)of;
    while (!atomic_load(&is_over)) {
        slot *it = &slots[next(&random) % THREADS];
        struct timespec t = {0, (long)(next(&random) % 400000)};
        void *ended;
        pthread_mutex_lock(&it->changes);
        WANT(pthread_cancel(it->thread) == 0 && pthread_join(it->thread, &ended) == 0);
        WANT(ended == PTHREAD_CANCELED || atomic_load(&is_over));
        start(it);
        pthread_mutex_unlock(&it->changes);
        nanosleep(&t, 0);
    }
    return 0;
}

static void *interrupt(void *of)
{
    _Atomic uint64_t random = 362436069362436069u;
    (void)of;
    while (!atomic_load(&is_over)) {
        slot *it = &slots[next(&random) % THREADS];
        struct timespec t = {0, (long)(next(&random) % 200000)};
        pthread_mutex_lock(&it->changes);
        pthread_kill(it->thread, next(&random) % 2 == 0 ? SIGUSR1 : SIGUSR2);
        pthread_mutex_unlock(&it->changes);
        nanosleep(&t, 0);
    }
    return 0;
}

/* Ends the program if no call completes any more. */
static void *watch(void *of)
{
    uint64_t before = 0;
    (void)of;
    for (;;) {
        uint64_t made;
        pause_for(STUCK * 1000);
        made = calls_made();
        if (made == before) {
            printf("no call ended in %d seconds, after %llu\n", STUCK, (unsigned long long)made);
            yak_program_report(stdout);
            _exit(1);
        }
        before = made;
    }
    return 0;
}

/* Each child that has ended succeeded; with `all`, waits for those that have not ended. */
static void reap(bool all)
{
    static long reaped;
    pid_t it;
    int status;
    while (reaped < atomic_load(&forked) && (it = waitpid(-1, &status, all ? 0 : WNOHANG)) != 0) {
        WANT(it > 0 && WIFEXITED(status) && WEXITSTATUS(status) == 0);
        ++reaped;
    }
}

/* ---- what is left ---- */

static int count_of(bool is_send, int queue)
{
    int sum = 0;
    for (int i = 0; i < THREADS; ++i)
        sum += atomic_load(is_send ? &slots[i].sends[queue] : &slots[i].receives[queue]);
    return sum;
}

/* No call waits now without a deadline for something that is there. */
static bool is_settled(void)
{
    for (int queue = 0; queue < QUEUES; ++queue) {
        struct mq_attr attr;
        WANT(mq_getattr(queues[queue], &attr) == 0);
        if ((attr.mq_curmsgs > 0 && count_of(false, queue) != 0) ||
            (attr.mq_curmsgs < room[queue] && count_of(true, queue) != 0))
            return false;
    }
    return true;
}

static void end_threads(void)
{
    for (int i = 0; i < 2000 && !is_settled(); ++i)
        pause_for(10);
    WANT(is_settled());
    for (int i = 0; i < THREADS; ++i) {
        WANT(pthread_cancel(slots[i].thread) == 0 && pthread_join(slots[i].thread, 0) == 0);
        for (int queue = 0; queue < QUEUES; ++queue)
            WANT(atomic_load(&slots[i].sends[queue]) == 0 &&
                 atomic_load(&slots[i].receives[queue]) == 0);
    }
}

/* As many messages were received as sent, and the same ones; each queue takes and returns as many
 * as it has room for, and a receive from an empty one times out. */
static void conserved(void)
{
    uint64_t sent = 0, sent_sum = 0, received = 0, received_sum = 0;
    FILE *nowhere = fopen("/dev/null", "w");
    WANT(nowhere != 0 && yak_program_report(nowhere) == 0);
    fclose(nowhere);
    own = &slots[0];
    for (int queue = 0; queue < QUEUES; ++queue) {
        struct mq_attr attr;
        struct timespec soon;
        char buf[8];
        WANT(mq_getattr(queues[queue], &attr) == 0);
        for (; attr.mq_curmsgs > 0; --attr.mq_curmsgs)
            receive_one(hurried[queue], 0, false);
        soon = after(1000);
        WANT(mq_timedreceive(queues[queue], buf, sizeof buf, 0, &soon) == -1 && errno == ETIMEDOUT);
        for (long i = 0; i < room[queue]; ++i)
            WANT(mq_send(hurried[queue], "12345678", 8, 0) == 0);
        WANT(mq_getattr(queues[queue], &attr) == 0 && attr.mq_curmsgs == room[queue]);
        for (long i = 0; i < room[queue]; ++i)
            WANT(mq_receive(hurried[queue], buf, sizeof buf, 0) == 8);
    }
    for (int i = 0; i < THREADS; ++i) {
        sent += atomic_load(&slots[i].sent);
        sent_sum += atomic_load(&slots[i].sent_sum);
        received += atomic_load(&slots[i].received);
        received_sum += atomic_load(&slots[i].received_sum);
    }
    if (sent != received || sent_sum != received_sum)
        printf("%llu messages were sent and %llu received\n", (unsigned long long)sent,
               (unsigned long long)received);
    WANT(sent == received && sent_sum == received_sum && sent != 0);
    WANT(is_checked());
}

static void set_handlers(void)
{
    struct sigaction action;
    memset(&action, 0, sizeof action);
    action.sa_handler = handle;
    sigfillset(&action.sa_mask);
    WANT(sigaction(SIGUSR1, &action, 0) == 0);
    action.sa_flags = SA_RESTART;
    WANT(sigaction(SIGUSR2, &action, 0) == 0);
}

int main(int count, char **words)
{
    pthread_t others[3];
    int begun = 0;
    if (count < 3)
        return 2;
    WANT(setenv("YAK_FORK", "new", 1) == 0);
    seconds = atof(words[1]);
    wanted = strtoull(words[2], 0, 10);
    has_signals = has_forks = HAS_HANDLERS && count == 3;
    parent = getpid();
    for (int queue = 0; queue < QUEUES; ++queue) {
        struct mq_attr attr = room_for(room[queue]);
        char name[32];
        snprintf(name, sizeof name, "/yak-soak-%d", queue);
        WANT((queues[queue] = mq_open(name, O_RDWR | O_CREAT | O_EXCL, 0600, &attr)) != -1);
        WANT((hurried[queue] = mq_open(name, O_RDWR | O_NONBLOCK)) != -1);
    }
    set_handlers();
    began = now();
    for (int i = 0; i < THREADS; ++i) {
        pthread_mutex_init(&slots[i].changes, 0);
        atomic_store(&slots[i].random, (uint64_t)(i + 1) * 0x9E3779B97F4A7C15u);
        start(&slots[i]);
    }
    WANT(pthread_create(&others[begun++], 0, cancel, 0) == 0);
    if (has_signals)
        WANT(pthread_create(&others[begun++], 0, interrupt, 0) == 0);
    WANT(pthread_create(&others[begun], 0, watch, 0) == 0 && pthread_detach(others[begun]) == 0);
    while (now() - began < seconds || calls_made() < wanted) {
        pause_for(100);
        reap(false);
    }
    atomic_store(&is_over, true);
    while (begun != 0)
        WANT(pthread_join(others[--begun], 0) == 0);
    end_threads();
    reap(true);
    conserved();
    if (getenv("SOAK_TELLS") != 0)
        printf("%llu calls in %.0f seconds, %ld forks\n", (unsigned long long)calls_made(),
               now() - began, atomic_load(&forked));
    puts("well");
    return 0;
}
