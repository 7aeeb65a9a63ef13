/* Ways to wait, and to let others go on, in a program that is not compiled anew, under a seed. The
 * argument names one. A run that the machine can decide prints well; one that it can't ends with
 * status 2; none ends with status 5, since none comes to a deadlock. */
#define _GNU_SOURCE
#include <aio.h>
#include <errno.h>
#include <fcntl.h>
#include <mqueue.h>
#include <poll.h>
#include <pthread.h>
#include <semaphore.h>
#include <signal.h>
#include <stdatomic.h>
#include <stdio.h>
#include <stdlib.h>
#include <string.h>
#include <sys/mman.h>
#include <sys/time.h>
#include <sys/wait.h>
#include <threads.h>
#include <time.h>
#include <unistd.h>

#include "want.h"

enum { MANY = 3000, TURNS = 40 };

static pthread_mutex_t mutex = PTHREAD_MUTEX_INITIALIZER;
static pthread_cond_t cond = PTHREAD_COND_INITIALIZER;
static sem_t sem;
static mqd_t queue;

static pthread_t start(void *(*run)(void *), void *with)
{
    pthread_t thread;
    WANT(pthread_create(&thread, 0, run, with) == 0);
    return thread;
}

static struct timespec in_seconds(clockid_t clock, long seconds)
{
    struct timespec t;
    WANT(clock_gettime(clock, &t) == 0);
    t.tv_sec += seconds;
    return t;
}

/* ---- what the machine decides ---- */

static void checks_errors(void)
{
    pthread_mutexattr_t attr;
    pthread_mutex_t checked;
    WANT(pthread_mutexattr_init(&attr) == 0 &&
         pthread_mutexattr_settype(&attr, PTHREAD_MUTEX_ERRORCHECK) == 0);
    WANT(pthread_mutex_init(&checked, &attr) == 0);
    WANT(pthread_mutex_unlock(&checked) == EPERM);
    WANT(pthread_mutex_lock(&checked) == 0 && pthread_mutex_lock(&checked) == EDEADLK);
    WANT(pthread_mutex_unlock(&checked) == 0 && pthread_mutex_unlock(&checked) == EPERM);
    WANT(pthread_mutexattr_settype(&attr, PTHREAD_MUTEX_RECURSIVE) == 0 &&
         pthread_mutex_init(&checked, &attr) == 0);
    WANT(pthread_mutex_lock(&checked) == 0 && pthread_mutex_lock(&checked) == 0);
    WANT(pthread_mutex_unlock(&checked) == 0 && pthread_mutex_unlock(&checked) == 0);
}

static void *hold_for_five(void *of)
{
    (void)of;
    WANT(pthread_mutex_lock(&mutex) == 0);
    WANT(sem_post(&sem) == 0);
    sleep(5);
    WANT(pthread_cond_signal(&cond) == 0);
    WANT(pthread_mutex_unlock(&mutex) == 0);
    return 0;
}

/* A deadline by a clock that the caller names passes, and a signal comes before it. */
static void by_clocks(void)
{
    struct timespec soon;
    pthread_t thread = start(hold_for_five, 0);
    WANT(sem_wait(&sem) == 0);
    soon = in_seconds(CLOCK_MONOTONIC, 2);
    WANT(pthread_mutex_clocklock(&mutex, CLOCK_MONOTONIC, &soon) == ETIMEDOUT);
    soon = in_seconds(CLOCK_REALTIME, 1);
    WANT(pthread_mutex_timedlock(&mutex, &soon) == ETIMEDOUT);
    soon = in_seconds(CLOCK_REALTIME, 100);
    WANT(pthread_mutex_timedlock(&mutex, &soon) == 0 && pthread_mutex_unlock(&mutex) == 0);
    WANT(pthread_join(thread, 0) == 0);
    soon = in_seconds(CLOCK_MONOTONIC, 3);
    WANT(sem_clockwait(&sem, CLOCK_MONOTONIC, &soon) == -1 && errno == ETIMEDOUT);
    WANT(pthread_mutex_lock(&mutex) == 0);
    soon = in_seconds(CLOCK_MONOTONIC, 3);
    WANT(pthread_cond_clockwait(&cond, &mutex, CLOCK_MONOTONIC, &soon) == ETIMEDOUT);
    thread = start(hold_for_five, 0);
    soon = in_seconds(CLOCK_MONOTONIC, 1000);
    WANT(pthread_cond_clockwait(&cond, &mutex, CLOCK_MONOTONIC, &soon) == 0);
    WANT(pthread_mutex_unlock(&mutex) == 0 && pthread_join(thread, 0) == 0);
}

static pthread_rwlock_t lock = PTHREAD_RWLOCK_INITIALIZER;
static atomic_int readers, writers;

static void *read_or_write(void *of)
{
    for (int i = 0; i < 10; ++i)
        if (of != 0) {
            WANT(pthread_rwlock_wrlock(&lock) == 0);
            WANT(readers == 0 && atomic_fetch_add(&writers, 1) == 0);
            sched_yield();
            WANT(readers == 0 && atomic_fetch_sub(&writers, 1) == 1);
            WANT(pthread_rwlock_unlock(&lock) == 0);
        } else {
            WANT(pthread_rwlock_rdlock(&lock) == 0);
            WANT(writers == 0 && atomic_fetch_add(&readers, 1) >= 0);
            sched_yield();
            WANT(writers == 0 && atomic_fetch_sub(&readers, 1) > 0);
            WANT(pthread_rwlock_unlock(&lock) == 0);
        }
    return 0;
}

static void reads_and_writes(void)
{
    pthread_t threads[4];
    struct timespec soon = in_seconds(CLOCK_REALTIME, 1);
    for (int i = 0; i < 4; ++i)
        threads[i] = start(read_or_write, i % 2 != 0 ? &lock : 0);
    for (int i = 0; i < 4; ++i)
        WANT(pthread_join(threads[i], 0) == 0);
    WANT(pthread_rwlock_wrlock(&lock) == 0 && pthread_rwlock_wrlock(&lock) == EDEADLK &&
         pthread_rwlock_unlock(&lock) == 0);
    WANT(pthread_rwlock_rdlock(&lock) == 0 &&
         pthread_rwlock_timedwrlock(&lock, &soon) == ETIMEDOUT);
    soon = in_seconds(CLOCK_MONOTONIC, 1);
    WANT(pthread_rwlock_clockwrlock(&lock, CLOCK_MONOTONIC, &soon) == ETIMEDOUT &&
         pthread_rwlock_unlock(&lock) == 0);
}

static void *post(void *of)
{
    (void)of;
    WANT(sem_post(&sem) == 0);
    return 0;
}

/* More threads than there are seats, some of which are never joined. */
static void many(void)
{
    for (int i = 0; i < MANY; ++i) {
        pthread_t thread = start(post, 0);
        WANT(sem_wait(&sem) == 0);
        WANT((i % 2 == 0 ? pthread_join(thread, 0) : pthread_detach(thread)) == 0);
    }
}

static char turns[2 * TURNS + 1];
static atomic_int taken;

static void *take_turns(void *letter)
{
    for (int i = 0; i < TURNS; ++i) {
        turns[atomic_fetch_add(&taken, 1)] = *(const char *)letter;
        sched_yield();
    }
    return 0;
}

/* The generator chooses now one thread, and now the other. */
static void takes_turns(void)
{
    pthread_t one = start(take_turns, "a"), other = start(take_turns, "b");
    WANT(pthread_join(one, 0) == 0 && pthread_join(other, 0) == 0);
    WANT(strstr(turns, "ab") != 0 && strstr(turns, "ba") != 0 &&
         strstr(strstr(turns, "ba"), "ab") != 0);
}

/* What the program does at the end of a thread has the turn too. */
static pthread_key_t at_end;

static void lock_at_end(void *of)
{
    (void)of;
    WANT(pthread_mutex_lock(&mutex) == 0);
    sched_yield();
    WANT(pthread_mutex_unlock(&mutex) == 0);
}

static void *end_with_key(void *of)
{
    WANT(pthread_setspecific(at_end, of) == 0);
    return 0;
}

static void ends(void)
{
    pthread_t threads[8];
    WANT(pthread_key_create(&at_end, lock_at_end) == 0);
    for (int i = 0; i < 8; ++i)
        threads[i] = start(end_with_key, &at_end);
    for (int i = 0; i < 8; ++i)
        WANT(pthread_join(threads[i], 0) == 0);
}

static pthread_barrier_t barrier;
static pthread_once_t once = PTHREAD_ONCE_INIT;
static atomic_int met, begun, last;

static void begin(void)
{
    sched_yield();
    atomic_fetch_add(&begun, 1);
}

static void *meet(void *of)
{
    WANT(pthread_once(&once, begin) == 0 && begun == 1);
    for (int i = 1; i <= 10; ++i) {
        atomic_fetch_add(&met, 1);
        if (pthread_barrier_wait(&barrier) == PTHREAD_BARRIER_SERIAL_THREAD)
            atomic_fetch_add(&last, 1);
        WANT(met >= 3 * i);
    }
    return of;
}

/* Three meet ten times, and one of them is the last each time. */
static void meets(void)
{
    pthread_t threads[3];
    WANT(pthread_barrier_init(&barrier, 0, 3) == 0);
    for (int i = 0; i < 3; ++i)
        threads[i] = start(meet, 0);
    for (int i = 0; i < 3; ++i)
        WANT(pthread_join(threads[i], 0) == 0);
    WANT(last == 10);
}

static void unlock(void *of)
{
    pthread_mutex_unlock(of);
}

static void *wait_for_condition(void *of)
{
    WANT(pthread_mutex_lock(&mutex) == 0);
    pthread_cleanup_push(unlock, &mutex);
    for (;;)
        pthread_cond_wait(&cond, &mutex);
    pthread_cleanup_pop(1);
    return of;
}

/* A thread that is cancelled leaves its wait, and its mutex. */
static void cancels(void)
{
    pthread_t thread = start(wait_for_condition, 0);
    void *result;
    sched_yield();
    WANT(pthread_cancel(thread) == 0 && pthread_join(thread, &result) == 0);
    WANT(result == PTHREAD_CANCELED);
    WANT(pthread_mutex_lock(&mutex) == 0 && pthread_mutex_unlock(&mutex) == 0);
}

static void *end(void *of)
{
    return of;
}

static void *sleep_and_end(void *of)
{
    sleep(1);
    return of;
}

/* A thread that nobody joins leaves its name to a later one, for which somebody waits. */
static void names(void)
{
    for (int i = 0; i < 50; ++i) {
        pthread_t thread = start(end, 0);
        void *result;
        WANT(pthread_detach(thread) == 0);
        thread = start(sleep_and_end, &thread);
        WANT(pthread_join(thread, &result) == 0 && result == &thread);
    }
}

static int send_from_c11(void *of)
{
    (void)of;
    return mq_send(queue, "a", 1, 0);
}

/* A thread of <threads.h> is one as any other. */
static void c11(void)
{
    char buf[8];
    thrd_t thread;
    WANT(thrd_create(&thread, send_from_c11, 0) == thrd_success);
    WANT(mq_receive(queue, buf, sizeof buf, 0) == 1 && thrd_join(thread, 0) == thrd_success);
}

/* ---- what it can't decide ---- */

/* A thread that the C library starts by itself: it says that a read is done. */
static void start_stranger(void (*run)(union sigval value))
{
    static struct aiocb control;
    static char byte;
    control.aio_fildes = open("/dev/zero", O_RDONLY);
    control.aio_buf = &byte;
    control.aio_nbytes = 1;
    control.aio_sigevent.sigev_notify = SIGEV_THREAD;
    control.aio_sigevent.sigev_notify_function = run;
    WANT(control.aio_fildes >= 0 && aio_read(&control) == 0);
}

static void send_as_stranger(union sigval value)
{
    (void)value;
    mq_send(queue, "a", 1, 0);
}

static void stranger(void)
{
    char buf[8];
    start_stranger(send_as_stranger);
    WANT(mq_receive(queue, buf, sizeof buf, 0) == 1);
}

/* A thread that the machine does not know, and that makes none of its calls, lets one go on by a
 * signal. */
static pthread_t first;

static void post_from_handler(int number)
{
    (void)number;
    sem_post(&sem);
}

static void handle(int number)
{
    struct sigaction action;
    memset(&action, 0, sizeof action);
    action.sa_handler = post_from_handler;
    action.sa_flags = SA_RESTART;
    WANT(sigaction(number, &action, 0) == 0);
}

static void signal_as_stranger(union sigval value)
{
    poll(0, 0, 200);
    pthread_sigqueue(first, SIGUSR1, value);
}

static void quiet(void)
{
    first = pthread_self();
    handle(SIGUSR1);
    start_stranger(signal_as_stranger);
    WANT(sem_wait(&sem) == 0);
}

static void *wait_for_queue(void *of)
{
    char buf[8];
    (void)of;
    WANT(mq_receive(queue, buf, sizeof buf, 0) == 1);
    return 0;
}

/* As a collector suspends threads: it signals one that waits, and waits for its handler. */
static void suspends(void)
{
    pthread_t thread = start(wait_for_queue, 0);
    handle(SIGUSR1);
    sched_yield();
    sched_yield();
    WANT(pthread_kill(thread, SIGUSR1) == 0);
    WANT(sem_wait(&sem) == 0);
    WANT(mq_send(queue, "a", 1, 0) == 0 && pthread_join(thread, 0) == 0);
}

static void timer(void)
{
    struct itimerval soon = {{0, 0}, {0, 200000}};
    handle(SIGALRM);
    WANT(setitimer(ITIMER_REAL, &soon, 0) == 0);
    WANT(sem_wait(&sem) == 0);
}

static void shared(void)
{
    sem_t *both = mmap(0, sizeof *both, PROT_READ | PROT_WRITE, MAP_SHARED | MAP_ANONYMOUS, -1, 0);
    pid_t child;
    WANT(both != MAP_FAILED && sem_init(both, 1, 0) == 0);
    child = fork();
    if (child == 0) {
        usleep(1000);
        sem_post(both);
        _exit(0);
    }
    WANT(sem_wait(both) == 0 && waitpid(child, 0, 0) == child);
}

int main(int count, char **words)
{
    static const struct {
        const char *name;
        void (*run)(void);
    } ways[] = {
        {"errors", checks_errors},
        {"clocks", by_clocks},
        {"readers", reads_and_writes},
        {"many", many},
        {"turns", takes_turns},
        {"ends", ends},
        {"meets", meets},
        {"cancels", cancels},
        {"names", names},
        {"c11", c11},
        {"stranger", stranger},
        {"quiet", quiet},
        {"suspends", suspends},
        {"timer", timer},
        {"shared", shared},
    };
    struct mq_attr attr = room_for(1);
    WANT(sem_init(&sem, 0, 0) == 0);
    mq_unlink("/yak-seeded-waits");
    WANT((queue = mq_open("/yak-seeded-waits", O_RDWR | O_CREAT | O_EXCL, 0600, &attr)) != -1);
    for (size_t i = 0; i < sizeof ways / sizeof ways[0]; ++i)
        if (count == 2 && strcmp(words[1], ways[i].name) == 0) {
            ways[i].run();
            mq_unlink("/yak-seeded-waits");
            puts("well");
            return 0;
        }
    return 1;
}
