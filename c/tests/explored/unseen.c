/* unseen WAY: what ends a wait, or counts the threads, is not seen by the explorer. Each is right,
 * or computes for long, and must not be reported as a failure. */
#include "short.h"

#include <semaphore.h>
#include <signal.h>
#include <sys/mman.h>
#include <sys/wait.h>
#include <unistd.h>

static sem_t semaphore, *common;
static int ends[2];
static volatile unsigned long sum;

static void *await(void *of)
{
    while (sem_wait(of) != 0)
        ;
    return 0;
}

static void post_twice(int number_of_signal)
{
    (void)number_of_signal;
    sem_post(&semaphore);
    sem_post(&semaphore);
}

/* A handler of SIGALRM posts. */
static void alarm_posts(void)
{
    struct sigaction action = {.sa_handler = post_twice, .sa_flags = SA_RESTART};
    pthread_t other;
    sigaction(SIGALRM, &action, 0);
    other = go(await, (long)&semaphore);
    alarm(1);
    await(&semaphore);
    pthread_join(other, 0);
}

static void post(union sigval value)
{
    (void)value;
    sem_post(&semaphore);
}

/* A timer posts. */
static void timer_posts(void)
{
    struct sigevent event = {.sigev_notify = SIGEV_THREAD, .sigev_notify_function = post};
    const struct itimerspec soon = {.it_value.tv_nsec = 1000000};
    timer_t timer;
    pthread_t other;
    if (timer_create(CLOCK_MONOTONIC, &event, &timer) != 0)
        abort();
    other = go(await, (long)&semaphore);
    timer_settime(timer, 0, &soon, 0);
    pthread_join(other, 0);
}

/* A forked child posts. */
static void child_posts(void)
{
    pthread_t other = go(await, (long)common);
    if (fork() == 0) {
        usleep(1000);
        sem_post(common);
        _exit(0);
    }
    pthread_join(other, 0);
    wait(0);
}

/* A forked child sends, before there is a second thread. */
static void child_sends(void)
{
    const mqd_t queue = fresh("/child", 1);
    if (fork() == 0) {
        put(queue, 'c');
        _exit(0);
    }
    wait(0);
    if (held(queue) != 1)
        exit(1);
}

static void *write_pipe(void *of)
{
    (void)!write(ends[1], "p", 1);
    return of;
}

/* A thread reads from a pipe. */
static void pipe_is_read(void)
{
    pthread_t other;
    char byte;
    if (pipe(ends) != 0)
        abort();
    other = go(write_pipe, 0);
    (void)!read(ends[0], &byte, 1);
    pthread_join(other, 0);
}

static void *send_signal(void *of)
{
    kill(getpid(), SIGUSR1);
    return of;
}

/* A thread waits for a signal. */
static void signal_is_awaited(void)
{
    pthread_t other;
    sigset_t set;
    int got;
    sigemptyset(&set);
    sigaddset(&set, SIGUSR1);
    pthread_sigmask(SIG_BLOCK, &set, 0);
    other = go(send_signal, 0);
    sigwait(&set, &got);
    pthread_join(other, 0);
}

static void *nothing(void *of)
{
    return of;
}

/* There are 70 threads, one after the other. */
static void many_threads(void)
{
    for (int i = 0; i < 70; ++i)
        pthread_join(go(nothing, 0), 0);
}

static void *compute(void *of)
{
    for (unsigned long i = 0; i < 30000000000ul; ++i)
        sum = i;
    return of;
}

/* The program waits before it starts a thread. */
static void waits_before(void)
{
    (void)!pipe(ends);
    (void)!read(ends[0], &(char){0}, 1);
}

/* A step takes some seconds of the processor. */
static void computes(void)
{
    pthread_join(go(compute, 0), 0);
}

int main(int count, char **words)
{
    static const struct {
        const char *name;
        void (*run)(void);
    } ways[] = {
        {"alarm", alarm_posts}, {"timer", timer_posts}, {"posts", child_posts},
        {"sends", child_sends}, {"pipe", pipe_is_read}, {"signal", signal_is_awaited},
        {"many", many_threads}, {"computes", computes}, {"before", waits_before},
    };
    sem_init(&semaphore, 0, 0);
    common = mmap(0, 4096, PROT_READ | PROT_WRITE, MAP_SHARED | MAP_ANONYMOUS, -1, 0);
    if (common == MAP_FAILED)
        abort();
    sem_init(common, 1, 0);
    for (unsigned i = 0; count > 1 && i < sizeof ways / sizeof ways[0]; ++i)
        if (strcmp(ways[i].name, words[1]) == 0) {
            ways[i].run();
            puts("done");
            return 0;
        }
    return 2;
}
