/* A thread that is stopped outside the lock blocks no other: while one thread is held between its
 * calls, and one in a waiting call, two others make thousands of calls. A signal handler holds
 * them, as stopping just that thread would. */
#define _GNU_SOURCE
#include <fcntl.h>
#include <pthread.h>
#include <semaphore.h>
#include <signal.h>
#include <stdatomic.h>
#include <stdbool.h>

#include "want.h"

enum { CALLS = 2500, WORKERS = 2, HELD = 2 };

static atomic_bool goes_on;
static sem_t held;
static sem_t ready;

/* Holds the thread until it may continue. */
static void hold(int signal)
{
    (void)signal;
    int before = errno;
    sem_post(&held);
    while (!atomic_load(&goes_on)) {
        struct timespec t = {0, 1000000};
        nanosleep(&t, 0);
    }
    errno = before;
}

static mqd_t queue_of(const char *name)
{
    struct mq_attr attr = room_for(2);
    mqd_t it;
    WANT((it = mq_open(name, O_RDWR | O_CREAT, 0600, &attr)) != -1);
    return it;
}

/* Makes a call, and is stopped after it. */
static void *stops_between(void *of)
{
    (void)of;
    mqd_t queue = queue_of("/yak_stopped_between");
    WANT(mq_send(queue, "a", 1, 0) == 0);
    sem_post(&ready);
    while (!atomic_load(&goes_on))
        pause_for(1);
    char buf[8];
    WANT(mq_receive(queue, buf, sizeof buf, 0) == 1 && buf[0] == 'a');
    return 0;
}

/* Waits in a receive, and is stopped in it. */
static void *stops_in_wait(void *of)
{
    (void)of;
    mqd_t queue = queue_of("/yak_stopped_wait");
    char buf[8];
    sem_post(&ready);
    ssize_t got;
    while ((got = mq_receive(queue, buf, sizeof buf, 0)) == -1)
        WANT(errno == EINTR);
    WANT(got == 1 && buf[0] == 'w');
    return 0;
}

/* Sends and receives on a queue that it shares with the other working threads. */
static void *works(void *of)
{
    (void)of;
    mqd_t queue = queue_of("/yak_stopped_work");
    char buf[8];
    for (int i = 0; i < CALLS; ++i) {
        WANT(mq_send(queue, "x", 1, 0) == 0);
        WANT(mq_receive(queue, buf, sizeof buf, 0) == 1);
    }
    return 0;
}

int main(void)
{
    struct sigaction action = {0};
    action.sa_handler = hold;
    action.sa_flags = SA_RESTART;
    WANT(sigaction(SIGUSR1, &action, 0) == 0);
    WANT(sem_init(&held, 0, 0) == 0 && sem_init(&ready, 0, 0) == 0);
    pthread_t stopped[HELD];
    WANT(pthread_create(&stopped[0], 0, stops_between, 0) == 0);
    WANT(pthread_create(&stopped[1], 0, stops_in_wait, 0) == 0);
    for (int i = 0; i < HELD; ++i)
        WANT(sem_wait(&ready) == 0);
    pause_for(100);
    for (int i = 0; i < HELD; ++i)
        WANT(pthread_kill(stopped[i], SIGUSR1) == 0);
    for (int i = 0; i < HELD; ++i)
        WANT(sem_wait(&held) == 0);

    pthread_t workers[WORKERS];
    for (int i = 0; i < WORKERS; ++i)
        WANT(pthread_create(&workers[i], 0, works, 0) == 0);
    for (int i = 0; i < WORKERS; ++i)
        WANT(pthread_join(workers[i], 0) == 0);
    WANT(!atomic_load(&goes_on));

    atomic_store(&goes_on, true);
    mqd_t queue = queue_of("/yak_stopped_wait");
    WANT(mq_send(queue, "w", 1, 0) == 0);
    for (int i = 0; i < HELD; ++i)
        WANT(pthread_join(stopped[i], 0) == 0);
    WANT(mq_unlink("/yak_stopped_between") == 0 && mq_unlink("/yak_stopped_wait") == 0 &&
         mq_unlink("/yak_stopped_work") == 0);
    puts("well");
    return 0;
}
