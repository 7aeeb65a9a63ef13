/* More calls wait than the library has processes for: the first 31 are served in the order in which
 * they began, and each of the others once. Each of the others can fail, time out, be interrupted,
 * be cancelled, and lose its descriptor. What has served waits on other queues serves the next. */
#define _GNU_SOURCE
#include <errno.h>
#include <fcntl.h>
#include <mqueue.h>
#include <pthread.h>
#include <semaphore.h>
#include <signal.h>
#include <stdbool.h>
#include <stdio.h>
#include <stdlib.h>
#include <string.h>
#include <time.h>

#include "reported.h"
#include "stored.h"

enum { IN_ORDER = 31, CROWD = 40, ROUNDS = 5, ALONE = 30, FEW = 20 };

static mqd_t queue;
static int given[CROWD];
static sem_t begun;

static mqd_t fresh(const char *name, long maxmsg)
{
    struct mq_attr attr = room_for(maxmsg);
    mqd_t it;
    WANT((it = mq_open(name, O_RDWR | O_CREAT | O_EXCL, 0600, &attr)) != -1);
    return it;
}

static void *receive_one(void *of)
{
    char buf[8];
    WANT(mq_receive(queue, buf, sizeof buf, 0) == 1);
    given[(long)of] = buf[0];
    return 0;
}

static void *send_one(void *of)
{
    char byte = (char)(long)of;
    WANT(mq_send(queue, &byte, 1, 0) == 0);
    return 0;
}

/* Starts threads, each once the one before it waits. */
static void start(pthread_t *threads, int count, void *(*run)(void *))
{
    for (long i = 0; i < count; ++i) {
        WANT(pthread_create(&threads[i], 0, run, (void *)i) == 0);
        await_waits((int)i + 1);
    }
}

static void join(pthread_t *threads, int count)
{
    for (int i = 0; i < count; ++i)
        WANT(pthread_join(threads[i], 0) == 0);
}

/* Whether the first of them were served in order, and each of the others once. */
static bool is_in_order(void)
{
    bool has[CROWD] = {false};
    for (int i = 0; i < CROWD; ++i) {
        if (given[i] < 0 || given[i] >= CROWD || has[given[i]] || (i < IN_ORDER && given[i] != i))
            return false;
        has[given[i]] = true;
    }
    return true;
}

/* Lets so many threads wait for a message each, and sends the messages 0, 1, .. */
static void serve(int count)
{
    pthread_t threads[CROWD];
    memset(given, -1, sizeof given);
    start(threads, count, receive_one);
    for (int i = 0; i < count; ++i) {
        char byte = (char)i;
        WANT(mq_send(queue, &byte, 1, 0) == 0);
    }
    join(threads, count);
}

static void receives(void)
{
    serve(CROWD);
    WANT(is_in_order());
}

static void sends(void)
{
    pthread_t threads[CROWD];
    char buf[8];
    for (int i = 0; i < 4; ++i)
        WANT(mq_send(queue, "x", 1, 0) == 0);
    start(threads, CROWD, send_one);
    for (int i = -4; i < CROWD; ++i) {
        WANT(mq_receive(queue, buf, sizeof buf, 0) == 1);
        if (i >= 0)
            given[i] = buf[0];
        else
            WANT(buf[0] == 'x');
    }
    join(threads, CROWD);
    WANT(is_in_order());
}

/* ---- waits on other queues ---- */

static mqd_t queues[ALONE];

static void *receive_alone(void *of)
{
    char buf[8];
    WANT(mq_receive(queues[(long)of], buf, sizeof buf, 0) == 1);
    return 0;
}

/* Each thread waits alone on a queue and gets its message from the sender. All that served them
 * then serve waits on a queue that was opened meanwhile. */
static void on_another_queue(void)
{
    const mqd_t before = queue;
    pthread_t threads[ALONE];
    char name[32];
    queues[0] = queue;
    for (int i = 1; i < ALONE; ++i) {
        snprintf(name, sizeof name, "/yak-alone-%d", i);
        queues[i] = fresh(name, 1);
    }
    start(threads, ALONE, receive_alone);
    queue = fresh("/yak-next", 4);
    for (int i = 0; i < ALONE; ++i)
        WANT(mq_send(queues[i], "", 1, 0) == 0);
    join(threads, ALONE);
    serve(FEW);
    for (int i = 0; i < FEW; ++i)
        WANT(given[i] == i);
    WANT(mq_close(queue) == 0 && mq_unlink("/yak-next") == 0);
    for (int i = 1; i < ALONE; ++i) {
        snprintf(name, sizeof name, "/yak-alone-%d", i);
        WANT(mq_close(queues[i]) == 0 && mq_unlink(name) == 0);
    }
    queue = before;
}

/* ---- one call while 31 others wait ---- */

static mqd_t other;
static long result;
static int error;

static void *receive_other(void *of)
{
    char buf[8];
    sem_post(&begun);
    result = of != 0 ? mq_timedreceive(other, buf, sizeof buf, 0, (const struct timespec *)of)
                     : mq_receive(other, buf, sizeof buf, 0);
    error = errno;
    return 0;
}

static void wake(int number)
{
    (void)number;
}

static pthread_t begin_other(const struct timespec *until)
{
    pthread_t thread;
    WANT(pthread_create(&thread, 0, receive_other, (void *)(size_t)until) == 0);
    sem_wait(&begun);
    return thread;
}

static void beside(void)
{
    pthread_t threads[IN_ORDER], one;
    struct timespec until = {.tv_sec = 1, .tv_nsec = 1000000000};
    struct sigaction action;
    void *ended;
    char buf[8];
    mqd_t again;
    start(threads, IN_ORDER, receive_one);
    /* It fails. */
    WANT(mq_timedreceive(other, buf, sizeof buf, 0, &until) == -1 && errno == EINVAL);
    WANT(mq_receive(other, buf, 7, 0) == -1 && errno == EMSGSIZE);
    WANT((again = mq_open("/yak-other", O_RDONLY | O_NONBLOCK)) != -1);
    WANT(mq_receive(again, buf, sizeof buf, 0) == -1 && errno == EAGAIN);
    WANT(mq_close(again) == 0);
    /* It times out. */
    clock_gettime(CLOCK_REALTIME, &until);
    until.tv_nsec -= until.tv_nsec % 1000;
    WANT(mq_timedreceive(other, buf, sizeof buf, 0, &until) == -1 && errno == ETIMEDOUT);
    until.tv_nsec += 50000000;
    until.tv_sec += until.tv_nsec / 1000000000;
    until.tv_nsec %= 1000000000;
    one = begin_other(&until);
    WANT(pthread_join(one, 0) == 0 && result == -1 && error == ETIMEDOUT);
    /* It is served before its deadline. */
    until.tv_sec += 3600;
    one = begin_other(&until);
    await_waits(IN_ORDER + 1);
    WANT(mq_send(other, "ab", 2, 0) == 0);
    WANT(pthread_join(one, 0) == 0 && result == 2);
    /* It is interrupted. */
    memset(&action, 0, sizeof action);
    action.sa_handler = wake;
    sigaction(SIGUSR1, &action, 0);
    one = begin_other(0);
    await_waits(IN_ORDER + 1);
    pause_for(50);
    pthread_kill(one, SIGUSR1);
    WANT(pthread_join(one, 0) == 0 && result == -1 && error == EINTR);
    /* It is cancelled, and the message stays. */
    one = begin_other(0);
    await_waits(IN_ORDER + 1);
    WANT(pthread_cancel(one) == 0 && pthread_join(one, &ended) == 0 && ended == PTHREAD_CANCELED);
    WANT(mq_send(other, "c", 1, 0) == 0 && mq_receive(other, buf, sizeof buf, 0) == 1);
    /* Its descriptor is closed, and its number then belongs to another queue. */
    one = begin_other(0);
    await_waits(IN_ORDER + 1);
    WANT(mq_close(other) == 0 && mq_unlink("/yak-other") == 0);
    WANT((again = fresh("/yak-another", 1)) == other);
    WANT(mq_send(again, "d", 1, 0) == 0);
    WANT(pthread_join(one, 0) == 0 && result == -1 && error == EBADF);
    WANT(mq_receive(again, buf, sizeof buf, 0) == 1);
    for (int i = 0; i < IN_ORDER; ++i)
        WANT(mq_send(queue, "", 1, 0) == 0);
    join(threads, IN_ORDER);
    WANT(mq_close(again) == 0 && mq_unlink("/yak-another") == 0);
}

int main(void)
{
    sem_init(&begun, 0, 0);
    queue = fresh("/yak-many", 4);
    other = fresh("/yak-other", 4);
    for (int i = 0; i < ROUNDS; ++i) {
        receives();
        sends();
    }
    on_another_queue();
    beside();
    WANT(is_checked());
    WANT(mq_close(queue) == 0 && mq_unlink("/yak-many") == 0);
    puts("well");
    return 0;
}
