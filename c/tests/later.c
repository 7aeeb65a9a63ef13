/* What is not as over the kernel's queues yet: with many waits and many queues. Each line says
 * whether it is; over the kernel's queues all are. checks/c_library wants the lines as they are
 * now, so that who mends one turns it there. */
#define _GNU_SOURCE
#include <pthread.h>
#include <stdatomic.h>
#include <stdbool.h>

#include "family.h"

enum { QUEUES = 17, WAITS = 40, CROWD = 1000 };

static void say(const char *what, bool is_so)
{
    printf("%s: %s\n", what, is_so ? "yes" : "not yet");
}

static mqd_t queue;
static atomic_int refused, received;

static void *wait_once(void *of)
{
    char buf[8];
    if (mq_receive(*(mqd_t *)of, buf, sizeof buf, 0) == -1)
        atomic_fetch_add(&refused, errno == EBADF);
    else
        atomic_fetch_add(&received, 1);
    return (void *)(long)buf[0];
}

static mqd_t without_name(long maxmsg)
{
    const mqd_t it = fresh("/yak-later", maxmsg, 8, 0);
    WANT(mq_unlink("/yak-later") == 0);
    return it;
}

static pthread_t begin_wait(mqd_t *on)
{
    pthread_attr_t small;
    pthread_t thread;
    WANT(pthread_attr_init(&small) == 0 && pthread_attr_setstacksize(&small, 1 << 17) == 0);
    WANT(pthread_create(&thread, &small, wait_once, on) == 0);
    pthread_attr_destroy(&small);
    return thread;
}

/* Whether receives get messages in the order in which they began, on a 17th queue without a name.
 */
static bool are_in_order(void)
{
    mqd_t queues[QUEUES];
    bool is_in_order = true;
    for (int i = 0; i < QUEUES; ++i)
        queues[i] = without_name(4);
    for (int round = 0; round < 5; ++round) {
        pthread_t threads[4];
        void *first;
        for (int i = 0; i < 4; ++i) {
            threads[i] = begin_wait(&queues[QUEUES - 1]);
            pause_for(25);
        }
        for (int i = 0; i < 4; ++i)
            WANT(mq_send(queues[QUEUES - 1], &"abcd"[i], 1, 0) == 0);
        for (int i = 0; i < 4; ++i) {
            WANT(pthread_join(threads[i], &first) == 0);
            is_in_order = is_in_order && (long)first == "abcd"[i];
        }
    }
    for (int i = 0; i < QUEUES; ++i)
        WANT(mq_close(queues[i]) == 0);
    return is_in_order;
}

/* Whether further queues can be opened while many threads wait, and whether those threads wait on
 * when their descriptor is closed. */
static void beside_waits(void)
{
    pthread_t threads[WAITS];
    mqd_t others[30], again;
    int opened = 0;
    queue = fresh("/yak-later-waits", 10, 8, 0);
    again = mq_open("/yak-later-waits", O_RDWR);
    for (int i = 0; i < WAITS; ++i)
        threads[i] = begin_wait(&queue);
    pause_for(200);
    while (opened < 30 && (others[opened] = mq_open("/yak-later-waits", O_RDWR)) != -1)
        ++opened;
    for (int i = 0; i < opened; ++i)
        WANT(mq_close(others[i]) == 0);
    say("a program with 40 waits opens 30 descriptors", opened == 30);
    WANT(mq_close(queue) == 0);
    pause_for(200);
    for (int i = 0; i < WAITS - atomic_load(&refused); ++i)
        WANT(mq_send(again, "m", 1, 0) == 0);
    for (int i = 0; i < WAITS; ++i)
        WANT(pthread_join(threads[i], 0) == 0);
    say("40 waits go on when their descriptor is closed", atomic_load(&refused) == 0);
    WANT(mq_close(again) == 0 && mq_unlink("/yak-later-waits") == 0);
}

/* How long 1,000 threads take that wait for one message each. */
static double crowd_time(void)
{
    static pthread_t threads[CROWD];
    double from;
    queue = without_name(10);
    for (int i = 0; i < CROWD; ++i)
        threads[i] = begin_wait(&queue);
    pause_for(500);
    from = now_in_seconds();
    for (int i = 0; i < CROWD; ++i)
        WANT(mq_send(queue, "m", 1, 0) == 0);
    for (int i = 0; i < CROWD; ++i)
        WANT(pthread_join(threads[i], 0) == 0);
    WANT(mq_close(queue) == 0);
    return now_in_seconds() - from;
}

int main(void)
{
    say("waits on a 17th queue without a name are in order", are_in_order());
    beside_waits();
    say("1,000 waiting threads get 1,000 messages in 0.3 s", crowd_time() < 0.3);
    return 0;
}
