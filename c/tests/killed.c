/* Children are killed at random moments, inside calls and between them. The others continue, the
 * next call returns within a second, no message is received twice, and each killed receiver loses
 * at most one message.
 *
 * usage: killed [ROUNDS]     in each round five children are killed, one after the other */
#define _GNU_SOURCE
#include <signal.h>
#include <stdatomic.h>
#include <stdbool.h>

#include "family.h"

enum { MOST = 1 << 20, CHILDREN = 5, RECEIVERS = 2 };

/* Message n is n; it was accepted if n is below `sent`. */
static _Atomic uint32_t *begun, *sent;
static _Atomic uint8_t *times;
static mqd_t queue;
/* The longest time of a call, after a death and before one. */
static double slowest, usual;

static void sends(void)
{
    for (;;) {
        const uint32_t n = atomic_fetch_add(begun, 1);
        WANT(n < MOST);
        WANT(mq_send(queue, (const char *)&n, sizeof n, 0) == 0);
        atomic_store(sent, n + 1);
    }
}

static void take(const char *bytes)
{
    uint32_t n;
    memcpy(&n, bytes, sizeof n);
    WANT(n < MOST && atomic_fetch_add(&times[n], 1) == 0);
}

static void receives(void)
{
    char buf[8];
    for (;;) {
        WANT(mq_receive(queue, buf, sizeof buf, 0) == sizeof(uint32_t));
        take(buf);
    }
}

static void sends_and_receives(void)
{
    mqd_t own = mq_open("/yak-killed-beside", O_RDWR);
    char buf[8];
    for (;;) {
        WANT(mq_send(own, "x", 1, 0) == 0);
        WANT(mq_receive(own, buf, sizeof buf, 0) == 1);
    }
}

static void opens_and_closes(void)
{
    for (;;) {
        mqd_t own = mq_open("/yak-killed-beside", O_RDWR);
        WANT(own != -1 && messages_in(own) <= 4 && mq_close(own) == 0);
    }
}

static long random_below(unsigned *seed, long most)
{
    *seed = *seed * 1103515245u + 12345u;
    return (long)(*seed >> 8) % most;
}

static void pause_for_microseconds(long microseconds)
{
    const struct timespec t = {0, microseconds * 1000};
    nanosleep(&t, 0);
}

static void call_once(double *most)
{
    const double from = now_in_seconds();
    WANT(messages_in(queue) <= 10);
    if (now_in_seconds() - from > *most)
        *most = now_in_seconds() - from;
}

/* Whether the sender continues after others were killed. */
static bool goes_on(void)
{
    const uint32_t before = atomic_load(sent);
    for (int i = 0; i < 3000; ++i) {
        if (atomic_load(sent) != before)
            return true;
        pause_for(1);
    }
    return false;
}

/* Receives what is left, and checks what was received. */
static void judge(void)
{
    uint32_t missing = 0;
    char buf[8];
    struct timespec past = {0, 0};
    while (mq_timedreceive(queue, buf, sizeof buf, 0, &past) == sizeof(uint32_t))
        take(buf);
    WANT(errno == ETIMEDOUT);
    for (uint32_t n = 0; n < atomic_load(sent); ++n)
        missing += atomic_load(&times[n]) == 0;
    WANT(missing <= RECEIVERS);
}

static void one_round(unsigned *seed)
{
    static void (*const runs[CHILDREN])(void) = {receives, receives, sends_and_receives,
                                                 opens_and_closes, sends};
    pid_t children[CHILDREN];
    mqd_t beside;
    int first;
    atomic_store(begun, 0);
    atomic_store(sent, 0);
    memset((void *)times, 0, MOST);
    queue = fresh("/yak-killed", 10, 8, 0);
    beside = fresh("/yak-killed-beside", 4, 8, 0);
    for (int i = 0; i < CHILDREN; ++i)
        children[i] = begin_child(runs[i]);
    first = (int)random_below(seed, CHILDREN);
    for (int i = 0; i < CHILDREN; ++i) {
        const int which = (first + i) % CHILDREN;
        pause_for_microseconds(random_below(seed, 3000));
        call_once(&usual);
        kill(children[which], SIGKILL);
        call_once(&slowest);
        WANT(waitpid(children[which], 0, 0) == children[which]);
        if (i == 0 && which != CHILDREN - 1)
            WANT(goes_on());
    }
    judge();
    WANT(messages_in(beside) <= 4 && mq_close(beside) == 0 && mq_close(queue) == 0);
    WANT(mq_unlink("/yak-killed") == 0 && mq_unlink("/yak-killed-beside") == 0);
}

int main(int count, char **words)
{
    const int rounds = count == 2 ? atoi(words[1]) : 20;
    unsigned seed = (unsigned)rounds;
    begun = shared_memory(sizeof *begun);
    sent = shared_memory(sizeof *sent);
    times = shared_memory(MOST);
    for (int i = 0; i < rounds; ++i)
        one_round(&seed);
    /* On a busy machine each call is slow. With a stored journal the log is long. */
    WANT(slowest < 1 + 10 * usual || getenv("YAK_JOURNAL") != 0);
    puts("well");
    return 0;
}
