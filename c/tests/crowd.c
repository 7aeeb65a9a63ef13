/* Eight processes of four threads each: half of them send, half receive. Each message is received
 * exactly once, and those of one sender and one priority in order.
 *
 * usage: crowd [MESSAGES] */
#define _GNU_SOURCE
#include <pthread.h>
#include <stdatomic.h>

#include "family.h"

enum { PROCESSES = 8, THREADS = 4, SENDERS = PROCESSES / 2 * THREADS, PRIOS = 3 };

typedef struct message {
    uint32_t sender;
    uint32_t prio;
    uint32_t place; /* its number among those of its sender and priority */
} message;

static mqd_t queue;
static long each;
/* How often each message of a sender and a priority was received. */
static _Atomic uint64_t *came;
static _Atomic uint8_t *times;

static _Atomic uint8_t *times_of(const message *it)
{
    return &times[(it->sender * PRIOS + it->prio) * each + it->place];
}

static void *sends(void *of)
{
    const uint32_t sender = (uint32_t)(uintptr_t)of;
    uint32_t places[PRIOS] = {0};
    for (long i = 0; i < each; ++i) {
        const uint32_t prio = (uint32_t)(i * 7 + sender) % PRIOS;
        const message it = {.sender = sender, .prio = prio, .place = places[prio]++};
        WANT(mq_send(queue, (const char *)&it, sizeof it, prio) == 0);
    }
    return 0;
}

/* For one receiver, the numbers of one sender and priority ascend. */
static void *receives(void *of)
{
    int64_t last[SENDERS][PRIOS];
    (void)of;
    memset(last, -1, sizeof last);
    for (;;) {
        char buf[sizeof(message)];
        unsigned prio;
        message it;
        const ssize_t len = mq_receive(queue, buf, sizeof buf, &prio);
        WANT(len >= 0);
        if (len == 0)
            return 0;
        WANT(len == (ssize_t)sizeof it);
        memcpy(&it, buf, sizeof it);
        WANT(it.prio == prio && it.sender < SENDERS && it.prio < PRIOS && it.place < each);
        WANT((int64_t)it.place > last[it.sender][it.prio]);
        last[it.sender][it.prio] = it.place;
        WANT(atomic_fetch_add(times_of(&it), 1) == 0);
        atomic_fetch_add(came, 1);
    }
}

static pid_t begin_process(int number, void *(*run)(void *))
{
    const pid_t child = fork();
    pthread_t threads[THREADS];
    WANT(child != -1);
    if (child != 0)
        return child;
    for (int i = 0; i < THREADS; ++i)
        WANT(pthread_create(&threads[i], 0, run, (void *)(uintptr_t)(number * THREADS + i)) == 0);
    for (int i = 0; i < THREADS; ++i)
        WANT(pthread_join(threads[i], 0) == 0);
    _exit(0);
}

int main(int count, char **words)
{
    const long messages = count == 2 ? atol(words[1]) : 20000;
    pid_t senders[PROCESSES / 2], receivers[PROCESSES / 2];
    each = messages / SENDERS;
    came = shared_memory(sizeof *came);
    times = shared_memory((size_t)(SENDERS * PRIOS * each));
    queue = fresh("/yak-crowd-of-processes", 10, sizeof(message), 0);
    for (int i = 0; i < PROCESSES / 2; ++i) {
        receivers[i] = begin_process(i, receives);
        senders[i] = begin_process(i, sends);
    }
    for (int i = 0; i < PROCESSES / 2; ++i)
        ends_well(senders[i]);
    for (int i = 0; i < SENDERS; ++i)
        WANT(mq_send(queue, "", 0, 0) == 0);
    for (int i = 0; i < PROCESSES / 2; ++i)
        ends_well(receivers[i]);
    WANT(messages_in(queue) == 0 && atomic_load(came) == (uint64_t)(SENDERS * each));
    WANT(mq_close(queue) == 0 && mq_unlink("/yak-crowd-of-processes") == 0);
    puts("well");
    return 0;
}
