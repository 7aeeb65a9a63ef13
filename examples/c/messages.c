/* One producer and two consumers over one queue: priorities, a timeout, a notice, the journal. */
#include <yakyrombe.h>

#include <pthread.h>
#include <stdio.h>
#include <string.h>

enum { MESSAGES = 2000, CONSUMERS = 2 };

static const uint8_t NAME[] = {'/', 'w', 'o', 'r', 'k'};
static const yak_opening OPENING = {8, 16, 2, true, false, false, true};

typedef struct share {
    yak_process *process;
    uint32_t failed;
    uint64_t count;
    uint64_t sum;
} share;

static void *produce(void *of)
{
    share *mine = of;
    uint32_t d = 0;
    mine->failed = yak_open(mine->process, NAME, sizeof NAME, &OPENING, &d);
    for (uint32_t i = 1; i <= MESSAGES && mine->failed == YAK_DONE; ++i) {
        uint8_t bytes[4];
        memcpy(bytes, &i, sizeof i);
        mine->failed = yak_send(mine->process, d, bytes, sizeof bytes, i % 5);
    }
    /* An empty message of the lowest priority for each consumer: they are received last. */
    for (int i = 0; i < CONSUMERS && mine->failed == YAK_DONE; ++i)
        mine->failed = yak_send(mine->process, d, NAME, 0, 0);
    return 0;
}

static void *consume(void *of)
{
    share *mine = of;
    uint32_t d = 0;
    mine->failed = yak_open(mine->process, NAME, sizeof NAME, &OPENING, &d);
    while (mine->failed == YAK_DONE) {
        uint8_t bytes[16];
        uint32_t number;
        yak_message message;
        mine->failed = yak_receive(mine->process, d, bytes, sizeof bytes, &message);
        if (mine->failed != YAK_DONE || message.len == 0)
            break;
        memcpy(&number, bytes, sizeof number);
        ++mine->count;
        mine->sum += number;
    }
    return 0;
}

/* Three messages are received by priority; then the queue is empty until the deadline. A notice
 * reports a message that arrives at the empty queue. */
static uint32_t alone(yak_process *process)
{
    static const uint8_t name[] = {'/', 'a', 'l', 'o', 'n', 'e'};
    uint8_t bytes[16];
    uint32_t answer, d = 0;
    uint64_t value = 0;
    yak_message message;
    answer = yak_open(process, name, sizeof name, &OPENING, &d);
    for (uint32_t prio = 1; prio <= 3; ++prio)
        answer = yak_send(process, d, (const uint8_t *)"abc" + prio - 1, 1, prio);
    for (int i = 0; i < 3; ++i) {
        answer = yak_receive(process, d, bytes, sizeof bytes, &message);
        printf("received %c with priority %u\n", bytes[0], (unsigned)message.prio);
    }
    yak_moment until = yak_now();
    until.nsec += 20000000;
    if (until.nsec >= 1000000000) {
        until.sec += 1;
        until.nsec -= 1000000000;
    }
    answer = yak_timed_receive(process, d, bytes, sizeof bytes, &message, &until);
    printf("timed out: %s\n", answer == YAK_TIMEDOUT ? "yes" : "no");
    answer = yak_notify(process, d, true, 7);
    answer = yak_send(process, d, bytes, 1, 0);
    answer = yak_next_notice(process, &value);
    printf("notice %llu\n", (unsigned long long)value);
    answer = yak_exit(process);
    return answer;
}

/* Counts the lines of the journal. */
static void count_line(void *with, const uint8_t *text, size_t len)
{
    (void)text;
    *(uint64_t *)with += len != 0;
}

int main(void)
{
    yak_process processes[1 + CONSUMERS] = {YAK_PROCESS_EMPTY, YAK_PROCESS_EMPTY, YAK_PROCESS_EMPTY};
    share shares[1 + CONSUMERS];
    pthread_t threads[1 + CONSUMERS];
    uint64_t count = 0, sum = 0;
    uint32_t failed = yak_new(processes, 1 + CONSUMERS);
    if (failed != YAK_DONE)
        return 1;
    if (alone(&processes[0]) != YAK_DONE)
        return 1;
    for (int i = 0; i <= CONSUMERS; ++i) {
        shares[i] = (share){&processes[i], 0, 0, 0};
        if (pthread_create(&threads[i], 0, i == 0 ? produce : consume, &shares[i]) != 0)
            return 1;
    }
    for (int i = 0; i <= CONSUMERS; ++i) {
        pthread_join(threads[i], 0);
        failed |= shares[i].failed;
        count += shares[i].count;
        sum += shares[i].sum;
    }
    printf("received %llu messages, sum %llu\n", (unsigned long long)count, (unsigned long long)sum);
    uint64_t entries = 0;
    failed |= yak_lines(&processes[0], count_line, &entries);
    failed |= yak_finish(processes, 1 + CONSUMERS);
    printf("history %s\n", failed == YAK_DONE && entries > 2 * MESSAGES ? "ok" : "not ok");
    return failed == YAK_DONE ? 0 : 1;
}
