/* Many threads on one queue, by the calls of <mqueue.h>: usage: threads PROCESSES ROUNDS, an even
 * number of processes from 2 to 32. Half of them send and half receive, ROUNDS messages each. Then
 * a receive whose wait another thread answers, and an unlink while others have the queue open. */
#include <mqueue.h>

#include <pthread.h>
#include <stdatomic.h>
#include <stdio.h>
#include <stdlib.h>

enum { MOST = 32 };

typedef struct share {
    yak_process *process;
    unsigned number;
    unsigned rounds;
    bool is_well;
    uint64_t sum;
    uint32_t next[MOST];
} share;

/* A message: its sender, and its number among the messages of that sender. */
typedef struct sent {
    uint32_t sender;
    uint32_t number;
} sent;

static struct mq_attr limits = {0, 10, sizeof(sent), 0};

static void *send_all(void *of)
{
    share *mine = of;
    yak_attach(mine->process);
    mqd_t queue = mq_open("/all", O_WRONLY | O_CREAT, 0600, &limits);
    mine->is_well = queue == 0;
    for (unsigned i = 0; i < mine->rounds && mine->is_well; ++i) {
        sent message = {mine->number, i};
        mine->is_well = mq_send(queue, (const char *)&message, sizeof message, 3) == 0;
        mine->sum += i;
    }
    mine->is_well = mine->is_well && mq_close(queue) == 0;
    return 0;
}

static void *receive_all(void *of)
{
    share *mine = of;
    yak_attach(mine->process);
    mqd_t queue = mq_open("/all", O_RDONLY | O_CREAT, 0600, &limits);
    mine->is_well = queue == 0;
    for (unsigned i = 0; i < mine->rounds && mine->is_well; ++i) {
        sent message = {0, 0};
        unsigned prio = 0;
        mine->is_well = mq_receive(queue, (char *)&message, sizeof message, &prio) == (ssize_t)sizeof message && prio == 3;
        /* A receiver gets the messages of one sender and one priority in the order of their sends. */
        mine->is_well = mine->is_well && message.sender < MOST && message.number >= mine->next[message.sender];
        if (mine->is_well)
            mine->next[message.sender] = message.number + 1;
        mine->sum += message.number;
    }
    mine->is_well = mine->is_well && mq_close(queue) == 0;
    return 0;
}

static bool in_threads(unsigned count, void *(*even)(void *), void *(*odd)(void *), share *shares)
{
    pthread_t threads[MOST];
    bool are_well = true;
    for (unsigned i = 0; i < count; ++i)
        if (pthread_create(&threads[i], 0, i % 2 == 0 ? even : odd, &shares[i]) != 0)
            exit(2);
    for (unsigned i = 0; i < count; ++i)
        pthread_join(threads[i], 0);
    for (unsigned i = 0; i < count; ++i)
        are_well = are_well && shares[i].is_well;
    return are_well;
}

/* A receive that waits until another thread sends, some time later, to an unlinked queue. */
static atomic_int opened;

static void *wait_for_it(void *of)
{
    share *mine = of;
    char buf[sizeof(sent)];
    unsigned prio = 0;
    yak_attach(mine->process);
    mqd_t queue = mq_open("/late", O_RDONLY | O_CREAT, 0600, &limits);
    atomic_fetch_add(&opened, 1);
    mine->is_well = queue == 0 && mq_receive(queue, buf, sizeof buf, &prio) == 4 && prio == 9 && memcmp(buf, "late", 4) == 0;
    mine->is_well = mine->is_well && mq_close(queue) == 0;
    return 0;
}

static void *send_it_late(void *of)
{
    share *mine = of;
    struct timespec nap = {0, 20000000};
    yak_attach(mine->process);
    mqd_t queue = mq_open("/late", O_WRONLY | O_CREAT, 0600, &limits);
    atomic_fetch_add(&opened, 1);
    while (atomic_load(&opened) < 2)
        sched_yield();
    mine->is_well = queue == 0 && mq_unlink("/late") == 0;
    mine->is_well = mine->is_well && mq_open("/late", O_WRONLY) == -1 && errno == ENOENT;
    nanosleep(&nap, 0);
    mine->is_well = mine->is_well && mq_send(queue, "late", 4, 9) == 0 && mq_close(queue) == 0;
    return 0;
}

int main(int argc, char **argv)
{
    unsigned count = argc > 2 ? (unsigned)atoi(argv[1]) : 2, rounds = argc > 2 ? (unsigned)atoi(argv[2]) : 100;
    static yak_process processes[MOST];
    static share shares[MOST];
    uint64_t sent_sum = 0, received_sum = 0;
    uint32_t answer;
    if (count < 2 || count > MOST || count % 2 != 0 || yak_new(processes, count) != YAK_DONE)
        return 2;
    for (unsigned i = 0; i < count; ++i) {
        shares[i].process = &processes[i];
        shares[i].number = i;
        shares[i].rounds = rounds;
    }
    bool are_well = in_threads(count, send_all, receive_all, shares);
    for (unsigned i = 0; i < count; ++i)
        *(i % 2 == 0 ? &sent_sum : &received_sum) += shares[i].sum;
    printf("%u threads: %s, sums %s\n", count, are_well ? "all well" : "FAILED", sent_sum == received_sum ? "equal" : "DIFFER");
    bool is_late_well = in_threads(2, wait_for_it, send_it_late, shares);
    printf("late: %s\n", is_late_well ? "well" : "FAILED");
    answer = yak_check(&processes[0]);
    printf("history %s\n", answer == YAK_DONE ? "ok" : "FAILED");
    for (unsigned i = 0; i < count; ++i)
        yak_free(&processes[i]);
    return are_well && is_late_well && sent_sum == received_sum && answer == YAK_DONE ? 0 : 1;
}
