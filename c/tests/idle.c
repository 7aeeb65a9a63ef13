/* A thread that waits for a message sleeps until it comes: eight receivers on empty queues, one of
 * them with a deadline that is far away, make no context switch in SECONDS seconds. The test is
 * built over the exported mq_*, or over handles, by yakyrombe/mqueue.h.
 *
 * usage: idle [SECONDS]     by default 5 */
#define _GNU_SOURCE
#include <errno.h>
#include <fcntl.h>
#include <mqueue.h>
#include <pthread.h>
#include <stdio.h>
#include <stdlib.h>
#include <sys/syscall.h>
#include <unistd.h>

#include "want.h"

enum { RECEIVERS = 8, AT_MOST = 20000 };

#ifdef YAKYROMBE_MQUEUE_H
static yak_process processes[RECEIVERS + 1];

static void make_system(void)
{
    WANT(yak_unstored(processes, RECEIVERS + 1) == YAK_DONE);
}

static void join_system(long number)
{
    yak_attach(&processes[number]);
}
#else
static void make_system(void)
{
}

static void join_system(long number)
{
    (void)number;
}
#endif

static pid_t threads[RECEIVERS];

static mqd_t open_queue(long number)
{
    char name[16];
    struct mq_attr attr = room_for(1);
    mqd_t it;
    snprintf(name, sizeof name, "/idle%ld", number);
    it = mq_open(name, O_RDWR | O_CREAT, 0600, &attr);
    WANT(it != (mqd_t)-1);
    return it;
}

static void *receive_one(void *number)
{
    struct timespec until;
    char bytes[8];
    mqd_t queue;
    join_system((long)number);
    queue = open_queue((long)number);
    clock_gettime(CLOCK_REALTIME, &until);
    until.tv_sec += 3600;
    __atomic_store_n(&threads[(long)number], (pid_t)syscall(SYS_gettid), __ATOMIC_SEQ_CST);
    WANT((number == 0 ? mq_timedreceive(queue, bytes, sizeof bytes, 0, &until)
                      : mq_receive(queue, bytes, sizeof bytes, 0)) == 1);
    return 0;
}

/* How often a thread has gone to sleep. */
static long sleeps_of(pid_t thread)
{
    char path[64], line[128];
    long sleeps = -1;
    FILE *file;
    snprintf(path, sizeof path, "/proc/self/task/%d/status", (int)thread);
    file = fopen(path, "r");
    WANT(file != 0);
    while (fgets(line, sizeof line, file) != 0)
        sscanf(line, "voluntary_ctxt_switches: %ld", &sleeps);
    fclose(file);
    WANT(sleeps >= 0);
    return sleeps;
}

static long sleeps_of_all(void)
{
    long sleeps = 0;
    for (int i = 0; i < RECEIVERS; ++i)
        sleeps += sleeps_of(threads[i]);
    return sleeps;
}

int main(int count, char **words)
{
    const long seconds = count > 1 ? strtol(words[1], 0, 10) : 5;
    pthread_t them[RECEIVERS];
    long before, now;
    make_system();
    for (long i = 0; i < RECEIVERS; ++i)
        WANT(pthread_create(&them[i], 0, receive_one, (void *)i) == 0);
    for (int i = 0; i < RECEIVERS; ++i)
        for (int left = AT_MOST; __atomic_load_n(&threads[i], __ATOMIC_SEQ_CST) == 0; --left) {
            WANT(left > 0);
            pause_for(1);
        }
    /* Until each has gone to sleep, at most for ten seconds. */
    before = -1;
    for (int left = 20; left > 0 && (now = sleeps_of_all()) != before; --left) {
        before = now;
        pause_for(500);
    }
    before = sleeps_of_all();
    pause_for(1000 * seconds);
    now = sleeps_of_all() - before;
    if (now != 0)
        printf("%ld context switches\n", now);
    join_system(RECEIVERS);
    for (long i = 0; i < RECEIVERS; ++i) {
        const mqd_t queue = open_queue(i);
        WANT(mq_send(queue, "x", 1, 0) == 0);
        WANT(mq_close(queue) == 0);
    }
    for (int i = 0; i < RECEIVERS; ++i)
        pthread_join(them[i], 0);
    puts(now == 0 ? "well" : "not idle");
    return now != 0;
}
