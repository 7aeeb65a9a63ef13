/* Memory does not grow: 8 threads pass messages through one queue, and open, use and unlink queues
 * of their own. After the first 100,000 sends and receives, the resident size stays within 1 MB,
 * and there are fewer than 0.001 minor page faults for each call. The system stores no journal. The
 * test is built over the exported mq_*, or over handles, by yakyrombe/mqueue.h.
 *
 * usage: flat [CALLS]     CALLS sends and receives on the shared queue, by default 1,000,000 */
#define _GNU_SOURCE
#include <errno.h>
#include <fcntl.h>
#include <mqueue.h>
#include <pthread.h>
#include <signal.h>
#include <stdbool.h>
#include <stdio.h>
#include <stdlib.h>
#include <string.h>
#include <sys/resource.h>
#include <unistd.h>

#include "sanitized.h"
#include "want.h"

enum {
    THREADS = 8,
    FIRST_CALLS = 100000,
    MOST_BYTES = 1000000,
    CALLS_A_FAULT = 1000,
    /* After how many calls on the shared queue a thread makes the next queue of its own. */
    BETWEEN_OWN = 64,
    MSGSIZE = 32
};

/* The memory of the program. */
typedef struct taken {
    long resident;
    long faults;
} taken;

static pthread_barrier_t barrier;
static long later_calls;

#ifdef YAKYROMBE_MQUEUE_H
static yak_process processes[THREADS];

static void make_system(void)
{
    WANT(yak_unstored(processes, THREADS) == YAK_DONE);
}

static void join_system(long number)
{
    yak_attach(&processes[number]);
}

static void take_notice(void)
{
    uint64_t value = 0;
    uint32_t answer;
    answer = yak_next_notice(yak_attached, &value);
    WANT(answer == YAK_DONE);
}
#else
static void make_system(void)
{
}

static void join_system(long number)
{
    (void)number;
}

static void take_notice(void)
{
}
#endif

static struct mq_attr limits(void)
{
    struct mq_attr attr = room_for(10);
    attr.mq_msgsize = MSGSIZE;
    return attr;
}

/* Opens a queue, is notified of a message, and destroys the queue with a message in it. */
static void use_own_queue(long number)
{
    struct mq_attr attr = limits();
    struct sigevent event;
    char name[32], buf[MSGSIZE];
    mqd_t own;
    memset(&event, 0, sizeof event);
    event.sigev_notify = SIGEV_NONE;
    snprintf(name, sizeof name, "/own-%ld", number);
    WANT((own = mq_open(name, O_RDWR | O_CREAT | O_EXCL, 0600, &attr)) != -1);
    WANT(mq_notify(own, &event) == 0);
    WANT(mq_send(own, "first", 5, 1) == 0 && mq_send(own, "second", 6, 2) == 0);
    take_notice();
    WANT(mq_receive(own, buf, sizeof buf, 0) == 6);
    WANT(mq_unlink(name) == 0 && mq_close(own) == 0);
}

static void send_one(mqd_t queue, long i)
{
    static const char bytes[MSGSIZE];
    WANT(mq_send(queue, bytes, (size_t)(i % (MSGSIZE + 1)), (unsigned)(i % 3)) == 0);
}

static void receive_one(mqd_t queue)
{
    char buf[MSGSIZE];
    WANT(mq_receive(queue, buf, sizeof buf, 0) >= 0);
}

/* Half of the threads send, and half receive. */
static void pass(mqd_t queue, long number, long calls)
{
    for (long i = 0; i < calls; ++i) {
        if (number % 2 == 0)
            send_one(queue, i);
        else
            receive_one(queue);
        if (i % BETWEEN_OWN == 0)
            use_own_queue(number);
    }
}

static void *take_part(void *of)
{
    const long number = (long)of;
    struct mq_attr attr = limits();
    mqd_t queue;
    join_system(number);
    WANT((queue = mq_open("/flat", O_RDWR | O_CREAT, 0600, &attr)) != -1);
    pass(queue, number, FIRST_CALLS / THREADS);
    pthread_barrier_wait(&barrier);
    pthread_barrier_wait(&barrier);
    pass(queue, number, later_calls / THREADS);
    pthread_barrier_wait(&barrier);
    return 0;
}

/* The resident size in bytes, counted page by page. statm adds up counts of each processor, which
 * can lag by megabytes. */
static long resident(void)
{
    char line[256];
    long kilobytes = -1;
    FILE *from = fopen("/proc/self/smaps_rollup", "r");
    WANT(from != 0);
    while (kilobytes < 0 && fgets(line, sizeof line, from) != 0)
        if (sscanf(line, "Rss: %ld kB", &kilobytes) != 1)
            kilobytes = -1;
    fclose(from);
    WANT(kilobytes > 0);
    return kilobytes * 1024;
}

static taken look(void)
{
    struct rusage usage;
    taken it = {.resident = resident()};
    WANT(getrusage(RUSAGE_SELF, &usage) == 0);
    it.faults = usage.ru_minflt;
    return it;
}

/* A sanitizer allocates memory of its own. */
static bool is_flat(const taken *before, const taken *after)
{
    return HAS_THREAD_SANITIZER || HAS_ADDRESS_SANITIZER ||
           (labs(after->resident - before->resident) <= MOST_BYTES &&
            (after->faults - before->faults) * CALLS_A_FAULT < later_calls);
}

int main(int count, char **words)
{
    const long calls = count > 1 ? atol(words[1]) : 1000000;
    pthread_t threads[THREADS];
    taken before, after;
    WANT(calls > FIRST_CALLS);
    later_calls = calls - FIRST_CALLS;
    make_system();
    WANT(pthread_barrier_init(&barrier, 0, THREADS + 1) == 0);
    for (long i = 0; i < THREADS; ++i)
        WANT(pthread_create(&threads[i], 0, take_part, (void *)i) == 0);
    pthread_barrier_wait(&barrier);
    before = look();
    pthread_barrier_wait(&barrier);
    pthread_barrier_wait(&barrier);
    after = look();
    for (int i = 0; i < THREADS; ++i)
        WANT(pthread_join(threads[i], 0) == 0);
    if (getenv("FLAT_TELLS") != 0 || !is_flat(&before, &after))
        printf("%ld calls: from %ld bytes to %ld, with %ld page faults\n", later_calls,
               before.resident, after.resident, after.faults - before.faults);
    WANT(is_flat(&before, &after));
    puts("well");
    return 0;
}
