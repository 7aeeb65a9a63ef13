/* A crowd that is stopped at random moments: half of 32 threads send to one queue, half receive
 * from it, and SIGSTOP stops all threads of a process wherever they are, until SIGCONT. Messages
 * keep coming, at the end each has been received, and all threads return. The test is built over
 * the exported mq_*, with four processes, of which one is stopped at a time, or over handles, by
 * yakyrombe/mqueue.h, in one process.
 *
 * usage: halted [SECONDS [SEED]]     by default 5, and 1 */
#define _GNU_SOURCE
#include <pthread.h>
#include <signal.h>
#include <stdbool.h>

#include "family.h"

#ifdef YAKYROMBE_MQUEUE_H
enum { CHILDREN = 1, THREADS = 32 };

static yak_process processes[THREADS];

static void make_queue(void)
{
    WANT(yak_unstored(processes, THREADS) == YAK_DONE);
}

static mqd_t queue_of(long thread)
{
    struct mq_attr attr = room_for(8);
    mqd_t queue;
    yak_attach(&processes[thread]);
    WANT((queue = mq_open("/halted", O_RDWR | O_CREAT, 0600, &attr)) != (mqd_t)-1);
    return queue;
}
#else
enum { CHILDREN = 4, THREADS = 8 };

static mqd_t shared_queue;

static void make_queue(void)
{
    shared_queue = fresh("/halted", 8, 8, 0);
}

static mqd_t queue_of(long thread)
{
    (void)thread;
    return shared_queue;
}
#endif

enum { SENDERS = CHILDREN * THREADS / 2, LONGEST_SILENCE = 20 };

/* What all processes see. */
typedef struct counts {
    _Atomic long sent, received, ended;
    _Atomic bool is_over;
} counts;

static counts *seen;

static void *sends(void *thread)
{
    const mqd_t queue = queue_of((long)thread);
    for (unsigned prio = 1; !seen->is_over; prio = prio % 3 + 1) {
        WANT(mq_send(queue, "x", 1, prio) == 0);
        ++seen->sent;
    }
    /* The last one ends the receivers. Their messages come behind all others. */
    if (++seen->ended == SENDERS)
        for (int i = 0; i < SENDERS; ++i)
            WANT(mq_send(queue, "", 0, 0) == 0);
    return 0;
}

static void *receives(void *thread)
{
    const mqd_t queue = queue_of((long)thread);
    char bytes[8];
    ssize_t len;
    while ((len = mq_receive(queue, bytes, sizeof bytes, 0)) == 1)
        ++seen->received;
    WANT(len == 0);
    return 0;
}

static void run(void)
{
    pthread_t threads[THREADS];
    if (CHILDREN == 1)
        make_queue();
    for (long i = 0; i < THREADS; ++i)
        WANT(pthread_create(&threads[i], 0, i % 2 == 0 ? sends : receives, (void *)i) == 0);
    for (int i = 0; i < THREADS; ++i)
        WANT(pthread_join(threads[i], 0) == 0);
}

/* A pause of up to three milliseconds, and seldom of up to fifty. */
static void pause_at_random(unsigned *seed)
{
    const int r = rand_r(seed);
    const struct timespec pause = {0, r % (r % 64 == 0 ? 50000 : 3000) * 1000L};
    nanosleep(&pause, 0);
}

/* Stops one process after the other until the time is over, while messages keep coming. */
static void stop_them(const pid_t *children, double end, unsigned seed)
{
    long received = 0;
    double heard = now_in_seconds();
    while (now_in_seconds() < end) {
        const pid_t child = children[rand_r(&seed) % CHILDREN];
        WANT(kill(child, SIGSTOP) == 0);
        pause_at_random(&seed);
        WANT(kill(child, SIGCONT) == 0);
        pause_at_random(&seed);
        if (seen->received != received)
            heard = now_in_seconds();
        received = seen->received;
        WANT(now_in_seconds() < heard + LONGEST_SILENCE);
    }
}

int main(int count, char **words)
{
    const double end = now_in_seconds() + (count > 1 ? strtod(words[1], 0) : 5);
    pid_t children[CHILDREN];
    seen = mmap(0, sizeof *seen, PROT_READ | PROT_WRITE, MAP_SHARED | MAP_ANONYMOUS, -1, 0);
    WANT(seen != MAP_FAILED);
    if (CHILDREN > 1)
        make_queue();
    for (int i = 0; i < CHILDREN; ++i)
        children[i] = begin_child(run);
    stop_them(children, end, count > 2 ? (unsigned)strtoul(words[2], 0, 10) : 1);
    seen->is_over = true;
    for (int i = 0; i < CHILDREN; ++i)
        ends_well(children[i]);
    WANT(seen->sent == seen->received && seen->sent > 0);
    puts("well");
    return 0;
}
