/* Threads that make random calls on the system's message queues, so that their history can be
   recorded and checked (checks/histories). usage: crowd SEED THREADS CALLS [forked|shared] Each
   thread opens the one queue twice, once nonblocking, and makes CALLS calls. The same seed makes
   the same calls, whatever the interleaving. With `forked` each thread is a forked child; with
   `shared` all use the descriptors that the main thread has opened. */
#define _GNU_SOURCE
#include <errno.h>
#include <fcntl.h>
#include <mqueue.h>
#include <pthread.h>
#include <stdbool.h>
#include <stdint.h>
#include <stdio.h>
#include <stdlib.h>
#include <string.h>
#include <sys/mman.h>
#include <sys/wait.h>
#include <time.h>
#include <unistd.h>

enum { MOST_THREADS = 31, MESSAGE = 16 };

static char name[64];
static unsigned long seed, threads, calls;
static bool is_shared;
static mqd_t waiting, hurrying; /* the shared descriptors */
static pthread_barrier_t *start;

/* The next pseudo-random number of a thread, by xorshift. */
static uint64_t next(uint64_t *state)
{
    *state ^= *state << 13;
    *state ^= *state >> 7;
    *state ^= *state << 17;
    return *state >> 11;
}

static struct timespec soon(uint64_t micros)
{
    struct timespec t;
    clock_gettime(CLOCK_REALTIME, &t);
    t.tv_nsec += (long)micros * 1000;
    t.tv_sec += t.tv_nsec / 1000000000;
    t.tv_nsec %= 1000000000;
    return t;
}

/* Makes one call. With half of the seeds all messages differ, with the others there are four. */
static void call(mqd_t waits, mqd_t hurries, uint64_t *state, unsigned long thread,
                 unsigned long place)
{
    char message[MESSAGE];
    struct timespec until = soon(next(state) % 300);
    struct mq_attr attr;
    unsigned prio = (unsigned)(next(state) % 3);
    int len = seed % 2 ? snprintf(message, sizeof message, "%lu.%lu", thread, place)
                       : snprintf(message, sizeof message, "%d", (int)(next(state) % 4));
    switch (next(state) % 9) {
    case 0:
    case 1:
    case 2:
        mq_send(hurries, message, (size_t)len, prio);
        break;
    case 3:
        mq_timedsend(waits, message, (size_t)len, prio, &until);
        break;
    case 4:
    case 5:
    case 6:
        mq_receive(hurries, message, sizeof message, NULL);
        break;
    case 7:
        mq_timedreceive(waits, message, sizeof message, NULL, &until);
        break;
    default:
        mq_getattr(waits, &attr);
    }
}

static void open_both(mqd_t *waits, mqd_t *hurries)
{
    *waits = mq_open(name, O_RDWR);
    *hurries = mq_open(name, O_RDWR | O_NONBLOCK);
    if (*waits == (mqd_t)-1 || *hurries == (mqd_t)-1) {
        perror("mq_open");
        exit(1);
    }
}

static void *work(void *number)
{
    unsigned long thread = (unsigned long)(uintptr_t)number;
    uint64_t state = (seed + 1) * 0x9E3779B97F4A7C15u ^ (thread + 1) * 0xBF58476D1CE4E5B9u;
    mqd_t waits = waiting, hurries = hurrying;
    if (!is_shared)
        open_both(&waits, &hurries);
    pthread_barrier_wait(start);
    for (unsigned long place = 0; place < calls; place++)
        call(waits, hurries, &state, thread, place);
    if (!is_shared) {
        mq_close(waits);
        mq_close(hurries);
    }
    return NULL;
}

/* Starts the threads or children, and waits for them to end. */
static int run(bool forked)
{
    pthread_t workers[MOST_THREADS];
    int failed = 0, status;
    for (unsigned long thread = 0; thread < threads; thread++) {
        if (!forked) {
            if (pthread_create(&workers[thread], NULL, work, (void *)(uintptr_t)thread))
                exit(1);
            continue;
        }
        pid_t child = fork();
        if (child < 0)
            exit(1);
        if (!child) {
            work((void *)(uintptr_t)thread);
            _exit(0);
        }
    }
    for (unsigned long thread = 0; thread < threads; thread++) {
        if (!forked)
            pthread_join(workers[thread], NULL);
        else if (wait(&status) < 0 || status)
            failed = 1;
    }
    return failed;
}

int main(int count, char **words)
{
    struct mq_attr limits = {.mq_maxmsg = 4, .mq_msgsize = MESSAGE};
    pthread_barrierattr_t shared;
    bool forked = count == 5 && !strcmp(words[4], "forked");
    is_shared = count == 5 && !strcmp(words[4], "shared");
    if (count != 4 && !forked && !is_shared)
        return 2;
    seed = strtoul(words[1], NULL, 10);
    threads = strtoul(words[2], NULL, 10);
    calls = strtoul(words[3], NULL, 10);
    if (threads < 1 || threads > MOST_THREADS)
        return 2;
    snprintf(name, sizeof name, "/yakyrombe-crowd-%d", (int)getpid());
    mqd_t first = mq_open(name, O_RDWR | O_CREAT | O_EXCL, 0600, &limits);
    if (first == (mqd_t)-1) {
        perror("mq_open");
        return 1;
    }
    start = mmap(NULL, sizeof *start, PROT_READ | PROT_WRITE, MAP_SHARED | MAP_ANONYMOUS, -1, 0);
    if (start == MAP_FAILED)
        return 1;
    pthread_barrierattr_init(&shared);
    pthread_barrierattr_setpshared(&shared, PTHREAD_PROCESS_SHARED);
    pthread_barrier_init(start, &shared, (unsigned)threads);
    if (is_shared)
        open_both(&waiting, &hurrying);
    int failed = run(forked);
    mq_unlink(name);
    mq_close(first);
    return failed;
}
