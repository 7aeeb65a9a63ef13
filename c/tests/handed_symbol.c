/* handed.c over the system's <mqueue.h>: boxes pass from thread to thread by their pointers, and
 * ThreadSanitizer reports no race. */
#include <fcntl.h>
#include <mqueue.h>
#include <pthread.h>
#include <stdio.h>
#include <string.h>

enum { BOXES = 2, ROUNDS = 500, THREADS = 3 };

typedef struct box {
    unsigned long count;
    long last;
} box;

static mqd_t queue;

static box *take(void)
{
    box *it = 0;
    char bytes[sizeof it];
    if (mq_receive(queue, bytes, sizeof bytes, 0) == (ssize_t)sizeof bytes)
        memcpy(&it, bytes, sizeof it);
    return it;
}

static int give(box *it)
{
    char bytes[sizeof it];
    memcpy(bytes, &it, sizeof it);
    return mq_send(queue, bytes, sizeof bytes, 0);
}

static void *work(void *of)
{
    for (int i = 0; i < ROUNDS; ++i) {
        box *it = take();
        if (it == 0)
            return of;
        ++it->count;
        it->last = *(long *)of;
        if (give(it) != 0)
            return of;
    }
    return 0;
}

int main(void)
{
    box boxes[BOXES] = {{0, 0}, {0, 0}};
    long numbers[THREADS];
    pthread_t threads[THREADS];
    struct mq_attr attr;
    unsigned long count = 0;
    int failed = 0;
    memset(&attr, 0, sizeof attr);
    attr.mq_maxmsg = BOXES;
    attr.mq_msgsize = sizeof(box *);
    queue = mq_open("/yak-handed", O_RDWR | O_CREAT | O_EXCL, 0600, &attr);
    for (int i = 0; i < THREADS; ++i) {
        numbers[i] = i;
        failed |= pthread_create(&threads[i], 0, work, &numbers[i]);
    }
    for (int i = 0; i < BOXES; ++i)
        failed |= give(&boxes[i]);
    for (int i = 0; i < THREADS && !failed; ++i) {
        void *stopped = 0;
        failed |= pthread_join(threads[i], &stopped);
        failed |= stopped != 0;
    }
    for (int i = 0; i < BOXES && !failed; ++i) {
        box *it = take();
        failed |= it == 0;
        count += it != 0 ? it->count : 0;
    }
    mq_unlink("/yak-handed");
    printf("%d: %lu\n", failed, count);
    return failed || count != (unsigned long)THREADS * ROUNDS;
}
