/* Two queues each have a token. A thread takes both tokens, and puts them back; one thread starts
 * with the left queue, the other with the right one. If each has taken its first token, they are
 * deadlocked, which few schedules reach. Over the system's <mqueue.h>. */
#include <fcntl.h>
#include <mqueue.h>
#include <pthread.h>
#include <stdio.h>
#include <stdlib.h>
#include <string.h>

static mqd_t queues[2];

static void *work(void *of)
{
    long first = (long)of;
    char buf[8];
    if (mq_receive(queues[first], buf, sizeof buf, 0) != 1 ||
        mq_receive(queues[1 - first], buf, sizeof buf, 0) != 1)
        exit(1);
    if (mq_send(queues[1 - first], "t", 1, 0) != 0 || mq_send(queues[first], "t", 1, 0) != 0)
        exit(1);
    return 0;
}

static mqd_t fresh(const char *name)
{
    struct mq_attr attr;
    memset(&attr, 0, sizeof attr);
    attr.mq_maxmsg = 1;
    attr.mq_msgsize = 8;
    mq_unlink(name);
    return mq_open(name, O_RDWR | O_CREAT, 0600, &attr);
}

int main(void)
{
    pthread_t threads[2];
    queues[0] = fresh("/yak-left");
    queues[1] = fresh("/yak-right");
    for (int i = 0; i < 2; ++i)
        if (mq_send(queues[i], "t", 1, 0) != 0)
            return 1;
    for (long i = 0; i < 2; ++i)
        if (pthread_create(&threads[i], 0, work, (void *)i) != 0)
            return 1;
    for (int i = 0; i < 2; ++i)
        pthread_join(threads[i], 0);
    mq_unlink("/yak-left");
    mq_unlink("/yak-right");
    puts("done");
    return 0;
}
