/* The two tokens of deadlock.c over the header in front of the system's <mqueue.h>, under a seed:
 * each thread is attached to a process and opens both queues. */
#define _GNU_SOURCE
#include <yakyrombe/seed.h>

#include <mqueue.h>

static yak_process processes[3];

static mqd_t open_queue(const char *name)
{
    struct mq_attr attr = {0, 1, 8, 0};
    mqd_t queue = mq_open(name, O_RDWR | O_CREAT, 0600, &attr);
    if (queue == (mqd_t)-1)
        exit(1);
    return queue;
}

static void *work(void *of)
{
    long first = (long)of;
    mqd_t queues[2];
    char buf[8];
    yak_attach(&processes[1 + first]);
    queues[0] = open_queue("/left");
    queues[1] = open_queue("/right");
    if (mq_receive(queues[first], buf, sizeof buf, 0) != 1 ||
        mq_receive(queues[1 - first], buf, sizeof buf, 0) != 1)
        exit(1);
    if (mq_send(queues[1 - first], "t", 1, 0) != 0 || mq_send(queues[first], "t", 1, 0) != 0)
        exit(1);
    return 0;
}

int main(void)
{
    pthread_t threads[2];
    if (yak_new(processes, 3) != YAK_DONE)
        return 1;
    yak_attach(&processes[0]);
    if (mq_send(open_queue("/left"), "t", 1, 0) != 0 ||
        mq_send(open_queue("/right"), "t", 1, 0) != 0)
        return 1;
    for (long i = 0; i < 2; ++i)
        if (pthread_create(&threads[i], 0, work, (void *)i) != 0)
            return 1;
    for (int i = 0; i < 2; ++i)
        pthread_join(threads[i], 0);
    puts("done");
    return yak_finish(processes, 3) != YAK_DONE;
}
