/* Threads that pass descriptors on, and a forked child that uses its parent's. The recorded history
 * is linearizable only if each has an open of its own (tools/record). */
#define _GNU_SOURCE
#include <errno.h>
#include <fcntl.h>
#include <mqueue.h>
#include <pthread.h>
#include <stdio.h>
#include <sys/wait.h>
#include <unistd.h>

#include "want.h"

static char name[32];
static mqd_t queue;

/* Makes the thread take its steps in turn with the main thread. */
static pthread_barrier_t turn;

static void pass(void)
{
    pthread_barrier_wait(&turn);
}

static void *use(void *unused)
{
    char buf[8];
    struct mq_attr attr;
    (void)unused;
    WANT(mq_send(queue, "a", 1, 1) == 0);
    pass(); /* the main thread receives, and sets the flag */
    pass();
    WANT(mq_receive(queue, buf, sizeof buf, 0) == -1 && errno == EAGAIN);
    pass(); /* the main thread closes */
    pass();
    WANT(mq_send(queue, "b", 1, 1) == -1 && errno == EBADF);
    pass(); /* the main thread opens again, and gets the same number */
    pass();
    WANT(mq_send(queue, "c", 1, 1) == 0 && mq_getattr(queue, &attr) == 0 && attr.mq_curmsgs == 1);
    WANT(mq_close(queue) == 0);
    return 0;
}

int main(void)
{
    struct mq_attr attr = room_for(2), nonblocking = {.mq_flags = O_NONBLOCK};
    char buf[8];
    pthread_t thread;
    mqd_t first;
    int status;
    pid_t child;
    snprintf(name, sizeof name, "/yak-passed-%d", (int)getpid());
    pthread_barrier_init(&turn, 0, 2);
    WANT((queue = first = mq_open(name, O_RDWR | O_CREAT | O_EXCL, 0600, &attr)) != -1);
    WANT(pthread_create(&thread, 0, use, 0) == 0);
    pass();
    WANT(mq_receive(queue, buf, sizeof buf, 0) == 1);
    WANT(mq_setattr(queue, &nonblocking, 0) == 0);
    pass();
    pass();
    WANT(mq_close(queue) == 0);
    pass();
    pass();
    WANT((queue = mq_open(name, O_RDWR)) == first);
    pass();
    WANT(pthread_join(thread, 0) == 0);
    WANT(mq_send(queue, "d", 1, 1) == -1 && errno == EBADF);
    WANT((queue = mq_open(name, O_RDWR)) == first);
    if ((child = fork()) == 0) {
        WANT(mq_receive(queue, buf, sizeof buf, 0) == 1 && buf[0] == 'c');
        _exit(0);
    }
    WANT(waitpid(child, &status, 0) == child && status == 0);
    WANT(mq_close(queue) == 0 && mq_unlink(name) == 0);
    puts("well");
    return 0;
}
