/* A program that passes pointers and lengths that the system rejects, as programs that test a
 * system do. One of its sends waits until its deadline. Run by tools/record, it ends as without it,
 * and its history has each call. */
#define _GNU_SOURCE
#include <errno.h>
#include <fcntl.h>
#include <mqueue.h>
#include <stdint.h>
#include <stdio.h>
#include <string.h>
#include <time.h>
#include <unistd.h>

#include "want.h"

/* Invalid pointers, hidden from the compiler. */
static void *const volatile nowhere = (void *)(uintptr_t)8, *const volatile none = 0;

#define REFUSED(error, call) WANT((errno = 0, (call) == -1 && errno == (error)))

int main(void)
{
    struct mq_attr attr = room_for(2);
    struct timespec past = {0, 0}, soon;
    char name[32], buf[8], *bad = nowhere, *null = none;
    mqd_t queue;
    snprintf(name, sizeof name, "/yak-recorded-%d", (int)getpid());
    REFUSED(EFAULT, mq_open(name, O_RDWR | O_CREAT, 0600, nowhere));
    WANT((queue = mq_open(name, O_RDWR | O_CREAT | O_NONBLOCK, 0600, &attr)) != -1);
    REFUSED(EMSGSIZE, mq_send(queue, "a", SIZE_MAX, 0));
    REFUSED(EMSGSIZE, mq_timedsend(queue, bad, SIZE_MAX / 2, 0, &past));
    REFUSED(EFAULT, mq_send(queue, bad, 8, 0));
    REFUSED(EFAULT, mq_send(queue, null, 8, 0));
    REFUSED(EINVAL, mq_send(queue, bad, 8, 1u << 31));
    REFUSED(EBADF, mq_send(-1, bad, 8, 0));
    REFUSED(EFAULT, mq_timedsend(queue, "a", 1, 0, nowhere));
    REFUSED(EMSGSIZE, mq_receive(queue, bad, 7, 0));
    REFUSED(EAGAIN, mq_receive(queue, null, 8, 0));
    REFUSED(EFAULT, mq_timedreceive(queue, buf, 8, 0, nowhere));
    REFUSED(EFAULT, mq_setattr(queue, nowhere, 0));
    REFUSED(EFAULT, mq_setattr(queue, &attr, nowhere));
    REFUSED(EFAULT, mq_getattr(queue, nowhere));
    WANT(mq_timedsend(queue, "kept", 4, 3, none) == 0);
    WANT(mq_timedreceive(queue, buf, 8, none, none) == 4 && memcmp(buf, "kept", 4) == 0);
    WANT(mq_setattr(queue, none, &attr) == 0 && attr.mq_maxmsg == 2);
    attr.mq_flags = 0;
    WANT(mq_setattr(queue, &attr, none) == 0);
    WANT(mq_send(queue, "one", 3, 0) == 0 && mq_send(queue, "two", 3, 0) == 0);
    clock_gettime(CLOCK_REALTIME, &soon);
    soon.tv_sec += 1;
    REFUSED(ETIMEDOUT, mq_timedsend(queue, "late", 4, 0, &soon));
    WANT(mq_close(queue) == 0 && mq_unlink(name) == 0);
    puts("well");
    return 0;
}
