/* What the tests of libyakyrombe-mqueue share. */
#ifndef YAK_TESTS_WANT_H
#define YAK_TESTS_WANT_H

#include <errno.h>
#include <mqueue.h>
#include <stdio.h>
#include <string.h>
#include <time.h>
#include <unistd.h>

/* musl has no names of errors. */
#ifndef __GLIBC__
#define strerrorname_np strerror
#endif

/* Ends the process, also a forked child, if the condition is false. */
#define WANT(what)                                                                        \
    do                                                                                    \
        if (!(what)) {                                                                    \
            printf("line %d: not so: %s, %s\n", __LINE__, #what, strerrorname_np(errno)); \
            fflush(stdout);                                                               \
            _exit(1);                                                                     \
        }                                                                                 \
    while (0)

static inline void pause_for(long milliseconds)
{
    struct timespec t = {.tv_sec = milliseconds / 1000, .tv_nsec = milliseconds % 1000 * 1000000};
    nanosleep(&t, 0);
}

/* Limits for messages of 8 bytes. */
static inline struct mq_attr room_for(long maxmsg)
{
    struct mq_attr attr;
    memset(&attr, 0, sizeof attr);
    attr.mq_maxmsg = maxmsg;
    attr.mq_msgsize = 8;
    return attr;
}

#endif
