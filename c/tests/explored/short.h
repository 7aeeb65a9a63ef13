/* short.h: short names over <mqueue.h> and <pthread.h> for the programs of this folder. None of
 * them knows that it is explored. */
#define _GNU_SOURCE
#include <fcntl.h>
#include <mqueue.h>
#include <pthread.h>
#include <stdio.h>
#include <stdlib.h>
#include <string.h>
#include <time.h>

/* A new queue for short messages. */
static inline mqd_t fresh(const char *name, long maxmsg)
{
    struct mq_attr attr = {.mq_maxmsg = maxmsg, .mq_msgsize = 8};
    mqd_t queue;
    mq_unlink(name);
    queue = mq_open(name, O_RDWR | O_CREAT, 0600, &attr);
    if (queue == (mqd_t)-1) {
        perror(name);
        exit(2);
    }
    return queue;
}

/* The same under a name with a number. */
static inline mqd_t fresh_one(const char *name, int number, long maxmsg)
{
    char numbered[32];
    snprintf(numbered, sizeof numbered, "%s-%d", name, number);
    return fresh(numbered, maxmsg);
}

static inline void put(mqd_t queue, char c)
{
    if (mq_send(queue, &c, 1, 0) != 0)
        abort();
}

static inline char get(mqd_t queue)
{
    char buf[8];
    if (mq_receive(queue, buf, sizeof buf, 0) < 0)
        abort();
    return buf[0];
}

static inline long held(mqd_t queue)
{
    struct mq_attr attr;
    if (mq_getattr(queue, &attr) != 0)
        abort();
    return attr.mq_curmsgs;
}

static inline pthread_t go(void *(*run)(void *), long with)
{
    pthread_t it;
    if (pthread_create(&it, 0, run, (void *)with) != 0)
        abort();
    return it;
}

static inline void join(pthread_t *them, int count)
{
    for (int i = 0; i < count; ++i)
        pthread_join(them[i], 0);
}

static inline int number(int count, char **words, int which, int otherwise)
{
    return which < count ? atoi(words[which]) : otherwise;
}
