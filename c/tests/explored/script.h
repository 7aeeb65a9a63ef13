/* script.h: the calls of a script of mqrun, for the programs that checks/explored_scripts writes. A
 * process of the script is a thread, with numbers of its own for what it has open. Its replies go
 * to a stream of its own, which is written when the program ends. */
#include "short.h"

#include <errno.h>
#include <unistd.h>

enum { MOST_OPEN = 16, NOBODY = -1 };

typedef struct process {
    int number;
    FILE *to;
    mqd_t open[MOST_OPEN];
} process;

static inline void begin(process *it, int number)
{
    it->number = number;
    it->to = fdopen(dup(1), "w");
    if (it->to == 0)
        abort();
    for (int i = 0; i < MOST_OPEN; ++i)
        it->open[i] = NOBODY;
}

static inline void reply(process *it, int failed, const char *well)
{
    fprintf(it->to, "%d %s\n", it->number, failed ? strerrorname_np(errno) : well);
}

/* The limits may be 0: then there are none. */
static inline void script_open(process *it, const char *name, int flags, long maxmsg, long msgsize)
{
    struct mq_attr attr = {.mq_maxmsg = maxmsg, .mq_msgsize = msgsize};
    const mqd_t queue = mq_open(name, flags, 0600, maxmsg != 0 ? &attr : 0);
    char text[16];
    int d = 0;
    while (it->open[d] != NOBODY)
        ++d;
    it->open[d] = queue;
    snprintf(text, sizeof text, "fd %d", d);
    reply(it, queue == (mqd_t)-1, text);
}

static inline void script_close(process *it, int d)
{
    const int failed = mq_close(it->open[d]);
    it->open[d] = NOBODY;
    reply(it, failed, "ok");
}

static inline void script_exit(process *it)
{
    for (int d = 0; d < MOST_OPEN; ++d) {
        if (it->open[d] != NOBODY)
            mq_close(it->open[d]);
        it->open[d] = NOBODY;
    }
    reply(it, 0, "ok");
}

static inline void script_unlink(process *it, const char *name)
{
    reply(it, mq_unlink(name), "ok");
}

/* A deadline that is past, or none. */
static const struct timespec past;

static inline void script_send(process *it, int d, unsigned prio, const char *text, int is_timed)
{
    const size_t len = strlen(text);
    reply(it,
          is_timed ? mq_timedsend(it->open[d], text, len, prio, &past)
                   : mq_send(it->open[d], text, len, prio),
          "ok");
}

static inline void script_receive(process *it, int d, size_t size, int is_timed)
{
    char buf[64], text[128];
    unsigned prio = 0;
    const ssize_t len = is_timed ? mq_timedreceive(it->open[d], buf, size, &prio, &past)
                                 : mq_receive(it->open[d], buf, size, &prio);
    if (len >= 0)
        snprintf(text, sizeof text, "got %u %zd%s%.*s", prio, len, len > 0 ? " " : "", (int)len,
                 buf);
    reply(it, len < 0, text);
}

static inline void reply_attr(process *it, int failed, const struct mq_attr *attr)
{
    char text[128];
    snprintf(text, sizeof text, "attr %d %ld %ld %ld", (attr->mq_flags & O_NONBLOCK) != 0,
             attr->mq_maxmsg, attr->mq_msgsize, attr->mq_curmsgs);
    reply(it, failed, text);
}

static inline void script_getattr(process *it, int d)
{
    struct mq_attr attr = {0};
    const int failed = mq_getattr(it->open[d], &attr);
    reply_attr(it, failed, &attr);
}

static inline void script_setattr(process *it, int d, int is_nonblocking)
{
    const struct mq_attr set = {.mq_flags = is_nonblocking ? O_NONBLOCK : 0};
    struct mq_attr before = {0};
    const int failed = mq_setattr(it->open[d], &set, &before);
    reply_attr(it, failed, &before);
}
