/* Writes the calls of a program to the system's message queues, each with the moments at which it
   began and ended, as a concurrent history (docs/formats.md). It is preloaded: LD_PRELOAD. Each
   thread that makes calls, in the program and its forked children, is a process of the history,
   numbered in the order of their first calls. The lines of a thread go to its own file in
   RECORD_ROOM, named by the parent's process id, the process id and the thread id. tools/record
   combines them into one history. When a call begins, its line is written with a dash for its end;
   when it returns, the complete line is written.

   The program may pass pointers and lengths that the system rejects. So the recorder passes them on
   unchanged. Before the call it reads what they point to through the kernel. It reads directly only
   what a successful call has used. The line of a failed send lacks its message if that can't be
   read. */
#define _GNU_SOURCE
#include <dlfcn.h>
#include <errno.h>
#include <fcntl.h>
#include <limits.h>
#include <mqueue.h>
#include <stdarg.h>
#include <stdbool.h>
#include <stdint.h>
#include <stdio.h>
#include <stdlib.h>
#include <string.h>
#include <sys/mman.h>
#include <sys/syscall.h>
#include <sys/uio.h>
#include <time.h>
#include <unistd.h>

static __thread int room = -1;
static __thread pid_t owner;

/* The file of this thread. A forked child still has the descriptor of its parent's file, so this
 * compares thread ids. */
static int file_of_thread(void)
{
    pid_t me = (pid_t)syscall(SYS_gettid);
    if (room >= 0 && owner == me)
        return room;
    char name[4096];
    snprintf(name, sizeof name, "%s/%d.%d.%d", getenv("RECORD_ROOM"), (int)getppid(), (int)getpid(),
             (int)me);
    room = open(name, O_WRONLY | O_CREAT | O_APPEND | O_CLOEXEC, 0600);
    owner = me;
    return room;
}

static uint64_t moment(void)
{
    struct timespec t;
    clock_gettime(CLOCK_MONOTONIC, &t);
    return (uint64_t)t.tv_sec * 1000000000u + (uint64_t)t.tv_nsec;
}

/* A line under construction: a call with its name or message, and what it returned. */
struct line {
    char *text;
    size_t len, room;
};

static void add(struct line *line, const char *bytes, size_t len)
{
    if (line->len + len > line->room) {
        size_t more = 2 * (line->len + len) + 256;
        char *text = realloc(line->text, more);
        if (!text)
            return;
        line->text = text;
        line->room = more;
    }
    memcpy(line->text + line->len, bytes, len);
    line->len += len;
}

static void say(struct line *line, const char *format, ...)
{
    char words[512];
    va_list given;
    va_start(given, format);
    int len = vsnprintf(words, sizeof words, format, given);
    va_end(given);
    add(line, words, (size_t)len);
}

static void quote(struct line *line, const char *bytes, size_t len)
{
    if (!len)
        return;
    add(line, " \"", 2);
    for (size_t at = 0; at < len; at++) {
        unsigned char b = (unsigned char)bytes[at];
        if (b > 32 && b < 127 && b != '%')
            add(line, bytes + at, 1);
        else
            say(line, "%%%02X", b);
    }
    add(line, "\"", 1);
}

/* A pointer of the program. It hides the nonnull attributes of the system's header, which the
 * compiler would rely on. */
static inline const void *given(const void *pointer)
{
    __asm__("" : "+r"(pointer));
    return pointer;
}

/* Copies what the program points to; false if it can't be read. */
static bool peek(void *to, const void *from, size_t len)
{
    struct iovec here = {.iov_base = to, .iov_len = len};
    struct iovec there = {.iov_base = (void *)(uintptr_t)from, .iov_len = len};
    return given(from) && process_vm_readv(getpid(), &here, 1, &there, 1, 0) == (ssize_t)len;
}

/* Adds the name of a queue, if it can be read to its end. */
static void quote_name(struct line *line, const char *name)
{
    char copy[PATH_MAX];
    for (size_t len = 0; len < sizeof copy; len++) {
        if (!peek(&copy[len], name + len, 1))
            return;
        if (!copy[len]) {
            quote(line, copy, len);
            return;
        }
    }
}

/* Adds the message of a send in progress. Longer ones fail before they are read. */
static void quote_message(struct line *line, const char *message, size_t len)
{
    enum { LONGEST = 16 << 20 };
    char *copy = len && len <= LONGEST ? malloc(len) : NULL;
    if (copy && peek(copy, message, len))
        quote(line, copy, len);
    free(copy);
}

/* The name of an error that a history can express; null for any other. */
static const char *name_of(int error)
{
    switch (error) {
    case EAGAIN:
        return "EAGAIN";
    case EBADF:
        return "EBADF";
    case EBUSY:
        return "EBUSY";
    case EEXIST:
        return "EEXIST";
    case EINVAL:
        return "EINVAL";
    case EMFILE:
        return "EMFILE";
    case EMSGSIZE:
        return "EMSGSIZE";
    case ENAMETOOLONG:
        return "ENAMETOOLONG";
    case ENOENT:
        return "ENOENT";
    case ENOSPC:
        return "ENOSPC";
    case ETIMEDOUT:
        return "ETIMEDOUT";
    default:
        return NULL;
    }
}

/* Writes the line of a call that begins. A thread makes one call at a time. */
static uint64_t begin(struct line *call)
{
    uint64_t began = moment();
    struct line line = {0};
    say(&line, "%llu - ", (unsigned long long)began);
    add(&line, call->text, call->len);
    add(&line, " ->\n", 4);
    int error = errno;
    if (write(file_of_thread(), line.text, line.len) < 0) {
    }
    errno = error;
    free(line.text);
    return began;
}

static void end(uint64_t began, struct line *call, struct line *result)
{
    int error = errno;
    struct line line = {0};
    say(&line, "%llu %llu ", (unsigned long long)began, (unsigned long long)moment());
    add(&line, call->text, call->len);
    add(&line, " ->", 3);
    add(&line, result->text, result->len);
    add(&line, "\n", 1);
    if (write(file_of_thread(), line.text, line.len) < 0) {
    }
    free(line.text);
    free(call->text);
    free(result->text);
    errno = error;
}

static void refused(struct line *result)
{
    const char *name = name_of(errno);
    if (name)
        say(result, " %s", name);
    else
        say(result, " outside:error%d", errno);
}

#define REAL(name) ((__typeof__(&name))dlsym(RTLD_NEXT, #name))

mqd_t mq_open(const char *name, int flags, ...)
{
    mode_t mode = 0;
    struct mq_attr *attr = NULL, limits;
    if (flags & O_CREAT) {
        va_list rest;
        va_start(rest, flags);
        mode = va_arg(rest, mode_t);
        attr = va_arg(rest, struct mq_attr *);
        va_end(rest);
    }
    struct line call = {0}, result = {0};
    int access = flags & O_ACCMODE;
    say(&call, "open %s%s%s%s",
        access == O_RDONLY   ? "r"
        : access == O_WRONLY ? "w"
                             : "b",
        flags & O_CREAT ? "c" : "", flags & O_EXCL ? "x" : "", flags & O_NONBLOCK ? "n" : "");
    if (peek(&limits, attr, sizeof limits))
        say(&call, " limits %ld %ld", limits.mq_maxmsg, limits.mq_msgsize);
    quote_name(&call, name);
    uint64_t began = begin(&call);
    mqd_t d = REAL(mq_open)(name, flags, mode, attr);
    if (d == (mqd_t)-1)
        refused(&result);
    else
        say(&result, " fd %d", (int)d);
    end(began, &call, &result);
    return d;
}

static int done(uint64_t began, struct line *call, int status)
{
    struct line result = {0};
    if (status)
        refused(&result);
    else
        say(&result, " ok");
    end(began, call, &result);
    return status;
}

int mq_close(mqd_t d)
{
    struct line call = {0};
    say(&call, "close %u", (unsigned)d);
    uint64_t began = begin(&call);
    return done(began, &call, REAL(mq_close)(d));
}

int mq_unlink(const char *name)
{
    struct line call = {0};
    say(&call, "unlink");
    quote_name(&call, name);
    uint64_t began = begin(&call);
    return done(began, &call, REAL(mq_unlink)(name));
}

/* Adds the deadline of a timed call. Linux allows a null deadline; then the call is recorded as one
 * that is not timed. */
static void until(struct line *call, const struct timespec *end)
{
    struct timespec now, t = {0};
    if (!end)
        return;
    peek(&t, end, sizeof t);
    clock_gettime(CLOCK_REALTIME, &now);
    say(call, " until %lld %ld at %lld %ld", (long long)t.tv_sec, t.tv_nsec, (long long)now.tv_sec,
        now.tv_nsec);
}

/* The words of a send, to which its message is added. */
static struct line send_of(mqd_t d, size_t len, unsigned prio, const struct timespec *t)
{
    struct line call = {0};
    say(&call, "%s %u %u %zu", t ? "tsend" : "send", (unsigned)d, prio, len);
    until(&call, t);
    return call;
}

static uint64_t begin_send(const struct line *words, const char *message, size_t len)
{
    struct line call = {0};
    add(&call, words->text, words->len);
    quote_message(&call, message, len);
    uint64_t began = begin(&call);
    free(call.text);
    return began;
}

static int sent(uint64_t began, struct line *call, int status, const char *message, size_t len)
{
    int error = errno;
    if (!status)
        quote(call, message, len);
    else
        quote_message(call, message, len);
    errno = error;
    return done(began, call, status);
}

int mq_send(mqd_t d, const char *message, size_t len, unsigned prio)
{
    struct line call = send_of(d, len, prio, NULL);
    uint64_t began = begin_send(&call, message, len);
    return sent(began, &call, REAL(mq_send)(d, message, len, prio), message, len);
}

int mq_timedsend(mqd_t d, const char *message, size_t len, unsigned prio, const struct timespec *t)
{
    struct line call = send_of(d, len, prio, given(t));
    uint64_t began = begin_send(&call, message, len);
    return sent(began, &call, REAL(mq_timedsend)(d, message, len, prio, t), message, len);
}

static ssize_t got(uint64_t began, struct line *call, ssize_t len, const char *buffer,
                   unsigned prio)
{
    struct line result = {0};
    if (len < 0)
        refused(&result);
    else {
        say(&result, " got %u", prio);
        quote(&result, buffer, (size_t)len);
    }
    end(began, call, &result);
    return len;
}

ssize_t mq_receive(mqd_t d, char *buffer, size_t len, unsigned *wanted)
{
    struct line call = {0};
    unsigned prio = 0, *to = wanted ? wanted : &prio;
    say(&call, "recv %u %zu", (unsigned)d, len);
    uint64_t began = begin(&call);
    ssize_t size = REAL(mq_receive)(d, buffer, len, to);
    return got(began, &call, size, buffer, size < 0 ? 0 : *to);
}

ssize_t mq_timedreceive(mqd_t d, char *buffer, size_t len, unsigned *wanted,
                        const struct timespec *t)
{
    struct line call = {0};
    unsigned prio = 0, *to = wanted ? wanted : &prio;
    say(&call, "%s %u %zu", given(t) ? "trecv" : "recv", (unsigned)d, len);
    until(&call, given(t));
    uint64_t began = begin(&call);
    ssize_t size = REAL(mq_timedreceive)(d, buffer, len, to, t);
    return got(began, &call, size, buffer, size < 0 ? 0 : *to);
}

static int shown(uint64_t began, struct line *call, int status, const struct mq_attr *attr)
{
    struct line result = {0};
    if (status)
        refused(&result);
    else
        say(&result, " attr %d %ld %ld %ld", attr->mq_flags & O_NONBLOCK ? 1 : 0, attr->mq_maxmsg,
            attr->mq_msgsize, attr->mq_curmsgs);
    end(began, call, &result);
    return status;
}

int mq_getattr(mqd_t d, struct mq_attr *attr)
{
    struct line call = {0};
    struct mq_attr got, *to = given(attr) ? attr : &got;
    say(&call, "getattr %u", (unsigned)d);
    uint64_t began = begin(&call);
    return shown(began, &call, REAL(mq_getattr)(d, to), to);
}

/* Linux allows null attributes; then the call is recorded as a getattr. */
int mq_setattr(mqd_t d, const struct mq_attr *attr, struct mq_attr *old)
{
    struct line call = {0};
    struct mq_attr before, set = {0}, *to = old ? old : &before;
    peek(&set, attr, sizeof set);
    if (given(attr))
        say(&call, "setattr %u %d", (unsigned)d, set.mq_flags & O_NONBLOCK ? 1 : 0);
    else
        say(&call, "getattr %u", (unsigned)d);
    uint64_t began = begin(&call);
    return shown(began, &call, REAL(mq_setattr)(d, attr, to), to);
}

int mq_notify(mqd_t d, const struct sigevent *event)
{
    struct line call = {0};
    struct sigevent asked;
    memset(&asked, 0, sizeof asked);
    peek(&asked, event, sizeof asked);
    if (event)
        say(&call, "notify %u %llu", (unsigned)d,
            (unsigned long long)(uintptr_t)asked.sigev_value.sival_ptr);
    else
        say(&call, "notify %u -", (unsigned)d);
    uint64_t began = begin(&call);
    return done(began, &call, REAL(mq_notify)(d, event));
}
