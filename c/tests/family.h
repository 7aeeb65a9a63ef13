/* What the tests that fork share. */
#ifndef YAK_TESTS_FAMILY_H
#define YAK_TESTS_FAMILY_H

#include <fcntl.h>
#include <stdint.h>
#include <stdlib.h>
#include <sys/mman.h>
#include <sys/wait.h>
#include <unistd.h>

#include "want.h"

static inline double now_in_seconds(void)
{
    struct timespec t;
    clock_gettime(CLOCK_MONOTONIC, &t);
    return (double)t.tv_sec + (double)t.tv_nsec / 1e9;
}

/* A new queue for messages of `msgsize` bytes. */
static inline mqd_t fresh(const char *name, long maxmsg, long msgsize, int flags)
{
    struct mq_attr attr;
    mqd_t queue;
    memset(&attr, 0, sizeof attr);
    attr.mq_maxmsg = maxmsg;
    attr.mq_msgsize = msgsize;
    mq_unlink(name);
    WANT((queue = mq_open(name, O_RDWR | O_CREAT | O_EXCL | flags, 0600, &attr)) != -1);
    return queue;
}

static inline long messages_in(mqd_t queue)
{
    struct mq_attr attr;
    WANT(mq_getattr(queue, &attr) == 0);
    return attr.mq_curmsgs;
}

static inline struct timespec after(long milliseconds)
{
    struct timespec t;
    clock_gettime(CLOCK_REALTIME, &t);
    t.tv_nsec += milliseconds % 1000 * 1000000;
    t.tv_sec += milliseconds / 1000 + t.tv_nsec / 1000000000;
    t.tv_nsec %= 1000000000;
    return t;
}

static inline void ends_well(pid_t child)
{
    int status = 0;
    WANT(child > 0 && waitpid(child, &status, 0) == child);
    WANT(WIFEXITED(status) && WEXITSTATUS(status) == 0);
}

/* Runs a function in a child, which exits with status 0 if the function returns. */
static inline pid_t begin_child(void (*run)(void))
{
    const pid_t child = fork();
    WANT(child != -1);
    if (child != 0)
        return child;
    run();
    _exit(0);
}

/* Waits until a process sleeps: then it is in no call but one that waits. */
static inline void await_sleep(pid_t process)
{
    char path[64], state = 0;
    snprintf(path, sizeof path, "/proc/%d/stat", (int)process);
    for (int i = 0; i < 10000 && state != 'S'; ++i) {
        FILE *from = fopen(path, "r");
        WANT(from != 0 && fscanf(from, "%*d %*s %c", &state) == 1);
        fclose(from);
        if (state != 'S')
            pause_for(1);
    }
    WANT(state == 'S');
}

/* A word through a pipe, by which one process tells another how far it is. */
static inline void tell_through(const int pipe[2])
{
    WANT(write(pipe[1], "", 1) == 1);
}

static inline void await_told(const int pipe[2])
{
    char byte;
    WANT(read(pipe[0], &byte, 1) == 1);
}

/* Memory that parent and children share. */
static inline void *shared_memory(size_t size)
{
    void *at = mmap(0, size, PROT_READ | PROT_WRITE, MAP_SHARED | MAP_ANONYMOUS, -1, 0);
    WANT(at != MAP_FAILED);
    return at;
}

#endif
