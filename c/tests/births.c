/* Children that come late: a handler of another library runs before, for long; their parent has
 * ended by then, as that of a daemon has; a tracer holds them at their birth. Each has its part in
 * the queues when it comes, whatever others did meanwhile. A child that is killed at its birth
 * leaves nothing. Over the kernel's queues it prints the same.
 *
 * usage: births [SECONDS]     how long the tracer holds one */
#define _GNU_SOURCE
#include <pthread.h>
#include <signal.h>
#include <stdatomic.h>
#include <stdbool.h>
#include <sys/prctl.h>
#include <sys/ptrace.h>

#include "family.h"

static mqd_t queue;
static char buf[8];

/* ---- a handler that runs in the child before those of the library ---- */

static long late;
static bool dies;

static void be_late(void)
{
    if (late != 0)
        pause_for(late);
    if (dies)
        kill(getpid(), SIGKILL);
}

static void before_libraries(int count, char **words, char **environment)
{
    (void)count, (void)words, (void)environment;
    pthread_atfork(0, 0, be_late);
}

__attribute__((section(".preinit_array"),
               used)) static void (*const run_before)(int, char **, char **) = before_libraries;

/* A call for which what the dead hold is looked for. */
static void look(void)
{
    WANT(mq_unlink("/yak-births-nothing") == -1 && errno == ENOENT);
}

static void send_one(void)
{
    WANT(mq_send(queue, "c", 1, 0) == 0);
}

static void take_one(void)
{
    struct timespec until = after(20000);
    WANT(mq_timedreceive(queue, buf, sizeof buf, 0, &until) == 1);
}

/* Its parent, which made the fork, has ended long before it comes. */
static void begin_daemon(void)
{
    late = 300;
    begin_child(send_one);
}

static void daemons(void)
{
    for (int i = 0; i < 3; ++i) {
        ends_well(begin_child(begin_daemon));
        for (int n = 0; n < 10; ++n) {
            pause_for(20);
            look();
        }
        take_one();
    }
}

/* One child is late, and meanwhile others take places and leave them. */
static void beside_others(void)
{
    pid_t children[4], one;
    late = 300;
    one = begin_child(send_one);
    late = 0;
    for (int round = 0; round < 10; ++round) {
        for (int i = 0; i < 4; ++i)
            children[i] = begin_child(send_one);
        pause_for(10);
        look();
        for (int i = 0; i < 4; ++i) {
            take_one();
            ends_well(children[i]);
        }
    }
    take_one();
    ends_well(one);
}

/* What a child that dies at its birth would have held, the next open can have at once. */
static void killed_at_birth(void)
{
    for (int round = 0; round < 80; ++round) {
        mqd_t own = fresh("/yak-births-own", 4, 8, 0);
        pid_t child;
        WANT(mq_send(own, "x", 1, 0) == 0 && mq_unlink("/yak-births-own") == 0);
        dies = true;
        child = fork();
        dies = false;
        WANT(child > 0 && waitpid(child, 0, 0) == child);
        WANT(mq_close(own) == 0);
    }
}

/* The same while processes of others come and go: each that is about to end has no maps. */
static void killed_beside_others(void)
{
    enum { SHELLS = 3, TIMES = 10 };
    pid_t shells[SHELLS];
    for (int i = 0; i < SHELLS; ++i) {
        WANT((shells[i] = fork()) >= 0);
        if (shells[i] == 0) {
            prctl(PR_SET_PDEATHSIG, SIGKILL);
            execl("/bin/sh", "sh", "-c", "while :; do /bin/true; done", (char *)0);
            _exit(1);
        }
    }
    for (int i = 0; i < TIMES; ++i)
        killed_at_birth();
    for (int i = 0; i < SHELLS; ++i)
        WANT(kill(shells[i], SIGKILL) == 0 && waitpid(shells[i], 0, 0) == shells[i]);
}

/* ---- a tracer ---- */

static _Atomic int *step;

static void be_traced(void)
{
    pid_t child;
    ptrace(PTRACE_TRACEME, 0, 0, 0);
    raise(SIGSTOP);
    child = begin_child(send_one);
    while (atomic_load(step) == 0)
        pause_for(10);
    look();
    pause_for(50);
    look();
    atomic_store(step, 2);
    ends_well(child);
    take_one();
}

/* Lets a traced process go on until it has forked: its child, which stands at its birth. */
static pid_t await_birth(pid_t parent)
{
    unsigned long child = 0;
    int status;
    while (child == 0) {
        const pid_t who = waitpid(-1, &status, __WALL);
        if (who == parent && status >> 8 == (SIGTRAP | PTRACE_EVENT_FORK << 8))
            WANT(ptrace(PTRACE_GETEVENTMSG, parent, 0, &child) == 0);
        if (who == parent)
            ptrace(PTRACE_CONT, parent, 0,
                   (void *)(long)(WSTOPSIG(status) == SIGTRAP ? 0 : WSTOPSIG(status)));
    }
    WANT(waitpid((pid_t)child, &status, __WALL) == (pid_t)child);
    return (pid_t)child;
}

static void held_at_birth(int seconds)
{
    const pid_t parent = begin_child(be_traced);
    pid_t child;
    int status;
    WANT(waitpid(parent, &status, 0) == parent && WIFSTOPPED(status));
    WANT(ptrace(PTRACE_SETOPTIONS, parent, 0, (void *)PTRACE_O_TRACEFORK) == 0);
    ptrace(PTRACE_CONT, parent, 0, 0);
    child = await_birth(parent);
    pause_for(1000L * seconds);
    atomic_store(step, 1);
    while (atomic_load(step) != 2)
        pause_for(10);
    ptrace(PTRACE_DETACH, child, 0, 0);
    while (waitpid(parent, &status, __WALL) == parent && WIFSTOPPED(status))
        ptrace(PTRACE_CONT, parent, 0,
               (void *)(long)(WSTOPSIG(status) == SIGTRAP ? 0 : WSTOPSIG(status)));
    WANT(WIFEXITED(status) && WEXITSTATUS(status) == 0);
}

int main(int count, char **words)
{
    step = shared_memory(sizeof *step);
    queue = fresh("/yak-births", 10, 8, 0);
    WANT(mq_unlink("/yak-births") == 0);
    daemons();
    beside_others();
    killed_at_birth();
    killed_beside_others();
    held_at_birth(count > 1 ? atoi(words[1]) : 1);
    puts("well");
    return 0;
}
