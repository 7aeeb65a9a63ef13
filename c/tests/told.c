/* Notices for other processes: a signal reaches no process but the one that registered, also if
 * that has called exec, or if its number belongs to another process; and all notices of a process
 * that is stopped come when it goes on. Over the kernel's queues it prints the same. */
#define _GNU_SOURCE
#include <linux/sched.h>
#include <signal.h>
#include <stdatomic.h>
#include <stdbool.h>
#include <sys/syscall.h>

#include "family.h"

enum { QUEUES = 20, ROUNDS = 2 };

static mqd_t queue;
static int said[2];

static void register_for_signal(void)
{
    struct sigevent event;
    memset(&event, 0, sizeof event);
    event.sigev_notify = SIGEV_SIGNAL;
    event.sigev_signo = SIGUSR1;
    WANT(mq_notify(queue, &event) == 0);
}

static void register_and_say(void)
{
    register_for_signal();
    tell_through(said);
    pause_for(60000);
}

static void register_and_exec(void)
{
    register_for_signal();
    execlp("sleep", "sleep", "1", (char *)0);
    _exit(2);
}

static void send_and_take(void)
{
    char buf[8];
    WANT(mq_send(queue, "x", 1, 0) == 0 && mq_receive(queue, buf, sizeof buf, 0) == 1);
}

static void exec_is_not_told(void)
{
    const pid_t child = begin_child(register_and_exec);
    pause_for(300);
    send_and_take();
    ends_well(child);
}

/* A process that has the number of one that has ended. It takes the right to choose it: else there
 * is none, and nothing is tried. */
static pid_t begin_with(pid_t number)
{
    struct clone_args how;
    long child;
    memset(&how, 0, sizeof how);
    how.exit_signal = SIGCHLD;
    how.set_tid = (uintptr_t)&number;
    how.set_tid_size = 1;
    child = syscall(SYS_clone3, &how, sizeof how);
    if (child == 0) {
        execlp("sleep", "sleep", "1", (char *)0);
        _exit(2);
    }
    return (pid_t)child;
}

static void stranger_is_not_told(void)
{
    const pid_t child = begin_child(register_and_say);
    pid_t stranger;
    await_told(said);
    WANT(kill(child, SIGKILL) == 0 && waitpid(child, 0, 0) == child);
    stranger = begin_with(child);
    if (stranger == -1)
        return;
    pause_for(100);
    send_and_take();
    ends_well(stranger);
}

/* ---- many notices ---- */

static mqd_t queues[QUEUES];
static atomic_int ran;

static void called(union sigval value)
{
    atomic_fetch_add(&ran, value.sival_int);
}

static void register_all(void)
{
    struct sigevent event;
    memset(&event, 0, sizeof event);
    event.sigev_notify = SIGEV_THREAD;
    event.sigev_notify_function = called;
    event.sigev_value.sival_int = 1;
    for (int i = 0; i < QUEUES; ++i)
        WANT(mq_notify(queues[i], &event) == 0);
}

static void be_told(void)
{
    for (int round = 1; round <= ROUNDS; ++round) {
        register_all();
        tell_through(said);
        for (int i = 0; i < 5000 && atomic_load(&ran) < round * QUEUES; ++i)
            pause_for(1);
        WANT(atomic_load(&ran) == round * QUEUES);
    }
}

static void stopped_is_told_all(void)
{
    char name[32], buf[8];
    pid_t child;
    int status;
    for (int i = 0; i < QUEUES; ++i) {
        snprintf(name, sizeof name, "/yak-told-%d", i);
        queues[i] = fresh(name, 4, 8, 0);
    }
    child = begin_child(be_told);
    for (int round = 0; round < ROUNDS; ++round) {
        await_told(said);
        /* So that no thread of the library is in a call when the child stops. */
        pause_for(100);
        WANT(kill(child, SIGSTOP) == 0 && waitpid(child, &status, WUNTRACED) == child);
        for (int i = 0; i < QUEUES; ++i)
            WANT(mq_send(queues[i], "x", 1, 0) == 0);
        for (int i = 0; i < QUEUES; ++i)
            WANT(mq_receive(queues[i], buf, sizeof buf, 0) == 1);
        WANT(kill(child, SIGCONT) == 0);
    }
    ends_well(child);
    for (int i = 0; i < QUEUES; ++i) {
        snprintf(name, sizeof name, "/yak-told-%d", i);
        WANT(mq_close(queues[i]) == 0 && mq_unlink(name) == 0);
    }
}

int main(void)
{
    WANT(pipe(said) == 0);
    queue = fresh("/yak-told", 4, 8, 0);
    exec_is_not_told();
    stranger_is_not_told();
    stopped_is_told_all();
    WANT(mq_close(queue) == 0 && mq_unlink("/yak-told") == 0);
    puts("well");
    return 0;
}
