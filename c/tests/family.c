/* Parent and child in each call: on the descriptors that the child inherits and on those that it
 * opens; blocked both ways; with deadlines and signals; with notices by signal and by thread, also
 * of a process that ends in any way; grandchildren and siblings. Over the kernel's queues it prints
 * the same. */
#define _GNU_SOURCE
#include <pthread.h>
#include <signal.h>
#include <stdatomic.h>
#include <stdbool.h>

#include "family.h"

static mqd_t queue;
static char buf[64];
static unsigned prio;

static void take(const char *text, unsigned wanted)
{
    WANT(mq_receive(queue, buf, sizeof buf, &prio) == (ssize_t)strlen(text));
    WANT(memcmp(buf, text, strlen(text)) == 0 && prio == wanted);
}

/* ---- each call ---- */

static void each_call(void)
{
    struct mq_attr attr;
    struct timespec soon = after(50);
    mqd_t own;
    WANT(mq_send(queue, "one", 3, 1) == 0);
    WANT((own = mq_open("/yak-family", O_WRONLY)) == queue + 1);
    WANT(mq_send(own, "two", 3, 2) == 0);
    WANT(mq_receive(own, buf, sizeof buf, &prio) == -1 && errno == EBADF);
    WANT(mq_getattr(own, &attr) == 0 && attr.mq_curmsgs == 2 && attr.mq_maxmsg == 4);
    WANT(mq_close(own) == 0 && mq_close(own) == -1 && errno == EBADF);
    WANT(mq_timedsend(queue, "3", 1, 0, &soon) == 0);
    WANT(mq_close(queue) == 0);
    WANT(mq_send(queue, "x", 1, 0) == -1 && errno == EBADF);
    own = fresh("/yak-family-kept", 2, 8, 0);
    WANT(mq_send(own, "kept", 4, 0) == 0);
}

static void set_nonblocking(void)
{
    struct mq_attr attr = {.mq_flags = O_NONBLOCK};
    WANT(mq_setattr(queue, &attr, 0) == 0);
}

static void calls(void)
{
    struct mq_attr attr = {0}, before;
    mqd_t kept;
    ends_well(begin_child(each_call));
    WANT(messages_in(queue) == 3);
    take("two", 2);
    take("one", 1);
    take("3", 0);
    WANT((kept = mq_open("/yak-family-kept", O_RDWR)) != -1);
    WANT(mq_receive(kept, buf, sizeof buf, 0) == 4);
    WANT(mq_close(kept) == 0 && mq_unlink("/yak-family-kept") == 0);
    /* The flag belongs to the open description, which they share. */
    ends_well(begin_child(set_nonblocking));
    WANT(mq_receive(queue, buf, sizeof buf, &prio) == -1 && errno == EAGAIN);
    WANT(mq_setattr(queue, &attr, &before) == 0 && before.mq_flags == O_NONBLOCK);
}

/* ---- blocked ---- */

static void receive_and_answer(void)
{
    take("to", 7);
    WANT(mq_send(queue, "back", 4, 9) == 0);
}

static void send_later(void)
{
    pause_for(50);
    WANT(mq_send(queue, "up", 2, 3) == 0);
}

static void send_late(void)
{
    WANT(mq_send(queue, "late", 4, 5) == 0);
}

static void ignore(int number)
{
    (void)number;
}

static void wait_in_vain(void)
{
    const double from = now_in_seconds();
    struct sigaction action;
    struct timespec soon = after(200);
    WANT(mq_timedreceive(queue, buf, sizeof buf, &prio, &soon) == -1 && errno == ETIMEDOUT);
    WANT(now_in_seconds() - from > 0.15);
    memset(&action, 0, sizeof action);
    action.sa_handler = ignore;
    sigaction(SIGALRM, &action, 0);
    alarm(1);
    WANT(mq_receive(queue, buf, sizeof buf, &prio) == -1 && errno == EINTR);
}

static void blocked(void)
{
    pid_t child = begin_child(receive_and_answer);
    pause_for(50);
    WANT(mq_send(queue, "to", 2, 7) == 0);
    pause_for(50);
    take("back", 9);
    ends_well(child);
    child = begin_child(send_later);
    take("up", 3);
    ends_well(child);
    for (int i = 0; i < 4; ++i)
        WANT(mq_send(queue, "full", 4, 0) == 0);
    child = begin_child(send_late);
    pause_for(50);
    take("full", 0);
    ends_well(child);
    take("late", 5);
    for (int i = 0; i < 3; ++i)
        take("full", 0);
    ends_well(begin_child(wait_in_vain));
}

/* ---- names ---- */

static mqd_t gone;

static void unlink_it(void)
{
    WANT(mq_unlink("/yak-family-gone") == 0);
    WANT(mq_open("/yak-family-gone", O_RDWR) == -1 && errno == ENOENT);
    WANT(mq_receive(gone, buf, sizeof buf, &prio) == 1);
}

static void open_and_receive(void)
{
    mqd_t own = fresh("/yak-family-sisters", 4, 8, 0);
    WANT(mq_receive(own, buf, sizeof buf, &prio) == 3);
    WANT(mq_unlink("/yak-family-sisters") == 0);
}

static void open_and_send(void)
{
    mqd_t own = mq_open("/yak-family-sisters", O_WRONLY);
    WANT(own != -1 && mq_send(own, "sis", 3, 0) == 0);
}

static void grandchild(void)
{
    pause_for(100);
    WANT(mq_send(queue, "grand", 5, 0) == 0);
}

static void leave_a_grandchild(void)
{
    begin_child(grandchild);
}

static void names(void)
{
    pid_t child;
    gone = fresh("/yak-family-gone", 4, 8, 0);
    child = begin_child(unlink_it);
    pause_for(100);
    WANT(mq_send(gone, "u", 1, 0) == 0);
    ends_well(child);
    WANT(mq_close(gone) == 0);
    child = begin_child(open_and_receive);
    pause_for(100);
    ends_well(begin_child(open_and_send));
    ends_well(child);
    ends_well(begin_child(leave_a_grandchild));
    take("grand", 0);
}

/* ---- notices ---- */

static volatile sig_atomic_t is_told;
static siginfo_t told;

static void keep(int number, siginfo_t *info, void *context)
{
    (void)number;
    (void)context;
    told = *info;
    is_told = 1;
}

/* The pipe by which a child says that it has registered. */
static int said[2];

static void register_and_await(void)
{
    struct sigaction action;
    struct sigevent event;
    memset(&action, 0, sizeof action);
    action.sa_sigaction = keep;
    action.sa_flags = SA_SIGINFO;
    sigaction(SIGUSR1, &action, 0);
    memset(&event, 0, sizeof event);
    event.sigev_notify = SIGEV_SIGNAL;
    event.sigev_signo = SIGUSR1;
    event.sigev_value.sival_int = 41;
    WANT(mq_notify(queue, &event) == 0);
    tell_through(said);
    for (int i = 0; i < 5000 && !is_told; ++i)
        pause_for(1);
    WANT(is_told && told.si_value.sival_int == 41 && told.si_pid == getppid() &&
         told.si_code == SI_MESGQ);
}

static atomic_int ran;

static void called(union sigval value)
{
    atomic_fetch_add(&ran, value.sival_int);
}

static void send_and_look(void)
{
    WANT(mq_send(queue, "n", 1, 0) == 0);
    pause_for(100);
    WANT(atomic_load(&ran) == 0);
}

enum { BY_EXIT, BY_END, BY_KILL, BY_EXEC, BY_CLOSE, WAYS };
static int way;

/* In a child, the leak sanitizer lists the threads of the parent, and can't stop them. So only the
 * parent checks for leaks at its end. */
static bool ends_by_exit;
int __lsan_is_turned_off(void);
int __lsan_is_turned_off(void)
{
    return ends_by_exit;
}

static void register_and_end(void)
{
    struct sigevent event;
    memset(&event, 0, sizeof event);
    event.sigev_notify = SIGEV_NONE;
    WANT(mq_notify(queue, &event) == 0);
    tell_through(said);
    if (way == BY_EXIT) {
        ends_by_exit = true;
        exit(0);
    }
    if (way == BY_END)
        _exit(0);
    if (way == BY_EXEC)
        execl("/bin/sleep", "sleep", "1", (char *)0);
    if (way == BY_CLOSE)
        mq_close(queue);
    pause_for(60000);
}

static bool is_registered(void)
{
    struct sigevent event;
    memset(&event, 0, sizeof event);
    event.sigev_notify = SIGEV_NONE;
    if (mq_notify(queue, &event) == -1 && errno == EBUSY)
        return true;
    WANT(mq_notify(queue, 0) == 0);
    return false;
}

static void notices(void)
{
    struct sigevent event;
    pid_t child;
    WANT(pipe(said) == 0);
    child = begin_child(register_and_await);
    await_told(said);
    /* The registration of another process stays. */
    WANT(mq_notify(queue, 0) == 0 && is_registered());
    WANT(mq_send(queue, "n", 1, 0) == 0);
    ends_well(child);
    take("n", 0);
    memset(&event, 0, sizeof event);
    event.sigev_notify = SIGEV_THREAD;
    event.sigev_notify_function = called;
    event.sigev_value.sival_int = 42;
    WANT(mq_notify(queue, &event) == 0);
    ends_well(begin_child(send_and_look));
    for (int i = 0; i < 5000 && atomic_load(&ran) == 0; ++i)
        pause_for(1);
    WANT(atomic_load(&ran) == 42);
    take("n", 0);
    /* A registration ends with its process. */
    for (way = 0; way < WAYS; ++way) {
        child = begin_child(register_and_end);
        await_told(said);
        if (way == BY_KILL)
            kill(child, SIGKILL);
        for (int i = 0; i < 1000 && is_registered(); ++i)
            pause_for(1);
        WANT(!is_registered());
        if (way == BY_CLOSE)
            kill(child, SIGKILL);
        WANT(waitpid(child, 0, 0) == child);
    }
}

int main(void)
{
    queue = fresh("/yak-family", 4, 8, 0);
    calls();
    blocked();
    names();
    notices();
    WANT(mq_close(queue) == 0 && mq_unlink("/yak-family") == 0);
    puts("well");
    return 0;
}
