/* A handler interrupts a wait and does not return to it: it jumps out, or it ends its thread. The
 * next call of the thread, or its end, withdraws the wait, so no message that is sent later is
 * lost. If a handler makes a call and returns, the wait behaves as one of the kernel: it continues
 * with SA_RESTART, and otherwise it is interrupted. */
#define _GNU_SOURCE
#include <errno.h>
#include <fcntl.h>
#include <mqueue.h>
#include <pthread.h>
#include <setjmp.h>
#include <signal.h>
#include <stdatomic.h>
#include <stdbool.h>
#include <stdio.h>
#include <stdlib.h>
#include <string.h>
#include <sys/syscall.h>
#include <time.h>
#include <unistd.h>
#include <yakyrombe/program.h>

#include "stored.h"
#include "want.h"

enum { IN_ORDER = 31 };

static mqd_t queue, other;
static _Thread_local sigjmp_buf back;

static mqd_t fresh(const char *name)
{
    struct mq_attr attr = room_for(4);
    mqd_t it;
    WANT((it = mq_open(name, O_RDWR | O_CREAT | O_EXCL, 0600, &attr)) != -1);
    return it;
}

static int waits(void)
{
    FILE *nowhere = fopen("/dev/null", "w");
    int count;
    WANT(nowhere != 0);
    count = yak_program_report(nowhere);
    fclose(nowhere);
    return count;
}

/* The kernel's id of the thread that waits next. */
static atomic_int waiter;

static void tell_wait(void)
{
    atomic_store(&waiter, (int)syscall(SYS_gettid));
}

/* Whether it sleeps. */
static bool is_asleep(void)
{
    char path[64], line[256], *end;
    FILE *from;
    snprintf(path, sizeof path, "/proc/self/task/%d/stat", atomic_load(&waiter));
    from = fopen(path, "r");
    WANT(from != 0);
    end = fgets(line, sizeof line, from) != 0 ? strrchr(line, ')') : 0;
    fclose(from);
    return end != 0 && end[2] == 'S';
}

/* Returns when `count` calls wait, and the thread `waiter` sleeps in its wait: a handler that jumps
 * must not run before that. */
static void await_waits(int count)
{
    for (int i = 0; i < 10000 && waits() != count; ++i)
        pause_for(1);
    WANT(waits() == count);
    for (int seen = 0; seen < 3; seen = is_asleep() ? seen + 1 : 0)
        pause_for(1);
}

static void handle(int number, void (*handler)(int), int flags)
{
    struct sigaction action;
    memset(&action, 0, sizeof action);
    action.sa_handler = handler;
    action.sa_flags = flags;
    WANT(sigaction(number, &action, 0) == 0);
}

static void jump(int number)
{
    (void)number;
    siglongjmp(back, 1);
}

/* The queue has these messages, in this order, and no others. */
static void has(const char *messages)
{
    struct mq_attr attr;
    char buf[8];
    WANT(mq_getattr(queue, &attr) == 0 && attr.mq_curmsgs == (long)strlen(messages));
    for (; *messages != 0; ++messages)
        WANT(mq_receive(queue, buf, sizeof buf, 0) == 1 && buf[0] == *messages);
    WANT(mq_getattr(queue, &attr) == 0 && attr.mq_curmsgs == 0);
}

static void send_all(const char *messages)
{
    for (; *messages != 0; ++messages)
        WANT(mq_send(queue, messages, 1, 0) == 0);
}

typedef struct kick {
    pthread_t thread;
    int waits;
} kick;

static void *kick_when_it_waits(void *of)
{
    const kick *it = of;
    while (atomic_load(&waiter) == 0)
        pause_for(1);
    await_waits(it->waits);
    WANT(pthread_kill(it->thread, SIGALRM) == 0);
    return 0;
}

/* Starts to receive, with a buffer of its own frame, and is left by a jump while `beside` other
 * calls wait. */
static void leave_receive(bool is_timed, int beside)
{
    struct timespec until = {.tv_sec = time(0) + 3600};
    kick it = {.thread = pthread_self(), .waits = beside + 1};
    pthread_t kicks;
    char buf[8];
    atomic_store(&waiter, 0);
    WANT(pthread_create(&kicks, 0, kick_when_it_waits, &it) == 0);
    if (sigsetjmp(back, 1) == 0) {
        tell_wait();
        if (is_timed)
            mq_timedreceive(queue, buf, sizeof buf, 0, &until);
        else
            mq_receive(queue, buf, sizeof buf, 0);
        WANT(!"it waits");
    }
    WANT(pthread_join(kicks, 0) == 0);
}

static __attribute__((noinline)) void send_from_below(int frames, const char *messages)
{
    volatile char frame[512];
    memset((void *)(size_t)frame, 1, sizeof frame);
    if (frames == 0)
        send_all(messages);
    else
        send_from_below(frames - 1, messages);
    WANT(frame[7] == 1);
}

static void *send_from_beside(void *messages)
{
    send_all(messages);
    return 0;
}

static void jumps(void)
{
    struct mq_attr attr;
    pthread_t thread;
    handle(SIGALRM, jump, 0);
    for (int i = 0; i < 3; ++i)
        leave_receive(i == 1, 0);
    send_all("abcd");
    has("abcd");
    /* The call that finds the wait is made from a deeper frame than the one that was left. */
    leave_receive(false, 0);
    send_from_below(40, "efg");
    has("efg");
    /* Another thread sends after this one has made a call. */
    leave_receive(false, 0);
    WANT(mq_getattr(other, &attr) == 0);
    WANT(pthread_create(&thread, 0, send_from_beside, "hi") == 0 && pthread_join(thread, 0) == 0);
    has("hi");
    WANT(waits() == 0);
}

static void *leaves_send(void *of)
{
    (void)of;
    tell_wait();
    if (sigsetjmp(back, 1) == 0) {
        mq_send(queue, "x", 1, 9);
        WANT(!"it waits");
    }
    WANT(mq_send(queue, "x", 1, 9) == 0);
    return 0;
}

/* A send that was left is not made. */
static void jumps_out_of_send(void)
{
    pthread_t thread;
    char buf[8];
    handle(SIGUSR1, jump, 0);
    send_all("abcd");
    WANT(pthread_create(&thread, 0, leaves_send, 0) == 0);
    await_waits(1);
    WANT(pthread_kill(thread, SIGUSR1) == 0);
    pause_for(50);
    /* The thread waits again, only in the send after the jump. */
    await_waits(1);
    WANT(mq_receive(queue, buf, sizeof buf, 0) == 1 && buf[0] == 'a');
    WANT(pthread_join(thread, 0) == 0);
    has("xbcd");
}

/* ---- while 31 other calls wait ---- */

static void *receive_other(void *of)
{
    char buf[8];
    (void)of;
    tell_wait();
    WANT(mq_receive(other, buf, sizeof buf, 0) == 1);
    return 0;
}

static void jumps_without_waiter(void)
{
    pthread_t threads[IN_ORDER];
    for (int i = 0; i < IN_ORDER; ++i)
        WANT(pthread_create(&threads[i], 0, receive_other, 0) == 0);
    await_waits(IN_ORDER);
    for (int i = 0; i < 3; ++i)
        leave_receive(i == 1, IN_ORDER);
    send_all("jkl");
    WANT(waits() == IN_ORDER);
    has("jkl");
    for (int i = 0; i < IN_ORDER; ++i)
        WANT(mq_send(other, "o", 1, 0) == 0);
    for (int i = 0; i < IN_ORDER; ++i)
        WANT(pthread_join(threads[i], 0) == 0);
}

/* ---- a thread that ends ---- */

static void leave_thread(int number)
{
    (void)number;
    pthread_exit(&queue);
}

static void *receive_one(void *of)
{
    char buf[8];
    (void)of;
    tell_wait();
    WANT(mq_receive(queue, buf, sizeof buf, 0) == 1 && buf[0] == 'm');
    return 0;
}

static void ends(void)
{
    pthread_t thread;
    void *ended;
    handle(SIGUSR1, leave_thread, 0);
    WANT(pthread_create(&thread, 0, receive_one, 0) == 0);
    await_waits(1);
    WANT(pthread_kill(thread, SIGUSR1) == 0);
    WANT(pthread_join(thread, &ended) == 0 && ended == &queue);
    WANT(waits() == 0);
    send_all("mno");
    has("mno");
}

/* ---- a thread that continues after a jump ---- */

static void *jumps_and_waits(void *of)
{
    struct mq_attr attr;
    char buf[8];
    (void)of;
    tell_wait();
    if (sigsetjmp(back, 1) == 0)
        mq_receive(queue, buf, sizeof buf, 0);
    WANT(mq_getattr(queue, &attr) == 0);
    mq_receive(queue, buf, sizeof buf, 0);
    return 0;
}

static void jumps_and_is_cancelled(void)
{
    pthread_t thread;
    void *ended;
    handle(SIGUSR1, jump, 0);
    WANT(pthread_create(&thread, 0, jumps_and_waits, 0) == 0);
    await_waits(1);
    WANT(pthread_kill(thread, SIGUSR1) == 0);
    pause_for(50);
    await_waits(1);
    WANT(pthread_cancel(thread) == 0 && pthread_join(thread, &ended) == 0 &&
         ended == PTHREAD_CANCELED);
    send_all("pq");
    has("pq");
}

/* ---- a handler that returns ---- */

static atomic_int handled;

static void call_and_return(int number)
{
    int error = errno;
    char buf[8];
    struct timespec soon;
    (void)number;
    clock_gettime(CLOCK_REALTIME, &soon);
    soon.tv_nsec = (soon.tv_nsec + 5000000) % 1000000000;
    WANT(mq_send(other, "h", 1, 0) == 0);
    WANT(mq_receive(other, buf, sizeof buf, 0) == 1 && buf[0] == 'h');
    WANT(mq_timedreceive(other, buf, sizeof buf, 0, &soon) == -1 && errno == ETIMEDOUT);
    atomic_fetch_add(&handled, 1);
    errno = error;
}

static long result;
static int error;

static void *receive_and_tell(void *of)
{
    char buf[8];
    /* The handler runs on a stack of its own, above or below this one. */
    static char room[2][1 << 16];
    stack_t stack;
    memset(&stack, 0, sizeof stack);
    stack.ss_sp = room[0];
    stack.ss_size = sizeof room[0];
    if (of != 0)
        WANT(sigaltstack(&stack, 0) == 0);
    tell_wait();
    result = mq_receive(queue, buf, sizeof buf, 0);
    error = errno;
    stack.ss_flags = SS_DISABLE;
    WANT(sigaltstack(&stack, 0) == 0);
    return 0;
}

static void comes_back(int flags, bool has_stack)
{
    pthread_t thread;
    atomic_store(&handled, 0);
    handle(SIGUSR1, call_and_return, flags | (has_stack ? SA_ONSTACK : 0));
    WANT(pthread_create(&thread, 0, receive_and_tell, has_stack ? &thread : 0) == 0);
    await_waits(1);
    WANT(pthread_kill(thread, SIGUSR1) == 0);
    while (atomic_load(&handled) == 0)
        pause_for(1);
    if (flags == 0) {
        WANT(pthread_join(thread, 0) == 0 && result == -1 && error == EINTR);
    } else {
        await_waits(1);
        send_all("r");
        WANT(pthread_join(thread, 0) == 0 && result == 1);
    }
    WANT(waits() == 0);
    has("");
}

/* The interrupted call gets a message that was handed to it before the handler made its call. */
static void call_when_answered(int number)
{
    struct mq_attr attr;
    (void)number;
    while (atomic_load(&handled) == 0)
        pause_for(1);
    WANT(mq_getattr(queue, &attr) == 0 && attr.mq_curmsgs == 0);
}

static void comes_back_answered(void)
{
    pthread_t thread;
    atomic_store(&handled, 0);
    handle(SIGUSR1, call_when_answered, 0);
    WANT(pthread_create(&thread, 0, receive_and_tell, 0) == 0);
    await_waits(1);
    WANT(pthread_kill(thread, SIGUSR1) == 0);
    pause_for(50);
    send_all("s");
    atomic_store(&handled, 1);
    WANT(pthread_join(thread, 0) == 0 && result == 1);
    has("");
}

int main(void)
{
    queue = fresh("/yak-jumped");
    other = fresh("/yak-jumped-other");
    jumps();
    jumps_out_of_send();
    jumps_without_waiter();
    ends();
    jumps_and_is_cancelled();
    for (int i = 0; i < 2; ++i) {
        comes_back(0, i == 1);
        comes_back(SA_RESTART, i == 1);
    }
    comes_back_answered();
    WANT(is_checked());
    puts("well");
    return 0;
}
