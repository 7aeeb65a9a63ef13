/* What a program over the system's <mqueue.h> observes, one line for each observation. It prints
 * the same over the kernel's queues and over libyakyrombe-mqueue. */
#define _GNU_SOURCE
#include <errno.h>
#include <fcntl.h>
#include <mqueue.h>
#include <pthread.h>
#include <semaphore.h>
#include <signal.h>
#include <stdatomic.h>
#include <stdbool.h>
#include <stdio.h>
#include <stdlib.h>
#include <string.h>
#include <sys/syscall.h>
#include <time.h>
#include <unistd.h>

enum { CROWD = 28 };

static const char *said(long result)
{
    static _Thread_local char text[64];
    if (result >= 0)
        snprintf(text, sizeof text, "%ld", result);
    else
        snprintf(text, sizeof text, "%s", strerrorname_np(errno));
    return text;
}

/* No deadline; the kernel allows that too. */
static const struct timespec *const volatile none = 0;

#define SAY(call) (errno = 0, printf("%s: %s\n", #call, said((long)(call))))

static mqd_t fresh(const char *name, int flags, long maxmsg, long msgsize)
{
    struct mq_attr attr;
    memset(&attr, 0, sizeof attr);
    attr.mq_maxmsg = maxmsg;
    attr.mq_msgsize = msgsize;
    mq_unlink(name);
    mqd_t queue = mq_open(name, flags | O_CREAT | O_EXCL, 0600, &attr);
    if (queue == (mqd_t)-1) {
        perror(name);
        exit(1);
    }
    return queue;
}

static struct timespec after(long milliseconds)
{
    struct timespec t;
    clock_gettime(CLOCK_REALTIME, &t);
    t.tv_nsec += milliseconds % 1000 * 1000000;
    t.tv_sec += milliseconds / 1000 + t.tv_nsec / 1000000000;
    t.tv_nsec %= 1000000000;
    return t;
}

static void pause_for(long milliseconds)
{
    struct timespec t = {.tv_sec = milliseconds / 1000, .tv_nsec = milliseconds % 1000 * 1000000};
    nanosleep(&t, 0);
}

/* ---- when a thread waits ---- */

static sem_t step;
static atomic_int waiter;

static void await_step(void)
{
    while (sem_wait(&step) != 0)
        ;
}

/* A thread says that its next call waits. */
static void tell_wait(void)
{
    atomic_store(&waiter, (int)syscall(SYS_gettid));
    sem_post(&step);
}

/* Whether that thread sleeps, or has ended. */
static int is_asleep(void)
{
    char path[64], line[256], *end;
    FILE *from;
    snprintf(path, sizeof path, "/proc/self/task/%d/stat", atomic_load(&waiter));
    from = fopen(path, "r");
    if (from == 0)
        return 1;
    end = fgets(line, sizeof line, from) != 0 ? strrchr(line, ')') : 0;
    fclose(from);
    return end == 0 || end[2] == 'S';
}

static void await_sleep(void)
{
    for (int seen = 0; seen < 3; seen = is_asleep() ? seen + 1 : 0)
        pause_for(1);
}

/* Returns when the started thread waits: it sleeps, and has nothing else to sleep for. */
static void await_wait(void)
{
    await_step();
    await_sleep();
}

/* ---- what one thread sees ---- */

static void alone(void)
{
    struct mq_attr got, set;
    struct timespec past = {0, 0}, soon;
    char buf[8];
    unsigned prio = 0;
    mqd_t queue = fresh("/yak-alone", O_RDWR, 2, 8), other, reads, writes;
    SAY(mq_open("/yak-alone", O_RDWR | O_CREAT | O_EXCL, 0600, NULL));
    SAY(mq_open("/yak-none", O_RDWR));
    SAY(mq_unlink("/yak-none"));
    SAY(mq_close(-1));
    SAY(mq_close(12345));
    SAY(mq_send(-1, "a", 1, 0));
    SAY(mq_receive(queue, buf, 7, &prio));
    SAY(mq_send(queue, "123456789", 9, 0));
    SAY(mq_send(queue, "a", 1, 32768));
    SAY(mq_timedreceive(queue, buf, 8, &prio, &past));
    soon = after(20);
    SAY(mq_timedreceive(queue, buf, 8, &prio, &soon));
    SAY(mq_send(queue, "low", 3, 1));
    SAY(mq_timedsend(queue, "high", 4, 7, none));
    SAY(mq_timedsend(queue, "full", 4, 7, &past));
    SAY(mq_getattr(queue, &got));
    printf("%ld %ld %ld %d\n", got.mq_maxmsg, got.mq_msgsize, got.mq_curmsgs,
           (got.mq_flags & O_NONBLOCK) != 0);
    other = mq_open("/yak-alone", O_RDWR | O_NONBLOCK);
    SAY(mq_send(other, "full", 4, 0));
    memset(&set, 0, sizeof set);
    set.mq_flags = O_NONBLOCK;
    SAY(mq_setattr(queue, &set, &got));
    printf("flag before: %d\n", (got.mq_flags & O_NONBLOCK) != 0);
    SAY(mq_send(queue, "full", 4, 0));
    SAY(mq_timedreceive(queue, buf, 8, &prio, none));
    printf("%.4s %u\n", buf, prio);
    SAY(mq_receive(other, buf, 8, NULL));
    SAY(mq_receive(other, buf, 8, NULL));
    SAY(mq_receive(queue, buf, 8, NULL));
    reads = mq_open("/yak-alone", O_RDONLY);
    writes = mq_open("/yak-alone", O_WRONLY);
    SAY(mq_send(reads, "a", 1, 0));
    SAY(mq_receive(writes, buf, 8, 0));
    SAY(mq_send(writes, "", 0, 0));
    SAY(mq_receive(reads, buf, 8, &prio));
    SAY(mq_close(queue));
    SAY(mq_close(queue));
    SAY(mq_send(queue, "a", 1, 0));
    SAY(mq_unlink("/yak-alone"));
    SAY(mq_unlink("/yak-alone"));
    SAY(mq_open("/yak-alone", O_RDWR));
    SAY(mq_send(writes, "kept", 4, 2));
    mqd_t again = fresh("/yak-alone", O_RDWR | O_NONBLOCK, 1, 8);
    SAY(mq_receive(again, buf, 8, 0));
    SAY(mq_receive(reads, buf, 8, &prio));
    SAY(mq_close(again) + mq_close(reads) + mq_close(writes) + mq_close(other));
    SAY(mq_unlink("/yak-alone"));
}

/* Null pointers, invalid pointers, and lengths that no message has. Volatile, so that no compiler
 * knows their values. */
static struct mq_attr *volatile null_attr, *volatile bad_attr = (struct mq_attr *)8;
static volatile size_t longest = (size_t)-1 / 2;

static void at_fault(void)
{
    struct mq_attr got, set;
    char buf[8];
    mqd_t queue = fresh("/yak-fault", O_RDWR, 2, 8);
    memset(&set, 0, sizeof set);
    SAY(mq_open("/yak-fault", O_RDWR | O_CREAT, 0600, bad_attr));
    SAY(mq_getattr(queue, null_attr));
    SAY(mq_getattr(-1, null_attr));
    SAY(mq_getattr(queue, bad_attr));
    SAY(mq_getattr(-1, bad_attr));
    SAY(mq_setattr(queue, null_attr, null_attr));
    SAY(mq_setattr(queue, null_attr, &got));
    SAY(mq_setattr(queue, bad_attr, &got));
    SAY(mq_setattr(-1, bad_attr, &got));
    set.mq_flags = O_NONBLOCK | O_APPEND;
    SAY(mq_setattr(queue, &set, &got));
    SAY(mq_setattr(-1, &set, &got));
    set.mq_flags = O_NONBLOCK;
    SAY(mq_setattr(-1, &set, bad_attr));
    SAY(mq_setattr(queue, &set, bad_attr));
    memset(&got, 0xff, sizeof got);
    SAY(mq_getattr(queue, &got));
    printf("the flag is set: %d, the rest is 0: %d\n", got.mq_flags == O_NONBLOCK,
           ((const char *)&got)[sizeof got - 1]);
    SAY(mq_send(queue, buf, longest, 0));
    SAY(mq_send(queue, "a", 1, 0));
    SAY(mq_receive(queue, buf, longest, 0));
    SAY(mq_receive(queue, buf, longest, 0));
    SAY(mq_close(queue));
    SAY(mq_unlink("/yak-fault"));
}

/* ---- threads that share one descriptor ---- */

static mqd_t shared;
static long given[CROWD];
static atomic_int sum;

static void *receive_one(void *of)
{
    char buf[8];
    unsigned prio = 0;
    long i = (long)of;
    tell_wait();
    given[i] = mq_receive(shared, buf, sizeof buf, &prio) == 1 ? buf[0] : -1;
    atomic_fetch_add(&sum, (int)prio);
    return 0;
}

static void *send_one(void *of)
{
    char byte = (char)('a' + (long)of);
    tell_wait();
    given[(long)of] = mq_send(shared, &byte, 1, 0);
    return 0;
}

static void crowd(void)
{
    pthread_t threads[CROWD];
    char buf[8], byte;
    int in_order = 1, all_sent = 1;
    shared = fresh("/yak-crowd", O_RDWR, 4, 8);
    for (long i = 0; i < CROWD; ++i) {
        pthread_create(&threads[i], 0, receive_one, (void *)i);
        await_wait();
    }
    SAY(mq_unlink("/yak-crowd"));
    for (long i = 0; i < CROWD; ++i) {
        byte = (char)('A' + i);
        mq_send(shared, &byte, 1, (unsigned)i);
    }
    for (long i = 0; i < CROWD; ++i) {
        pthread_join(threads[i], 0);
        in_order = in_order && given[i] == 'A' + i;
    }
    printf(
        "%d receives waited on one descriptor of an unlinked queue: in order %d, priorities %d\n",
        CROWD, in_order, atomic_load(&sum));
    for (int i = 0; i < 4; ++i)
        mq_send(shared, "x", 1, 9);
    for (long i = 0; i < CROWD; ++i) {
        pthread_create(&threads[i], 0, send_one, (void *)i);
        await_wait();
    }
    in_order = 1;
    for (long i = 0; i < CROWD + 4; ++i) {
        mq_receive(shared, buf, sizeof buf, 0);
        in_order = in_order && buf[0] == (i < 4 ? 'x' : 'a' + i - 4);
    }
    for (long i = 0; i < CROWD; ++i) {
        pthread_join(threads[i], 0);
        all_sent = all_sent && given[i] == 0;
    }
    printf("%d sends waited on it: in order %d, all sent %d\n", CROWD, in_order, all_sent);
    SAY(mq_close(shared));
}

static void *opens_for_others(void *of)
{
    (void)of;
    shared = fresh("/yak-shared", O_RDWR, 4, 8);
    return 0;
}

static void *closes(void *of)
{
    (void)of;
    SAY(mq_close(shared));
    return 0;
}

static void sharing(void)
{
    pthread_t thread;
    char buf[8];
    pthread_create(&thread, 0, opens_for_others, 0);
    pthread_join(thread, 0);
    SAY(mq_send(shared, "hi", 2, 3));
    SAY(mq_receive(shared, buf, sizeof buf, 0));
    pthread_create(&thread, 0, closes, 0);
    pthread_join(thread, 0);
    SAY(mq_send(shared, "hi", 2, 3));
    SAY(mq_unlink("/yak-shared"));
}

/* ---- cancelled ---- */

static atomic_int cleaned;

static void count_cleaned(void *of)
{
    (void)of;
    atomic_fetch_add(&cleaned, 1);
}

static void *receive_until_cancelled(void *of)
{
    char buf[8];
    (void)of;
    pthread_cleanup_push(count_cleaned, 0);
    tell_wait();
    mq_receive(shared, buf, sizeof buf, 0);
    pthread_cleanup_pop(0);
    return 0;
}

static void *send_until_cancelled(void *of)
{
    struct timespec late = after(60000);
    (void)of;
    pthread_cleanup_push(count_cleaned, 0);
    tell_wait();
    mq_timedsend(shared, "x", 1, 0, &late);
    pthread_cleanup_pop(0);
    return 0;
}

static void *cannot_be_cancelled(void *of)
{
    char buf[8];
    int before;
    (void)of;
    pthread_setcancelstate(PTHREAD_CANCEL_DISABLE, &before);
    tell_wait();
    return (void *)(long)mq_receive(shared, buf, sizeof buf, 0);
}

static void *cancels_itself(void *of)
{
    char buf[8];
    pthread_cancel(pthread_self());
    mq_receive(*(mqd_t *)of, buf, sizeof buf, 0);
    return 0;
}

static int is_cancelled(void *(*run)(void *))
{
    pthread_t thread;
    void *result;
    pthread_create(&thread, 0, run, &shared);
    if (run != cancels_itself) {
        await_wait();
        pthread_cancel(thread);
    }
    pthread_join(thread, &result);
    return result == PTHREAD_CANCELED;
}

static void cancelling(void)
{
    pthread_t thread;
    void *result;
    struct mq_attr got;
    char buf[8];
    shared = fresh("/yak-cancel", O_RDWR, 1, 8);
    printf("a receive is cancelled: %d\n", is_cancelled(receive_until_cancelled));
    printf("a receive is cancelled by its own thread: %d\n", is_cancelled(cancels_itself));
    SAY(mq_send(shared, "a", 1, 0));
    printf("a send is cancelled: %d\n", is_cancelled(send_until_cancelled));
    printf("cleaned: %d\n", atomic_load(&cleaned));
    SAY(mq_getattr(shared, &got));
    printf("messages: %ld\n", got.mq_curmsgs);
    printf("where a message is there: %d\n", is_cancelled(cancels_itself));
    SAY(mq_receive(shared, buf, sizeof buf, 0));
    pthread_create(&thread, 0, cannot_be_cancelled, 0);
    await_wait();
    pthread_cancel(thread);
    await_sleep();
    SAY(mq_send(shared, "abc", 3, 0));
    pthread_join(thread, &result);
    printf("a thread that can't be cancelled receives %ld bytes\n", (long)result);
    SAY(mq_close(shared));
    SAY(mq_unlink("/yak-cancel"));
}

/* ---- interrupted ---- */

static atomic_int handled;

static void handle(int number)
{
    (void)number;
    atomic_fetch_add(&handled, 1);
}

static void set_handler(int flags)
{
    struct sigaction action;
    memset(&action, 0, sizeof action);
    action.sa_handler = handle;
    action.sa_flags = flags;
    sigaction(SIGUSR1, &action, 0);
}

static char text[3][64];

static void *waits_untimed(void *of)
{
    char buf[8];
    (void)of;
    tell_wait();
    errno = 0;
    snprintf(text[0], sizeof text[0], "%s", said(mq_receive(shared, buf, sizeof buf, 0)));
    return 0;
}

static void *waits_timed(void *of)
{
    struct timespec late = after(*(long *)of);
    char buf[8];
    tell_wait();
    errno = 0;
    snprintf(text[0], sizeof text[0], "%s",
             said(mq_timedreceive(shared, buf, sizeof buf, 0, &late)));
    return 0;
}

static void interrupt(const char *what, int flags, void *(*run)(void *), long time, int sends)
{
    pthread_t thread;
    set_handler(flags);
    atomic_store(&handled, 0);
    pthread_create(&thread, 0, run, &time);
    await_wait();
    pthread_kill(thread, SIGUSR1);
    /* ThreadSanitizer runs a handler only when its thread wakes. */
    for (int i = 0; i < 100 && atomic_load(&handled) == 0; ++i)
        pause_for(1);
    await_sleep();
    if (sends)
        mq_send(shared, "abcd", 4, 0);
    pthread_join(thread, 0);
    printf("%s: %s, handlers %d\n", what, text[0], atomic_load(&handled));
}

static void interrupting(void)
{
    shared = fresh("/yak-signal", O_RDWR, 1, 8);
    interrupt("a receive is interrupted", 0, waits_untimed, 0, 0);
    interrupt("a receive goes on", SA_RESTART, waits_untimed, 0, 1);
    interrupt("a timed receive is interrupted", 0, waits_timed, 20000, 0);
    interrupt("a timed receive goes on", SA_RESTART, waits_timed, 20000, 1);
    interrupt("a timed receive goes on to its deadline", SA_RESTART, waits_timed, 1000, 0);
    SAY(mq_close(shared));
    SAY(mq_unlink("/yak-signal"));
}

/* ---- notified ---- */

static siginfo_t last;

static void keep(int number, siginfo_t *info, void *context)
{
    (void)number;
    (void)context;
    last = *info;
    atomic_fetch_add(&handled, 1);
    sem_post(&step);
}

static void called(union sigval value)
{
    atomic_fetch_add(&handled, value.sival_int);
    sem_post(&step);
}

/* A handler takes the message and registers again, as is usual. */
static void take_and_register(int number)
{
    struct sigevent event;
    char buf[8];
    memset(&event, 0, sizeof event);
    event.sigev_notify = SIGEV_SIGNAL;
    event.sigev_signo = number;
    if (mq_notify(shared, &event) == 0 && mq_receive(shared, buf, sizeof buf, 0) == 1)
        atomic_fetch_add(&handled, 1);
    sem_post(&step);
}

static void notifying(void)
{
    struct sigevent event;
    struct sigaction action;
    pthread_attr_t attr;
    pthread_t thread;
    char buf[8];
    shared = fresh("/yak-notify", O_RDWR, 4, 8);
    memset(&event, 0, sizeof event);
    event.sigev_notify = SIGEV_NONE;
    SAY(mq_notify(-1, &event));
    SAY(mq_notify(shared, &event));
    SAY(mq_notify(shared, &event));
    SAY(mq_notify(shared, NULL));
    SAY(mq_notify(shared, NULL));
    SAY(mq_notify(-1, NULL));
    SAY(mq_notify(shared, &event));
    SAY(mq_send(shared, "a", 1, 0));
    event.sigev_notify = SIGEV_SIGNAL;
    event.sigev_signo = SIGUSR2;
    event.sigev_value.sival_int = 77;
    SAY(mq_notify(shared, &event));
    memset(&action, 0, sizeof action);
    action.sa_sigaction = keep;
    action.sa_flags = SA_SIGINFO | SA_RESTART;
    sigaction(SIGUSR2, &action, 0);
    atomic_store(&handled, 0);
    SAY(mq_send(shared, "b", 1, 0));
    printf("no notice where a message is there: %d\n", atomic_load(&handled));
    SAY(mq_receive(shared, buf, sizeof buf, 0));
    SAY(mq_receive(shared, buf, sizeof buf, 0));
    SAY(mq_send(shared, "c", 1, 0));
    await_step();
    printf("a signal: %d, value %d, by a queue %d, of this process %d\n", atomic_load(&handled),
           last.si_value.sival_int, last.si_code == SI_MESGQ, last.si_pid == getpid());
    SAY(mq_receive(shared, buf, sizeof buf, 0));
    SAY(mq_send(shared, "d", 1, 0));
    printf("no second one: %d\n", atomic_load(&handled));
    SAY(mq_receive(shared, buf, sizeof buf, 0));
    SAY(mq_notify(shared, &event));
    pthread_create(&thread, 0, waits_untimed, 0);
    await_wait();
    SAY(mq_send(shared, "e", 1, 0));
    pthread_join(thread, 0);
    printf("no notice where a receive waits: %d\n", atomic_load(&handled));
    SAY(mq_notify(shared, NULL));
    event.sigev_notify = SIGEV_THREAD;
    event.sigev_notify_function = called;
    event.sigev_value.sival_int = 100;
    pthread_attr_init(&attr);
    pthread_attr_setstacksize(&attr, 256 * 1024);
    event.sigev_notify_attributes = &attr;
    SAY(mq_notify(shared, &event));
    SAY(mq_notify(shared, &event));
    pthread_attr_destroy(&attr);
    SAY(mq_send(shared, "f", 1, 0));
    await_step();
    printf("a thread: %d\n", atomic_load(&handled));
    SAY(mq_receive(shared, buf, sizeof buf, 0));
    event.sigev_notify_attributes = 0;
    SAY(mq_notify(shared, &event));
    SAY(mq_send(shared, "g", 1, 0));
    await_step();
    printf("another thread: %d\n", atomic_load(&handled));
    SAY(mq_receive(shared, buf, sizeof buf, 0));
    event.sigev_notify = 1234;
    SAY(mq_notify(shared, &event));
    memset(&action, 0, sizeof action);
    action.sa_handler = take_and_register;
    sigaction(SIGUSR2, &action, 0);
    memset(&event, 0, sizeof event);
    event.sigev_notify = SIGEV_SIGNAL;
    event.sigev_signo = SIGUSR2;
    atomic_store(&handled, 0);
    SAY(mq_notify(shared, &event));
    for (int i = 0; i < 3; ++i) {
        mq_send(shared, "h", 1, 0);
        await_step();
    }
    printf("a handler took %d messages\n", atomic_load(&handled));
    SAY(mq_close(shared));
    shared = mq_open("/yak-notify", O_RDWR);
    SAY(mq_notify(shared, &event));
    SAY(mq_close(shared));
    SAY(mq_unlink("/yak-notify"));
}

/* Attributes are written where they are asked for, and nothing beside them. */
static void anywhere(void)
{
    static const size_t size = sizeof(struct mq_attr);
    char bytes[2 * sizeof(struct mq_attr)];
    mqd_t queue = fresh("/yak-anywhere", O_RDWR, 2, 8);
    for (size_t at = 1; at < size; at += 3) {
        struct mq_attr attr;
        bool is_whole = true;
        memset(bytes, '.', sizeof bytes);
        SAY(mq_getattr(queue, (struct mq_attr *)(void *)(bytes + at)));
        memcpy(&attr, bytes + at, size);
        for (size_t i = 0; i < sizeof bytes; ++i)
            is_whole = is_whole && ((i >= at && i < at + size) || bytes[i] == '.');
        printf("%ld messages of %ld, nothing beside: %d\n", attr.mq_maxmsg, attr.mq_msgsize,
               is_whole);
    }
    SAY(mq_close(queue));
    SAY(mq_unlink("/yak-anywhere"));
}

int main(void)
{
    setvbuf(stdout, 0, _IOLBF, 0);
    sem_init(&step, 0, 0);
    alone();
    at_fault();
    crowd();
    sharing();
    cancelling();
    interrupting();
    notifying();
    anywhere();
    return 0;
}
