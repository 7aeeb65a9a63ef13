/* The reports of waiting calls: which thread waits in which call, on which queue, since when and
 * until when. They are written by the seconds of YAK_REPORT, by the signal of YAK_REPORT_SIGNAL,
 * and by a call. Each report that the environment asks for also writes the journal. The argument is
 * seconds or signal. */
#define _GNU_SOURCE
#include <errno.h>
#include <fcntl.h>
#include <mqueue.h>
#include <pthread.h>
#include <signal.h>
#include <stdatomic.h>
#include <stdbool.h>
#include <stdio.h>
#include <stdlib.h>
#include <string.h>
#include <sys/syscall.h>
#include <time.h>
#include <unistd.h>
#include <yakyrombe/program.h>

#include "sanitized.h"
#include "stored.h"
#include "want.h"

enum { HAS_MORE_THREADS = HAS_THREAD_SANITIZER || HAS_ADDRESS_SANITIZER };

static mqd_t empty, full, late;
static atomic_long numbers[3];
static char path[] = "/tmp/yak-reports-XXXXXX";

static double now(void)
{
    struct timespec t;
    clock_gettime(CLOCK_REALTIME, &t);
    return (double)t.tv_sec + (double)t.tv_nsec / 1e9;
}

static void *receive(void *of)
{
    char buf[8];
    (void)of;
    atomic_store(&numbers[0], (long)syscall(SYS_gettid));
    WANT(mq_receive(empty, buf, sizeof buf, 0) == 1);
    return 0;
}

static void *send_more(void *of)
{
    (void)of;
    atomic_store(&numbers[1], (long)syscall(SYS_gettid));
    WANT(mq_send(full, "b", 1, 0) == 0);
    return 0;
}

static void *receive_timed(void *of)
{
    struct timespec until = {.tv_sec = time(0) + 3600};
    char buf[8];
    (void)of;
    atomic_store(&numbers[2], (long)syscall(SYS_gettid));
    WANT(mq_timedreceive(late, buf, sizeof buf, 0, &until) == 1);
    return 0;
}

/* Whether a line reports this wait, which began between two moments. */
static bool tells(const char *line, int which, mqd_t queue, double began, double written)
{
    static const char *const calls[] = {"mq_receive", "mq_send", "mq_timedreceive"};
    static const char *const names[] = {"\"/yak-empty\",", "\"/yak-full\",", "\"/yak-late\","};
    char call[32], name[64];
    long number;
    int d, rest = 0;
    double since, left;
    if (sscanf(line, "yakyrombe: thread %ld waits in %31s on descriptor %d, %63s for %lf s, %n",
               &number, call, &d, name, &since, &rest) != 5)
        return false;
    if (number != atomic_load(&numbers[which]) || strcmp(call, calls[which]) != 0 || d != queue ||
        strcmp(name, names[which]) != 0)
        return false;
    if (since < 0 || since > written - began + 0.1)
        return false;
    if (which != 2)
        return strcmp(line + rest, "without a deadline\n") == 0;
    return sscanf(line + rest, "until its deadline in %lf s", &left) == 1 && left > 3000 &&
           left <= 3600;
}

/* How many of the three waits a file reports, and whether all its lines are about them or say that
 * all threads wait. */
static int told(const char *of, double began, int *wholes)
{
    bool has[3] = {false, false, false};
    char line[256];
    FILE *from = fopen(of, "r");
    WANT(from != 0);
    *wholes = 0;
    while (fgets(line, sizeof line, from) != 0) {
        mqd_t queues[3] = {empty, full, late};
        int which = 0;
        if (strchr(line, '\n') == 0)
            break;
        if (strstr(line, "each thread of the program waits so") != 0) {
            ++*wholes;
            continue;
        }
        while (which < 3 && !tells(line, which, queues[which], began, now()))
            ++which;
        if (which == 3 && strstr(line, "\"/yak-main\"") != 0)
            continue;
        if (which == 3) {
            printf("not so: %s", line);
            exit(1);
        }
        has[which] = true;
    }
    fclose(from);
    return has[0] + has[1] + has[2];
}

static mqd_t fresh(const char *name)
{
    struct mq_attr attr;
    memset(&attr, 0, sizeof attr);
    attr.mq_maxmsg = 1;
    attr.mq_msgsize = 8;
    return mq_open(name, O_RDWR | O_CREAT | O_EXCL, 0600, &attr);
}

static void await_report(double began, bool by_signal)
{
    int wholes;
    for (double end = now() + 30; told(path, began, &wholes) != 3 && now() < end;) {
        if (by_signal)
            kill(getpid(), SIGUSR2);
        pause_for(100);
    }
    WANT(told(path, began, &wholes) == 3 && wholes == 0);
}

static void wake(int number)
{
    (void)number;
}

/* If the main thread waits too, and no wait has a deadline, the report says that all threads wait.
 */
static void all_wait(double began, bool by_signal)
{
    struct sigaction action;
    mqd_t own = fresh("/yak-main");
    struct itimerspec after = {{0, 0}, {2, 500000000}};
    struct sigevent event;
    timer_t timer;
    char buf[8];
    int wholes;
    WANT(own != -1);
    memset(&action, 0, sizeof action);
    action.sa_handler = wake;
    sigaction(SIGALRM, &action, 0);
    memset(&event, 0, sizeof event);
    event.sigev_notify = SIGEV_SIGNAL;
    event.sigev_signo = SIGALRM;
    WANT(timer_create(CLOCK_MONOTONIC, &event, &timer) == 0 &&
         timer_settime(timer, 0, &after, 0) == 0);
    if (by_signal) {
        /* Sent by a second timer while the main thread waits. */
        struct sigevent asks = event;
        struct itimerspec soon = {{0, 0}, {1, 0}};
        timer_t other;
        asks.sigev_signo = SIGUSR2;
        WANT(timer_create(CLOCK_MONOTONIC, &asks, &other) == 0 &&
             timer_settime(other, 0, &soon, 0) == 0);
    }
    WANT(mq_receive(own, buf, sizeof buf, 0) == -1 && errno == EINTR);
    told(path, began, &wholes);
    WANT(wholes != 0 || HAS_MORE_THREADS);
}

int main(int count, char **words)
{
    bool by_signal = count == 2 && strcmp(words[1], "signal") == 0;
    void *(*runs[])(void *) = {receive, send_more, receive_timed};
    const char *journal = getenv("YAK_JOURNAL");
    pthread_t threads[3];
    sigset_t all, before;
    char buf[8];
    int errors = mkstemp(path), wholes;
    double began;
    FILE *to;
    WANT(errors != -1 && dup2(errors, STDERR_FILENO) != -1);
    began = now();
    WANT((empty = fresh("/yak-empty")) != -1 && (full = fresh("/yak-full")) != -1 &&
         (late = fresh("/yak-late")) != -1);
    WANT(mq_send(full, "a", 1, 0) == 0);
    WANT(yak_program_report(stderr) == 0);
    sigfillset(&all);
    pthread_sigmask(SIG_SETMASK, &all, &before);
    for (int i = 0; i < 3; ++i)
        WANT(pthread_create(&threads[i], 0, runs[i], 0) == 0);
    pthread_sigmask(SIG_SETMASK, &before, 0);
    await_report(began, by_signal);
    WANT(journal == 0 || access(journal, R_OK) == 0);
    WANT((to = tmpfile()) != 0);
    WANT(yak_program_report(to) == 3);
    fclose(to);
    WANT(mq_send(late, "c", 1, 0) == 0 && pthread_join(threads[2], 0) == 0);
    all_wait(began, by_signal);
    WANT(mq_receive(full, buf, sizeof buf, 0) == 1);
    WANT(mq_send(empty, "c", 1, 0) == 0);
    WANT(pthread_join(threads[0], 0) == 0 && pthread_join(threads[1], 0) == 0);
    WANT(yak_program_report(stderr) == 0);
    WANT(told(path, began, &wholes) == 3);
    unlink(path);
    WANT(is_checked());
    puts("well");
    return 0;
}
