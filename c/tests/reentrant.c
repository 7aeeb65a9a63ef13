/* A call from a signal handler fails with EDEADLK if the handler interrupted its own thread inside
 * another call, and is made otherwise. A timer sends the signal at any moment. While the journal,
 * if it is stored, is written to a file, no call fails. */
#define _GNU_SOURCE
#include <errno.h>
#include <fcntl.h>
#include <mqueue.h>
#include <signal.h>
#include <stdio.h>
#include <stdlib.h>
#include <string.h>
#include <sys/time.h>
#include <time.h>
#include <yakyrombe/program.h>

#include "stored.h"
#include "want.h"

static mqd_t queue;
static volatile sig_atomic_t refused, made, others;

static void count(long result)
{
    if (result == -1 && errno == EDEADLK)
        ++refused;
    else
        ++others;
}

/* Inside a call, every call fails, not only the first. */
static void call_each(void)
{
    struct mq_attr attr;
    struct timespec past = {0, 0};
    struct sigevent event;
    char buf[8];
    memset(&attr, 0, sizeof attr);
    memset(&event, 0, sizeof event);
    event.sigev_notify = SIGEV_NONE;
    count(mq_open("/yak-reentrant", O_RDWR));
    count(mq_unlink("/yak-reentrant"));
    count(mq_getattr(queue, &attr));
    count(mq_setattr(queue, &attr, 0));
    count(mq_notify(queue, &event));
    count(mq_send(queue, "a", 1, 0));
    count(mq_timedsend(queue, "a", 1, 0, &past));
    count(mq_receive(queue, buf, sizeof buf, 0));
    count(mq_timedreceive(queue, buf, sizeof buf, 0, &past));
    count(mq_close(queue));
    count(yak_program_check());
    count(yak_program_report(stderr));
    count(yak_program_journal(stderr));
}

static void call(int number)
{
    struct mq_attr attr;
    int error = errno;
    (void)number;
    if (mq_getattr(queue, &attr) == 0)
        ++made;
    else if (errno == EDEADLK)
        call_each();
    else
        ++others;
    errno = error;
}

static void handle(void (*handler)(int), int number)
{
    struct sigaction action;
    memset(&action, 0, sizeof action);
    action.sa_handler = handler;
    action.sa_flags = SA_RESTART;
    WANT(sigaction(number, &action, 0) == 0);
}

static ssize_t write_with_a_call(void *of, const char *text, size_t len)
{
    char buf[8];
    (void)of;
    (void)text;
    WANT(mq_send(queue, "a", 1, 0) == 0);
    WANT(mq_receive(queue, buf, sizeof buf, 0) == 1);
    raise(SIGUSR1);
    return (ssize_t)len;
}

static void while_journal_is_written(void)
{
    cookie_io_functions_t calls = {0, write_with_a_call, 0, 0};
    FILE *to = fopencookie(0, "w", calls);
    WANT(to != 0);
    handle(call, SIGUSR1);
    WANT(yak_program_journal(to) == 0);
    fclose(to);
    WANT(refused == 0 && made != 0 && others == 0);
    made = 0;
}

static void at_any_moment(void)
{
    struct itimerval often = {{0, 37}, {0, 37}}, never = {{0, 0}, {0, 0}};
    time_t end = time(0) + 20;
    long rounds = 0;
    char buf[8];
    handle(call, SIGALRM);
    WANT(setitimer(ITIMER_REAL, &often, 0) == 0);
    while ((refused == 0 || made == 0 || rounds < 20000) && time(0) < end) {
        WANT(mq_send(queue, "a", 1, 0) == 0);
        WANT(mq_receive(queue, buf, sizeof buf, 0) == 1);
        ++rounds;
    }
    WANT(setitimer(ITIMER_REAL, &never, 0) == 0);
    WANT(refused != 0 && refused % 13 == 0 && made != 0 && others == 0);
}

int main(void)
{
    struct mq_attr attr;
    memset(&attr, 0, sizeof attr);
    attr.mq_maxmsg = 4;
    attr.mq_msgsize = 8;
    WANT((queue = mq_open("/yak-reentrant", O_RDWR | O_CREAT, 0600, &attr)) != -1);
    if (is_stored())
        while_journal_is_written();
    at_any_moment();
    WANT(mq_getattr(queue, &attr) == 0 && attr.mq_curmsgs == 0);
    WANT(is_checked());
    WANT(mq_close(queue) == 0 && mq_unlink("/yak-reentrant") == 0);
    puts("well");
    return 0;
}
