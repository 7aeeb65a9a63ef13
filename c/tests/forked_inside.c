/* With YAK_FORK=new a child has queues of its own. But if a handler that interrupted its own thread
 * inside a call forks, the child completes that call, as the parent does, and then has no queues:
 * its calls fail with ENOSYS. The handler runs at varying moments, until both cases have occurred.
 */
#define _GNU_SOURCE
#include <errno.h>
#include <fcntl.h>
#include <mqueue.h>
#include <signal.h>
#include <stdbool.h>
#include <stdio.h>
#include <stdlib.h>
#include <string.h>
#include <sys/time.h>
#include <sys/wait.h>
#include <unistd.h>
#include <yakyrombe/program.h>

#include "stored.h"
#include "want.h"

enum { MOST = 2000, INSIDE = 7 };

static mqd_t queue;
static volatile pid_t forked;

static void fork_in_handler(int number)
{
    const int error = errno;
    (void)number;
    forked = fork();
    if (forked == 0)
        close(STDERR_FILENO); /* there the library says that the child has no queues */
    errno = error;
}

static void send_and_receive(void)
{
    char buf[8];
    unsigned prio = 0;
    const int sent = mq_send(queue, "inside", 6, 3);
    WANT(sent == 0 || (forked == 0 && (errno == EBADF || errno == ENOSYS)));
    if (sent == 0 && mq_receive(queue, buf, sizeof buf, &prio) != 6)
        WANT(forked == 0 && (errno == EBADF || errno == ENOSYS));
}

static void child(void)
{
    struct mq_attr attr = room_for(2);
    WANT(mq_getattr(queue, &attr) == -1);
    if (errno == ENOSYS)
        _exit(INSIDE);
    WANT(errno == EBADF);
    WANT(mq_open("/yak-forked-inside", O_RDWR | O_CREAT | O_EXCL, 0600, &attr) != -1);
    _exit(0);
}

/* Forks in a handler, and returns whether that was inside a call. */
static bool is_inside(long microseconds)
{
    const struct itimerval once = {{0, 0}, {0, microseconds}};
    int status = 0;
    forked = -1;
    WANT(setitimer(ITIMER_REAL, &once, 0) == 0);
    while (forked == -1)
        send_and_receive();
    if (forked == 0)
        child();
    WANT(waitpid(forked, &status, 0) == forked && WIFEXITED(status));
    WANT(WEXITSTATUS(status) == 0 || WEXITSTATUS(status) == INSIDE);
    return WEXITSTATUS(status) == INSIDE;
}

int main(void)
{
    struct mq_attr attr = room_for(2);
    struct sigaction action;
    int inside = 0, outside = 0;
    WANT(setenv("YAK_FORK", "new", 1) == 0);
    memset(&action, 0, sizeof action);
    action.sa_handler = fork_in_handler;
    WANT(sigaction(SIGALRM, &action, 0) == 0);
    WANT((queue = mq_open("/yak-forked-inside", O_RDWR | O_CREAT, 0600, &attr)) != -1);
    for (int i = 0; i < MOST && (inside < 5 || outside < 5); ++i) {
        if (is_inside(100 + i * 37 % 500))
            ++inside;
        else
            ++outside;
    }
    WANT(inside >= 5 && outside >= 5);
    WANT(mq_getattr(queue, &attr) == 0 && attr.mq_curmsgs == 0);
    WANT(is_checked());
    puts("well");
    return 0;
}
