/* What a forked child can do with the queues of its program: forked by main; while threads are
 * inside calls; and by a handler that interrupted a wait. The argument is the expected behaviour of
 * the child: shared, or new (YAK_FORK=new). */
#define _GNU_SOURCE
#include <errno.h>
#include <fcntl.h>
#include <mqueue.h>
#include <pthread.h>
#include <signal.h>
#include <stdatomic.h>
#include <stdbool.h>
#include <stdio.h>
#include <stdlib.h>
#include <string.h>
#include <sys/wait.h>
#include <time.h>
#include <unistd.h>

#include "sanitized.h"
#include "want.h"

/* ThreadSanitizer runs a handler only when its thread wakes, and then inside another call. */
enum { HAS_HANDLERS = !HAS_THREAD_SANITIZER };

enum { FORKS = 20, WORKERS = 3 };

static bool gets_new;
static mqd_t queue;

/* The child sends and receives on the parent's queue, and opens a queue of its own. */
static void child_shares(void)
{
    struct mq_attr attr = room_for(4);
    char buf[8];
    unsigned prio = 0;
    mqd_t own;
    WANT(mq_send(queue, "a", 1, 9) == 0);
    WANT(mq_receive(queue, buf, sizeof buf, &prio) == 1 && prio == 9 && buf[0] == 'a');
    WANT((own = mq_open("/yak-child", O_RDWR | O_CREAT | O_EXCL, 0600, &attr)) != -1);
    WANT(mq_close(own) == 0 && mq_unlink("/yak-child") == 0);
    WANT(mq_close(queue) == 0 && mq_send(queue, "a", 1, 0) == -1 && errno == EBADF);
}

static void child_has_its_own(void)
{
    struct mq_attr attr = room_for(4);
    char buf[8];
    unsigned prio = 0;
    mqd_t own;
    WANT(mq_send(queue, "a", 1, 0) == -1 && errno == EBADF);
    WANT(mq_open("/yak-fork", O_RDWR) == -1 && errno == ENOENT);
    WANT((own = mq_open("/yak-fork", O_RDWR | O_CREAT | O_EXCL, 0600, &attr)) != -1);
    WANT(mq_send(own, "own", 3, 7) == 0);
    WANT(mq_receive(own, buf, sizeof buf, &prio) == 3 && prio == 7 && memcmp(buf, "own", 3) == 0);
    WANT(mq_getattr(own, &attr) == 0 && attr.mq_curmsgs == 0);
}

static void child(void)
{
    if (gets_new)
        child_has_its_own();
    else
        child_shares();
}

static void await(pid_t it)
{
    int status = 0;
    WANT(it > 0 && waitpid(it, &status, 0) == it);
    WANT(WIFEXITED(status) && WEXITSTATUS(status) == 0);
}

static void fork_once(void)
{
    pid_t it = fork();
    if (it == 0) {
        child();
        _exit(0);
    }
    await(it);
}

static atomic_bool is_over;

static void *work(void *of)
{
    char buf[8];
    mqd_t own = *(mqd_t *)of;
    while (!atomic_load(&is_over)) {
        WANT(mq_send(own, "w", 1, 0) == 0);
        WANT(mq_receive(own, buf, sizeof buf, 0) == 1);
    }
    return 0;
}

static void fork_beside_threads(void)
{
    pthread_t threads[WORKERS];
    struct mq_attr attr = room_for(4);
    mqd_t own = mq_open("/yak-work", O_RDWR | O_CREAT, 0600, &attr);
    WANT(own != -1);
    for (int i = 0; i < WORKERS; ++i)
        WANT(pthread_create(&threads[i], 0, work, &own) == 0);
    for (int i = 0; i < FORKS; ++i)
        fork_once();
    atomic_store(&is_over, true);
    for (int i = 0; i < WORKERS; ++i)
        pthread_join(threads[i], 0);
    WANT(mq_close(own) == 0 && mq_unlink("/yak-work") == 0);
}

static pid_t of_handler = -1;
static int ended_wait[2]; /* a pipe: the parent writes when its wait has ended */

static void fork_in_handler(int number)
{
    (void)number;
    of_handler = fork();
}

/* The wait is interrupted in both processes. The child begins when that of the parent has ended,
 * which else might get the child's message. */
static void fork_from_a_wait(void)
{
    struct sigaction action;
    char buf[8];
    WANT(pipe(ended_wait) == 0);
    memset(&action, 0, sizeof action);
    action.sa_handler = fork_in_handler;
    sigaction(SIGALRM, &action, 0);
    alarm(1);
    WANT(mq_receive(queue, buf, sizeof buf, 0) == -1 && errno == EINTR);
    if (of_handler == 0) {
        alarm(0);
        close(ended_wait[1]);
        WANT(read(ended_wait[0], buf, 1) == 1);
        child();
        _exit(0);
    }
    WANT(write(ended_wait[1], "", 1) == 1);
    await(of_handler);
    close(ended_wait[0]);
    close(ended_wait[1]);
}

int main(int count, char **words)
{
    struct mq_attr attr = room_for(4);
    char buf[8];
    gets_new = count == 2 && strcmp(words[1], "new") == 0;
    WANT((queue = mq_open("/yak-fork", O_RDWR | O_CREAT, 0600, &attr)) != -1);
    if (HAS_HANDLERS)
        fork_from_a_wait();
    else
        fork_once();
    WANT(mq_send(queue, "mine", 4, 3) == 0);
    fork_once();
    fork_beside_threads();
    WANT(mq_getattr(queue, &attr) == 0 && attr.mq_curmsgs == 1);
    WANT(mq_receive(queue, buf, sizeof buf, 0) == 4 && memcmp(buf, "mine", 4) == 0);
    WANT(mq_close(queue) == 0 && mq_unlink("/yak-fork") == 0);
    printf("%d children: well\n", FORKS + 2);
    return 0;
}
