/* The descriptors for poll of libyakyrombe-mqueue: readable while a message is present, whichever
 * process and thread sends and receives. */
#define _GNU_SOURCE
#include <errno.h>
#include <fcntl.h>
#include <mqueue.h>
#include <poll.h>
#include <pthread.h>
#include <signal.h>
#include <stdbool.h>
#include <stdint.h>
#include <stdio.h>
#include <sys/epoll.h>
#include <sys/wait.h>
#include <unistd.h>

#include "want.h"
#include <yakyrombe/program.h>

enum { SENDERS = 3, MESSAGES = 2000, TIMES = 200, AT_MOST = 20000 };

static mqd_t open_queue(const char *name, int flags, long maxmsg)
{
    struct mq_attr attr = room_for(maxmsg);
    const mqd_t it = mq_open(name, O_CREAT | flags, 0600, &attr);
    WANT(it != -1);
    return it;
}

static bool is_readable(int file)
{
    struct pollfd it = {.fd = file, .events = POLLIN};
    const int ready = poll(&it, 1, 0);
    WANT(ready == 0 || (ready == 1 && it.revents == POLLIN));
    return ready == 1;
}

/* The effect of another process shows a moment later. */
static void becomes(int file, bool readable)
{
    for (int i = 0; i < AT_MOST && is_readable(file) != readable; ++i)
        pause_for(1);
    WANT(is_readable(file) == readable);
}

static void follows_the_messages(void)
{
    const mqd_t queue = open_queue("/polled", O_RDWR | O_NONBLOCK, 2);
    const mqd_t sender = open_queue("/polled", O_WRONLY, 2),
                other = open_queue("/other", O_RDWR, 2);
    char buf[8];
    int file;
    WANT(mq_send(queue, "a", 1, 0) == 0);
    WANT((file = yak_program_poll_fd(queue)) != -1 && is_readable(file));
    WANT(yak_program_poll_fd(queue) == file);
    WANT(mq_send(sender, "b", 1, 0) == 0 && is_readable(file));
    WANT(mq_receive(queue, buf, sizeof buf, 0) == 1 && is_readable(file));
    WANT(mq_send(other, "c", 1, 0) == 0 && mq_receive(other, buf, sizeof buf, 0) == 1);
    WANT(mq_receive(queue, buf, sizeof buf, 0) == 1 && !is_readable(file));
    WANT(mq_receive(queue, buf, sizeof buf, 0) == -1 && errno == EAGAIN && !is_readable(file));
    WANT(mq_unlink("/polled") == 0);
    WANT(mq_send(sender, "d", 1, 0) == 0 && is_readable(file));
    WANT(mq_receive(queue, buf, sizeof buf, 0) == 1 && !is_readable(file));
    WANT(yak_program_poll_fd(sender) == -1 && errno == EBADF);
    WANT(mq_close(queue) == 0 && fcntl(file, F_GETFD) == -1 && errno == EBADF);
    WANT(yak_program_poll_fd(queue) == -1 && errno == EBADF);
    WANT(mq_close(sender) == 0 && mq_close(other) == 0 && mq_unlink("/other") == 0);
}

static void *receive_one(void *of)
{
    char buf[8];
    WANT(mq_receive(*(mqd_t *)of, buf, sizeof buf, 0) == 1);
    return 0;
}

/* A message that is handed to a waiting receive is never present. */
static void a_message_that_is_handed_over_raises_nothing(void)
{
    mqd_t queue = open_queue("/handed", O_RDWR, 2);
    const int file = yak_program_poll_fd(queue);
    pthread_t thread;
    WANT(file != -1 && !is_readable(file));
    WANT(pthread_create(&thread, 0, receive_one, &queue) == 0);
    pause_for(50);
    WANT(mq_send(queue, "a", 1, 0) == 0);
    WANT(pthread_join(thread, 0) == 0 && !is_readable(file));
    WANT(mq_close(queue) == 0 && mq_unlink("/handed") == 0);
}

static void *send_all(void *of)
{
    for (int i = 0; i < MESSAGES; ++i)
        WANT(mq_send(*(mqd_t *)of, "a", 1, 0) == 0);
    return 0;
}

/* A loop over epoll receives every message of threads that wait for room. */
static void a_loop_of_events_takes_all(void)
{
    mqd_t queue = open_queue("/loop", O_RDONLY | O_NONBLOCK, 4);
    mqd_t sender = open_queue("/loop", O_WRONLY, 4);
    struct epoll_event event = {.events = EPOLLIN};
    pthread_t threads[SENDERS];
    const int epoll = epoll_create1(EPOLL_CLOEXEC);
    int taken = 0;
    char buf[8];
    WANT(epoll_ctl(epoll, EPOLL_CTL_ADD, yak_program_poll_fd(queue), &event) == 0);
    for (int i = 0; i < SENDERS; ++i)
        WANT(pthread_create(&threads[i], 0, send_all, &sender) == 0);
    while (taken < SENDERS * MESSAGES) {
        WANT(epoll_wait(epoll, &event, 1, AT_MOST) == 1);
        while (mq_receive(queue, buf, sizeof buf, 0) == 1)
            ++taken;
        WANT(errno == EAGAIN);
    }
    for (int i = 0; i < SENDERS; ++i)
        WANT(pthread_join(threads[i], 0) == 0);
    WANT(epoll_wait(epoll, &event, 1, 0) == 0);
    close(epoll);
    WANT(mq_close(queue) == 0 && mq_close(sender) == 0 && mq_unlink("/loop") == 0);
}

static void await(pid_t it)
{
    int status = 0;
    WANT(waitpid(it, &status, 0) == it && WIFEXITED(status) && WEXITSTATUS(status) == 0);
}

/* The child sends and receives what the parent polls, and polls what the parent sends. */
static void processes_see_one_another(void)
{
    const mqd_t down = open_queue("/down", O_RDWR, 4), up = open_queue("/up", O_RDWR, 4);
    const int file = yak_program_poll_fd(up);
    char buf[8];
    pid_t child;
    WANT(file != -1 && (child = fork()) != -1);
    if (child == 0) {
        const int own = yak_program_poll_fd(down);
        WANT(own != -1);
        for (int i = 0; i < TIMES; ++i) {
            becomes(own, true);
            WANT(mq_receive(down, buf, sizeof buf, 0) == 1);
            WANT(!is_readable(own));
            WANT(mq_send(up, "a", 1, 0) == 0);
        }
        _exit(0);
    }
    for (int i = 0; i < TIMES; ++i) {
        WANT(mq_send(down, "a", 1, 0) == 0);
        becomes(file, true);
        WANT(mq_receive(up, buf, sizeof buf, 0) == 1);
        WANT(!is_readable(file));
    }
    await(child);
    /* The child receives what the parent sent, and ends: nothing is left to read here. */
    WANT(mq_send(up, "b", 1, 0) == 0 && is_readable(file));
    if ((child = fork()) == 0) {
        WANT(mq_receive(up, buf, sizeof buf, 0) == 1);
        _exit(0);
    }
    await(child);
    becomes(file, false);
    WANT(mq_close(down) == 0 && mq_close(up) == 0);
    WANT(mq_unlink("/down") == 0 && mq_unlink("/up") == 0);
}

/* A child that polled is killed inside a call or between two: the others continue, and so do their
 * own descriptors for poll. */
static void a_killed_poller_is_forgotten(void)
{
    const mqd_t queue = open_queue("/killed", O_RDWR | O_NONBLOCK, 4);
    const int file = yak_program_poll_fd(queue);
    char buf[8];
    for (int i = 0; i < 20; ++i) {
        const pid_t child = fork();
        WANT(child != -1);
        if (child == 0) {
            WANT(yak_program_poll_fd(queue) != -1);
            for (;;) {
                (void)mq_send(queue, "a", 1, 0);
                (void)mq_receive(queue, buf, sizeof buf, 0);
            }
        }
        pause_for(5);
        WANT(kill(child, SIGKILL) == 0 && waitpid(child, 0, 0) == child);
        while (mq_receive(queue, buf, sizeof buf, 0) == 1)
            ;
        becomes(file, false);
        WANT(mq_send(queue, "a", 1, 0) == 0 && is_readable(file));
        WANT(mq_receive(queue, buf, sizeof buf, 0) == 1 && !is_readable(file));
    }
    WANT(mq_close(queue) == 0 && mq_unlink("/killed") == 0);
}

int main(void)
{
    follows_the_messages();
    a_message_that_is_handed_over_raises_nothing();
    a_loop_of_events_takes_all();
    processes_see_one_another();
    a_killed_poller_is_forgotten();
    puts("well");
    return 0;
}
