/* What the dead leave, and who only seems dead. A child is killed in its first call, and nothing is
 * lost. Nothing is handed to a thread whose process is known to be dead, and no send of it takes
 * effect. A message that was handed to a receiver that had not returned it goes back to its place.
 * A process whose first thread has ended lives. Over the kernel's queues it prints the same,
 * without the messages that go back.
 *
 * usage: deaths [ROUNDS [kernel]] */
#define _GNU_SOURCE
#include <pthread.h>
#include <signal.h>
#include <stdbool.h>

#include "family.h"

static mqd_t queue, done;
static char buf[64];
static unsigned prio;

static void kill_and_await(pid_t child)
{
    WANT(kill(child, SIGKILL) == 0 && waitpid(child, 0, 0) == child);
}

static bool comes(mqd_t from, const char *text, long milliseconds)
{
    struct timespec until = after(milliseconds);
    const ssize_t got = mq_timedreceive(from, buf, sizeof buf, &prio, &until);
    WANT(got >= 0 || errno == ETIMEDOUT);
    return got == (ssize_t)strlen(text) && memcmp(buf, text, strlen(text)) == 0;
}

/* A program with messages forks for the first time, and its child is killed in its first calls. */
static int killed_first(void)
{
    enum { MESSAGES = 300, SIZE = 4096 };
    static char large[SIZE];
    struct mq_attr attr;
    pid_t child;
    long left;
    memset(&attr, 0, sizeof attr);
    attr.mq_msgsize = SIZE;
    /* More than 10 messages need a right over the kernel's queues. */
    attr.mq_maxmsg = MESSAGES + 1;
    if ((queue = mq_open("/yak-deaths-first", O_RDWR | O_CREAT, 0600, &attr)) == -1) {
        attr.mq_maxmsg = 10;
        WANT((queue = mq_open("/yak-deaths-first", O_RDWR | O_CREAT, 0600, &attr)) != -1);
    }
    WANT(mq_unlink("/yak-deaths-first") == 0);
    left = attr.mq_maxmsg - 1;
    for (long i = 0; i < left; ++i)
        WANT(mq_send(queue, large, sizeof large, 0) == 0);
    child = fork();
    if (child == 0)
        for (;;) {
            mq_getattr(queue, &attr);
            mq_send(queue, "x", 1, 1);
            mq_receive(queue, large, sizeof large, 0);
        }
    usleep((useconds_t)(getpid() * 7919 % 2500));
    kill_and_await(child);
    WANT(messages_in(queue) >= left - 1 && messages_in(queue) <= left + 1);
    return 0;
}

/* Runs it in new programs, since a program forks for the first time only once. */
static void killed_first_often(const char *own, int rounds)
{
    for (int i = 0; i < rounds; ++i) {
        const pid_t child = fork();
        if (child == 0) {
            execl("/proc/self/exe", own, "first", (char *)0);
            _exit(2);
        }
        ends_well(child);
    }
}

/* ---- known to be dead ---- */

static void receive_one(void)
{
    WANT(mq_receive(queue, buf, sizeof buf, 0) >= 0);
}

static void *receive_in_thread(void *of)
{
    char own[64];
    WANT(mq_receive(queue, own, sizeof own, 0) >= 0);
    return of;
}

static void receive_in_threads(void)
{
    pthread_t thread;
    for (int i = 0; i < 3; ++i)
        WANT(pthread_create(&thread, 0, receive_in_thread, 0) == 0);
    receive_one();
}

static void send_one(void)
{
    WANT(mq_send(queue, "dead", 4, 9) == 0);
}

/* Receivers die, by one thread or by more, and each death is looked at at once: also if a process
 * with the same place died just before. */
static void dead_receivers(int rounds)
{
    for (int i = 0; i < rounds; ++i) {
        const pid_t child = begin_child(i % 2 == 0 ? receive_one : receive_in_threads);
        pause_for(10);
        kill_and_await(child);
        WANT(mq_send(queue, "m", 1, 0) == 0);
        WANT(comes(queue, "m", 1000));
    }
}

static void dead_senders(int rounds)
{
    for (int i = 0; i < 4; ++i)
        WANT(mq_send(queue, "full", 4, 0) == 0);
    for (int i = 0; i < rounds; ++i) {
        const pid_t child = begin_child(send_one);
        pause_for(10);
        kill_and_await(child);
        WANT(comes(queue, "full", 0));
        WANT(messages_in(queue) == 3 && mq_send(queue, "full", 4, 0) == 0);
    }
    for (int i = 0; i < 4; ++i)
        WANT(comes(queue, "full", 0));
}

/* ---- who only seems dead ---- */

static void *work(void *of)
{
    char own[64];
    const ssize_t got = mq_receive(queue, own, sizeof own, 0);
    WANT(mq_send(done, got == 1 ? "y" : "n", 1, 0) == 0);
    pause_for(60000);
    return of;
}

static void work_without_first_thread(void)
{
    pthread_t thread;
    WANT(pthread_create(&thread, 0, work, 0) == 0);
    pthread_exit(0);
}

static void without_first_thread(void)
{
    const pid_t child = begin_child(work_without_first_thread);
    pause_for(100);
    /* What the dead hold is looked for. */
    WANT(mq_unlink("/yak-deaths-nothing") == -1 && errno == ENOENT);
    WANT(mq_send(queue, "m", 1, 0) == 0);
    WANT(comes(done, "y", 3000));
    kill_and_await(child);
}

/* ---- messages that go back ---- */

/* A child that was stopped when it was handed a message, and that is killed before it goes on. */
static pid_t stopped_with(const char *text, unsigned with)
{
    const pid_t child = begin_child(receive_one);
    int status;
    pause_for(50);
    await_sleep(child);
    WANT(kill(child, SIGSTOP) == 0 && waitpid(child, &status, WUNTRACED) == child);
    WANT(mq_send(queue, text, strlen(text), with) == 0);
    WANT(messages_in(queue) == 0);
    return child;
}

static void go_back(void)
{
    pid_t child = stopped_with("first", 3);
    /* To an empty queue. */
    kill_and_await(child);
    WANT(comes(queue, "first", 0) && prio == 3);
    /* In front of those of its priority, behind those of a higher one. */
    child = stopped_with("first", 3);
    WANT(mq_send(queue, "second", 6, 3) == 0 && mq_send(queue, "high", 4, 4) == 0);
    WANT(mq_send(queue, "low", 3, 2) == 0);
    kill_and_await(child);
    WANT(messages_in(queue) == 4);
    WANT(comes(queue, "high", 0) && comes(queue, "first", 0) && comes(queue, "second", 0) &&
         comes(queue, "low", 0));
    /* To a full queue as soon as it has room. */
    child = stopped_with("first", 3);
    for (int i = 0; i < 4; ++i)
        WANT(mq_send(queue, "later", 5, 2) == 0);
    kill_and_await(child);
    WANT(messages_in(queue) == 4 && comes(queue, "later", 0));
    WANT(messages_in(queue) == 4 && comes(queue, "first", 0));
    for (int i = 0; i < 3; ++i)
        WANT(comes(queue, "later", 0));
    /* To a receiver that waits, when somebody makes a call. */
    child = stopped_with("first", 3);
    {
        const pid_t other = begin_child(receive_one);
        pause_for(50);
        kill_and_await(child);
        WANT(messages_in(queue) == 0);
        ends_well(other);
    }
}

int main(int count, char **words)
{
    const int rounds = count > 1 ? atoi(words[1]) : 20;
    const bool is_kernel = count > 2;
    if (count == 2 && strcmp(words[1], "first") == 0)
        return killed_first();
    killed_first_often(words[0], rounds);
    queue = fresh("/yak-deaths", 4, 64, 0);
    done = fresh("/yak-deaths-done", 4, 64, 0);
    WANT(mq_unlink("/yak-deaths") == 0 && mq_unlink("/yak-deaths-done") == 0);
    dead_receivers(rounds);
    dead_senders(rounds);
    without_first_thread();
    if (!is_kernel)
        go_back();
    puts("well");
    return 0;
}
