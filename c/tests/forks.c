/* Forks at difficult moments: while threads wait; in a handler that interrupted a wait, with
 * SA_RESTART and without; in handlers that interrupt calls at any moment; by the thousand, with
 * children that end in all ways, and leave no descriptor, mapping, slot or child behind.
 *
 * usage: forks [FORKS] */
#define _GNU_SOURCE
#include <dirent.h>
#include <pthread.h>
#include <signal.h>
#include <stdatomic.h>
#include <stdbool.h>
#include <sys/time.h>

#include "family.h"
#include "sanitized.h"

/* ThreadSanitizer runs a handler only when its thread wakes, and then inside another call. */
enum { HAS_HANDLERS = !HAS_THREAD_SANITIZER, WAITS = 8 };

static mqd_t queue, other;
static char buf[8];
static unsigned prio;

/* ---- while threads wait ---- */

static void *wait_in_other(void *of)
{
    char own[8];
    (void)of;
    WANT(mq_receive(other, own, sizeof own, 0) == 1);
    return 0;
}

static void send_and_receive(void)
{
    WANT(mq_send(queue, "c", 1, 0) == 0 && mq_receive(queue, buf, sizeof buf, &prio) == 1);
}

static void beside_waits(void)
{
    pthread_t threads[WAITS];
    for (int i = 0; i < WAITS; ++i)
        WANT(pthread_create(&threads[i], 0, wait_in_other, 0) == 0);
    pause_for(50);
    for (int i = 0; i < 2 * WAITS; ++i) {
        pid_t child = fork();
        if (child == 0) {
            send_and_receive();
            if (i < WAITS)
                WANT(mq_send(other, "g", 1, 0) == 0);
            _exit(0);
        }
        ends_well(child);
    }
    for (int i = 0; i < WAITS; ++i)
        WANT(pthread_join(threads[i], 0) == 0);
    WANT(messages_in(other) == 0);
}

/* ---- in a handler that interrupted a wait ---- */

static volatile pid_t forked;

static void fork_in_handler(int number)
{
    const int error = errno;
    (void)number;
    forked = fork();
    errno = error;
}

static void handle(int number, int flags)
{
    struct sigaction action;
    memset(&action, 0, sizeof action);
    action.sa_handler = fork_in_handler;
    action.sa_flags = flags;
    WANT(sigaction(number, &action, 0) == 0);
}

static void ring_in(long milliseconds)
{
    struct itimerval once = {{0, 0}, {0, milliseconds * 1000}};
    WANT(setitimer(ITIMER_REAL, &once, 0) == 0);
}

/* The call fails with EINTR in both processes. Until the parent has ended its wait, it would get
 * what the child sends. */
static void interrupted(void)
{
    int ends[2];
    char byte = 0;
    WANT(pipe(ends) == 0);
    handle(SIGALRM, 0);
    ring_in(50);
    WANT(mq_receive(queue, buf, sizeof buf, &prio) == -1 && errno == EINTR);
    if (forked == 0) {
        close(ends[1]);
        WANT(read(ends[0], &byte, 1) == 1);
        send_and_receive();
        _exit(0);
    }
    WANT(write(ends[1], &byte, 1) == 1);
    close(ends[0]);
    close(ends[1]);
    ends_well(forked);
}

static void send_two(void)
{
    pause_for(150);
    WANT(mq_send(queue, "1", 1, 4) == 0);
    pause_for(50);
    WANT(mq_send(queue, "2", 1, 4) == 0);
}

/* The call continues in both processes, and each gets a message. */
static void restarted(void)
{
    pid_t sender;
    handle(SIGALRM, SA_RESTART);
    sender = begin_child(send_two);
    ring_in(50);
    WANT(mq_receive(queue, buf, sizeof buf, &prio) == 1 && prio == 4);
    if (forked == 0)
        _exit(0);
    ends_well(forked);
    ends_well(sender);
}

/* ---- in handlers that interrupt calls ---- */

/* A send and a receive that do not wait. Both the parent and a child forked inside the call may
 * make it. */
static void try_both(mqd_t tried)
{
    const int sent = mq_send(tried, "loop", 4, 1);
    WANT(sent == 0 || errno == EAGAIN);
    memset(buf, 0, sizeof buf);
    if (mq_receive(tried, buf, sizeof buf, &prio) == -1)
        WANT(errno == EAGAIN);
    else
        WANT(memcmp(buf, "loop", 4) == 0 && prio == 1);
}

/* A child completes the interrupted call, and then makes calls of its own. */
static void child_of_call(mqd_t tried)
{
    mqd_t own = mq_open("/yak-forks", O_RDWR);
    WANT(own == tried + 1 && mq_close(own) == 0);
    try_both(tried);
    WANT(mq_send(other, "x", 1, 0) == 0);
    _exit(0);
}

static void in_calls(int count)
{
    mqd_t tried = fresh("/yak-forks-tried", 4, 8, O_NONBLOCK);
    handle(SIGALRM, SA_RESTART);
    for (int i = 0; i < count; ++i) {
        struct itimerval once = {{0, 0}, {0, 100 + i * 37 % 500}};
        forked = -1;
        WANT(setitimer(ITIMER_REAL, &once, 0) == 0);
        while (forked == -1)
            try_both(tried);
        if (forked == 0)
            child_of_call(tried);
        ends_well(forked);
        WANT(mq_receive(other, buf, sizeof buf, &prio) == 1);
    }
    WANT(messages_in(other) == 0);
    WANT(mq_close(tried) == 0 && mq_unlink("/yak-forks-tried") == 0);
}

/* ---- by the thousand ---- */

static int count_entries(const char *folder)
{
    DIR *entries = opendir(folder);
    int count = 0;
    WANT(entries != 0);
    while (readdir(entries) != 0)
        ++count;
    closedir(entries);
    return count;
}

static int count_mappings(void)
{
    FILE *maps = fopen("/proc/self/maps", "r");
    int count = 0, byte;
    WANT(maps != 0);
    while ((byte = fgetc(maps)) != EOF)
        count += byte == '\n';
    fclose(maps);
    return count;
}

static void end_somehow(int i)
{
    if (i % 8 != 0)
        _exit(0);
    send_and_receive();
    if (i % 32 == 0)
        execl("/bin/true", "true", (char *)0);
    if (i % 32 == 8)
        kill(getpid(), SIGKILL);
    if (i % 32 == 16)
        exit(0);
    _exit(0);
}

static void by_the_thousand(int count)
{
    int files = 0, mappings = 0;
    for (int i = 0; i < count; ++i) {
        pid_t child;
        int status;
        if (i == count / 10) {
            files = count_entries("/proc/self/fd");
            mappings = count_mappings();
        }
        child = fork();
        if (child == 0)
            end_somehow(i);
        WANT(child > 0 && waitpid(child, &status, 0) == child);
        WANT(WIFSIGNALED(status) ? WTERMSIG(status) == SIGKILL : WEXITSTATUS(status) == 0);
    }
    WANT(count_entries("/proc/self/fd") == files);
    WANT(HAS_ADDRESS_SANITIZER || HAS_THREAD_SANITIZER || count_mappings() <= mappings + 4);
    WANT(waitpid(-1, 0, 0) == -1 && errno == ECHILD);
    send_and_receive();
}

int main(int count, char **words)
{
    const int forks = count == 2 ? atoi(words[1]) : 1200;
    queue = fresh("/yak-forks", 4, 8, 0);
    other = fresh("/yak-forks-other", 10, 8, 0);
    beside_waits();
    if (HAS_HANDLERS) {
        interrupted();
        restarted();
        in_calls(forks / 10);
    }
    by_the_thousand(forks);
    WANT(mq_close(queue) == 0 && mq_unlink("/yak-forks") == 0);
    WANT(mq_close(other) == 0 && mq_unlink("/yak-forks-other") == 0);
    puts("well");
    return 0;
}
