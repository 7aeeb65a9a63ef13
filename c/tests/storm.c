/* Storms of SIGKILL. Children send, receive, wait, fork, open and close, and are killed at random
 * moments. Nothing that was accepted is lost but what a killed receiver had been given: so each
 * killed receiver loses one message at most, and none comes twice. The last line counts, so that
 * the same storm over the kernel's queues can be compared.
 *
 * usage: storm [KILLS [SEED]] */
#define _GNU_SOURCE
#include <signal.h>
#include <stdatomic.h>
#include <stdbool.h>

#include "family.h"

enum { CHILDREN = 6, MOST = 1 << 21, SMALL = 4 };

typedef struct shared {
    _Atomic uint32_t begun; /* message n is n */
    _Atomic uint32_t received;
    _Atomic uint8_t is_accepted[MOST];
    _Atomic uint8_t times[MOST];
} shared;

static shared *all;
static mqd_t queue, narrow;

static void take(const char *bytes)
{
    uint32_t n;
    memcpy(&n, bytes, sizeof n);
    WANT(n < MOST && atomic_fetch_add(&all->times[n], 1) == 0);
    atomic_fetch_add(&all->received, 1);
}

static void send_to(mqd_t to)
{
    const uint32_t n = atomic_fetch_add(&all->begun, 1);
    WANT(n < MOST);
    WANT(mq_send(to, (const char *)&n, sizeof n, n % 3) == 0);
    atomic_store(&all->is_accepted[n], 1);
}

static void receive_from(mqd_t from)
{
    char buf[8];
    WANT(mq_receive(from, buf, sizeof buf, 0) == sizeof(uint32_t));
    take(buf);
}

static void send_all(void)
{
    for (;;) {
        send_to(queue);
        send_to(narrow);
    }
}

static void receive_all(void)
{
    for (;;)
        receive_from(queue);
}

static void receive_narrow(void)
{
    for (;;)
        receive_from(narrow);
}

/* Passes messages on, so that it is as often a sender as a receiver. */
static void pass_on(void)
{
    for (;;) {
        receive_from(queue);
        send_to(narrow);
    }
}

/* Nobody may be left to wake an orphan. */
static void call_and_exit(void)
{
    struct timespec soon = after(100);
    const uint32_t n = atomic_fetch_add(&all->begun, 1);
    char buf[8];
    WANT(n < MOST);
    if (mq_timedsend(narrow, (const char *)&n, sizeof n, n % 3, &soon) == 0)
        atomic_store(&all->is_accepted[n], 1);
    else
        WANT(errno == ETIMEDOUT);
    if (mq_timedreceive(narrow, buf, sizeof buf, 0, &soon) >= 0)
        take(buf);
    else
        WANT(errno == ETIMEDOUT);
}

static void fork_again(void)
{
    for (;;) {
        const pid_t child = begin_child(call_and_exit);
        struct timespec soon = after(2);
        char buf[8];
        if (mq_timedreceive(queue, buf, sizeof buf, 0, &soon) >= 0)
            take(buf);
        else
            WANT(errno == ETIMEDOUT);
        waitpid(child, 0, 0);
    }
}

static void open_and_close(void)
{
    for (;;) {
        struct mq_attr attr = room_for(SMALL);
        struct sigevent event;
        mqd_t own = mq_open("/yak-storm-own", O_RDWR | O_CREAT | O_NONBLOCK, 0600, &attr);
        char buf[8];
        memset(&event, 0, sizeof event);
        event.sigev_notify = SIGEV_NONE;
        WANT(own != -1);
        mq_notify(own, &event);
        mq_send(own, "o", 1, 0);
        mq_receive(own, buf, sizeof buf, 0);
        mq_unlink("/yak-storm-own");
        WANT(mq_close(own) == 0);
    }
}

static void (*const runs[])(void) = {send_all,   receive_all,    receive_narrow, pass_on,
                                     fork_again, open_and_close, receive_narrow, send_all};
enum { RUNS = sizeof runs / sizeof runs[0] };

static unsigned random_state;

static unsigned random_below(unsigned most)
{
    random_state = random_state * 1103515245u + 12345u;
    return (random_state >> 8) % most;
}

typedef struct child {
    pid_t pid;
    unsigned run;
} child;

static child begin(void)
{
    child it = {.run = random_below(RUNS)};
    it.pid = begin_child(runs[it.run]);
    return it;
}

static bool receives(const child *it)
{
    return runs[it->run] != send_all && runs[it->run] != open_and_close;
}

static void end(const child *it)
{
    int status;
    WANT(kill(it->pid, SIGKILL) == 0 && waitpid(it->pid, &status, 0) == it->pid);
    WANT(WIFSIGNALED(status));
}

/* Takes what is left, until the orphans have ended too. */
static void drain(mqd_t from)
{
    for (;;) {
        struct timespec soon = after(300);
        char buf[8];
        const ssize_t got = mq_timedreceive(from, buf, sizeof buf, 0, &soon);
        if (got == -1)
            break;
        WANT(got == sizeof(uint32_t));
        take(buf);
    }
    WANT(errno == ETIMEDOUT);
}

int main(int count, char **words)
{
    const unsigned kills = count > 1 ? (unsigned)atoi(words[1]) : 300;
    child children[CHILDREN];
    unsigned receivers = 0;
    uint32_t accepted = 0, lost = 0;
    double slowest = 0;
    random_state = count > 2 ? (unsigned)atoi(words[2]) : 1;
    all = shared_memory(sizeof *all);
    queue = fresh("/yak-storm", 10, 8, 0);
    narrow = fresh("/yak-storm-narrow", SMALL, 8, 0);
    WANT(mq_unlink("/yak-storm") == 0 && mq_unlink("/yak-storm-narrow") == 0);
    for (unsigned i = 0; i < CHILDREN; ++i)
        children[i] = begin();
    for (unsigned i = 0; i < kills; ++i) {
        child *it = &children[random_below(CHILDREN)];
        double from;
        usleep(random_below(random_below(4) == 0 ? 5000 : 500));
        receivers += receives(it);
        end(it);
        from = now_in_seconds();
        WANT(messages_in(queue) <= 10 && messages_in(narrow) <= SMALL);
        if (now_in_seconds() - from > slowest)
            slowest = now_in_seconds() - from;
        *it = begin();
    }
    for (unsigned i = 0; i < CHILDREN; ++i) {
        receivers += receives(&children[i]);
        end(&children[i]);
    }
    drain(queue);
    drain(narrow);
    drain(queue);
    mq_unlink("/yak-storm-own");
    for (uint32_t n = 0; n < atomic_load(&all->begun); ++n) {
        accepted += all->is_accepted[n];
        lost += all->is_accepted[n] && all->times[n] == 0;
    }
    printf(
        "%u kills, %u of receivers: %u messages accepted, %u received, %u lost; the slowest call "
        "after a kill took %.0f ms\n",
        kills, receivers, accepted, atomic_load(&all->received), lost, slowest * 1000);
    /* An orphan may have received one, too. */
    WANT(lost <= receivers && slowest < 5);
    puts("well");
    return 0;
}
