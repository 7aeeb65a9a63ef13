/* No cancellation acts inside the lock of the library. A thread with a pending cancellation passes
 * each call that is not a cancellation point, also one that raises or closes a descriptor for poll,
 * or that looks for the dead; and threads that send to and receive from a polled queue are
 * cancelled at random moments.
 *
 * usage: cancelled_inside [CANCELLATIONS] */
#define _GNU_SOURCE
#include <pthread.h>
#include <signal.h>
#include <stdbool.h>
#include <yakyrombe/program.h>

#include "family.h"

static mqd_t polled, other;
static bool is_passed;

/* The next call tells whether the lock was left. */
static void all_is_well(void)
{
    char buf[8];
    WANT(mq_send(other, "hello", 5, 1) == 0 && mq_receive(other, buf, sizeof buf, 0) == 5);
}

static void *cancel_and_call(void *of)
{
    void (*const call)(void) = *(void (**)(void))of;
    pthread_cancel(pthread_self());
    call();
    pthread_setcancelstate(PTHREAD_CANCEL_DISABLE, 0);
    is_passed = true;
    return 0;
}

static void pass(void (*call)(void))
{
    pthread_t thread;
    is_passed = false;
    WANT(pthread_create(&thread, 0, cancel_and_call, &call) == 0);
    WANT(pthread_join(thread, 0) == 0 && is_passed);
    all_is_well();
}

static void poll_it(void)
{
    WANT(yak_program_poll_fd(polled) != -1);
}

static void close_it(void)
{
    WANT(mq_close(polled) == 0);
}

static void look_for_the_dead(void)
{
    WANT(mq_unlink("/yak-cancelled-nothing") == -1 && errno == ENOENT);
}

static void open_one(void)
{
    WANT((polled = mq_open("/yak-cancelled-inside", O_RDWR)) != -1);
}

static void ask(void)
{
    WANT(messages_in(polled) == 1);
}

static void notify_it(void)
{
    struct sigevent event;
    memset(&event, 0, sizeof event);
    event.sigev_notify = SIGEV_NONE;
    WANT(mq_notify(polled, &event) == 0 && mq_notify(polled, 0) == 0);
}

static void pending(void)
{
    char buf[8];
    polled = fresh("/yak-cancelled-inside", 4, 8, 0);
    WANT(mq_send(polled, "x", 1, 0) == 0);
    pass(poll_it);
    pass(ask);
    pass(notify_it);
    pass(close_it);
    pass(open_one);
    WANT(mq_receive(polled, buf, sizeof buf, 0) == 1);
    ends_well(begin_child(all_is_well));
    /* Now the child is dead, and may be looked for. */
    pass(look_for_the_dead);
}

static void *send_and_receive(void *of)
{
    char buf[8];
    for (;;) {
        mq_send(polled, "x", 1, 0);
        mq_receive(polled, buf, sizeof buf, 0);
    }
    return of;
}

static void drain(void)
{
    const struct timespec past = {0, 0};
    char buf[8];
    while (mq_timedreceive(polled, buf, sizeof buf, 0, &past) == 1)
        continue;
    WANT(errno == ETIMEDOUT);
}

static void at_random(int count)
{
    unsigned random = 1;
    poll_it();
    for (int i = 0; i < count; ++i) {
        pthread_t thread;
        random = random * 1103515245u + 12345u;
        WANT(pthread_create(&thread, 0, send_and_receive, 0) == 0);
        usleep(random / 65536 % 200);
        pthread_cancel(thread);
        pthread_join(thread, 0);
        all_is_well();
        drain();
    }
}

int main(int count, char **words)
{
    other = fresh("/yak-cancelled-other", 4, 8, 0);
    pending();
    at_random(count > 1 ? atoi(words[1]) : 300);
    WANT(mq_close(polled) == 0 && mq_unlink("/yak-cancelled-inside") == 0);
    WANT(mq_close(other) == 0 && mq_unlink("/yak-cancelled-other") == 0);
    puts("well");
    return 0;
}
