/* A thread that writes the journal (if it is stored) or a report to a full pipe delays no other
 * thread, and can be cancelled there. A receive can be cancelled at each moment from its beginning
 * on. */
#define _GNU_SOURCE
#include <errno.h>
#include <fcntl.h>
#include <mqueue.h>
#include <pthread.h>
#include <sched.h>
#include <signal.h>
#include <stdatomic.h>
#include <stdio.h>
#include <stdlib.h>
#include <string.h>
#include <sys/ioctl.h>
#include <unistd.h>
#include <yakyrombe/program.h>

#include "stored.h"
#include "want.h"

enum { CALLS = 2500, MOMENTS = 4000, LAST_MOMENT = 500 };

static mqd_t queue;
static int ends[2];
static FILE *to;

static void *write_journal(void *of)
{
    (void)of;
    yak_program_journal(to);
    return 0;
}

static void *write_reports(void *of)
{
    (void)of;
    while (yak_program_report(to) >= 0)
        ;
    return 0;
}

static void *receive(void *of)
{
    char buf[8];
    WANT(mq_receive(*(const mqd_t *)of, buf, sizeof buf, 0) == 1);
    return 0;
}

static void call(void)
{
    char buf[8];
    WANT(mq_send(queue, "x", 1, 0) == 0);
    WANT(mq_receive(queue, buf, sizeof buf, 0) == 1);
}

/* Returns when the pipe has data and has stopped growing. */
static void await_full(void)
{
    int before = 0, now = 0;
    do {
        before = now;
        pause_for(50);
        WANT(ioctl(ends[0], FIONREAD, &now) == 0);
    } while (now == 0 || now != before);
}

static void cancel_writer(void *(*run)(void *))
{
    pthread_t thread;
    void *ended;
    WANT(pipe(ends) == 0 && (to = fdopen(ends[1], "w")) != 0);
    WANT(fcntl(ends[1], F_SETPIPE_SZ, 4096) == 4096);
    WANT(pthread_create(&thread, 0, run, 0) == 0);
    await_full();
    for (int i = 0; i < 100; ++i)
        call();
    WANT(pthread_cancel(thread) == 0);
    WANT(pthread_join(thread, &ended) == 0 && ended == PTHREAD_CANCELED);
    for (int i = 0; i < 100; ++i)
        call();
    WANT(close(ends[0]) == 0);
    signal(SIGPIPE, SIG_IGN);
    fclose(to);
}

static atomic_bool begins;

static void *receive_until_cancelled(void *of)
{
    char buf[8];
    atomic_store(&begins, true);
    mq_receive(*(const mqd_t *)of, buf, sizeof buf, 0);
    return 0;
}

static void cancel_at_each_moment(mqd_t empty)
{
    for (int i = 0; i < MOMENTS; ++i) {
        pthread_t thread;
        void *ended;
        atomic_store(&begins, false);
        WANT(pthread_create(&thread, 0, receive_until_cancelled, &empty) == 0);
        while (!atomic_load(&begins))
            sched_yield();
        for (volatile int turns = 0; turns < i % LAST_MOMENT; ++turns)
            ;
        WANT(pthread_cancel(thread) == 0);
        WANT(pthread_join(thread, &ended) == 0 && ended == PTHREAD_CANCELED);
    }
}

int main(void)
{
    struct mq_attr attr = room_for(4);
    pthread_t waiting[4];
    mqd_t reported;
    WANT((queue = mq_open("/yak-cancelled", O_RDWR | O_CREAT | O_EXCL, 0600, &attr)) != -1);
    WANT((reported = mq_open("/yak-cancelled-reported", O_RDWR | O_CREAT | O_EXCL, 0600, &attr)) !=
         -1);
    for (int i = 0; i < CALLS; ++i)
        call();
    if (is_stored())
        cancel_writer(write_journal);
    for (int i = 0; i < 4; ++i)
        WANT(pthread_create(&waiting[i], 0, receive, &reported) == 0);
    cancel_writer(write_reports);
    for (int i = 0; i < 4; ++i)
        WANT(mq_send(reported, "y", 1, 0) == 0);
    for (int i = 0; i < 4; ++i)
        WANT(pthread_join(waiting[i], 0) == 0);
    cancel_at_each_moment(reported);
    WANT(is_checked());
    puts("well");
    return 0;
}
