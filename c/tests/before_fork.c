/* A child answers waits that began before the first fork: receives, sends, waits with a deadline,
 * and those of more threads than wait in order. */
#define _GNU_SOURCE
#include <pthread.h>
#include <stdio.h>

#include "family.h"
#include "reported.h"

enum { RECEIVERS = 40, SENDERS = 2 };

static mqd_t empty, full;

static void *receives(void *is_timed)
{
    const struct timespec until = after(60000);
    char buf[8];
    WANT((is_timed != 0 ? mq_timedreceive(empty, buf, sizeof buf, 0, &until)
                        : mq_receive(empty, buf, sizeof buf, 0)) == 1);
    return 0;
}

static void *sends(void *of)
{
    (void)of;
    WANT(mq_send(full, "b", 1, 0) == 0);
    return 0;
}

static void answer_all(void)
{
    char buf[8];
    pause_for(100);
    for (int i = 0; i < RECEIVERS; ++i)
        WANT(mq_send(empty, "a", 1, 0) == 0);
    for (int i = 0; i < SENDERS + 1; ++i)
        WANT(mq_receive(full, buf, sizeof buf, 0) == 1);
}

int main(void)
{
    pthread_t threads[RECEIVERS + SENDERS];
    empty = fresh("/yak-empty", 10, 8, 0);
    full = fresh("/yak-full", 1, 8, 0);
    WANT(mq_send(full, "b", 1, 0) == 0);
    for (int i = 0; i < RECEIVERS + SENDERS; ++i)
        WANT(pthread_create(&threads[i], 0, i < RECEIVERS ? receives : sends,
                            i % 2 != 0 ? threads : 0) == 0);
    await_waits(RECEIVERS + SENDERS);
    ends_well(begin_child(answer_all));
    for (int i = 0; i < RECEIVERS + SENDERS; ++i)
        WANT(pthread_join(threads[i], 0) == 0);
    WANT(messages_in(empty) == 0 && messages_in(full) == 0);
    WANT(mq_unlink("/yak-empty") == 0 && mq_unlink("/yak-full") == 0);
    puts("well");
    return 0;
}
