/* The descriptors of a process, and what a report says about others. A process has 128 descriptors,
 * the lowest free number first, over 128 open descriptions of the program; a child has as many
 * numbers. With 16 descriptions 31 calls wait in order, and fewer with more: each further 16 take
 * one of the library's processes, and return it when they are closed.
 */
#define _GNU_SOURCE
#include <pthread.h>
#include <stdbool.h>
#include <yakyrombe/program.h>

#include "family.h"

enum { FIRST = 1000, MOST = 128, QUEUES = 60, WAITS = 31 };

static mqd_t queue;
static char given[WAITS];

static const char *name_of(int i)
{
    static char name[32];
    snprintf(name, sizeof name, "/yak-numbers-%d", i % QUEUES);
    return name;
}

static mqd_t open_one(int i)
{
    struct mq_attr attr = room_for(2);
    return mq_open(name_of(i), O_RDWR | O_CREAT, 0600, &attr);
}

static void open_all(void)
{
    for (int i = 0; i < MOST; ++i)
        WANT(open_one(i) == FIRST + i);
    WANT(open_one(0) == -1 && errno == EMFILE);
}

/* Each number refers to its own queue. */
static void use_all(void)
{
    char buf[8];
    for (int i = 0; i < QUEUES; ++i) {
        const char byte = (char)i;
        WANT(mq_send(FIRST + i, &byte, 1, 0) == 0);
    }
    for (int i = MOST - QUEUES; i < MOST; ++i)
        WANT(mq_receive(FIRST + i, buf, sizeof buf, 0) == 1 && buf[0] == (char)(i % QUEUES));
}

static void close_all(void)
{
    for (int i = 0; i < MOST; ++i)
        WANT(mq_close(FIRST + i) == 0);
    WANT(mq_close(FIRST) == -1 && errno == EBADF);
}

static void lowest_first(void)
{
    static const int some[] = {3, 17, 40, 99, 127};
    for (int i = 0; i < 5; ++i)
        WANT(mq_close(FIRST + some[i]) == 0);
    for (int i = 0; i < 5; ++i)
        WANT(open_one(some[i]) == FIRST + some[i]);
}

static void *receive_one(void *of)
{
    char buf[8];
    WANT(mq_receive(queue, buf, sizeof buf, 0) == 1);
    given[(long)of] = buf[0];
    return 0;
}

/* How many of `count` waits are served in order. */
static int in_order(int count)
{
    pthread_t threads[WAITS];
    FILE *nowhere = fopen("/dev/null", "w");
    int served = 0;
    WANT(nowhere != 0);
    for (long i = 0; i < count; ++i) {
        WANT(pthread_create(&threads[i], 0, receive_one, (void *)i) == 0);
        while (yak_program_report(nowhere) <= i)
            pause_for(1);
    }
    fclose(nowhere);
    for (int i = 0; i < count; ++i) {
        const char byte = (char)i;
        WANT(mq_send(queue, &byte, 1, 0) == 0);
        pause_for(1);
    }
    for (int i = 0; i < count; ++i)
        WANT(pthread_join(threads[i], 0) == 0);
    while (served < count && given[served] == (char)served)
        ++served;
    return served;
}

/* A report lists a call that waits in a child. */
static void tell_of_child(void)
{
    char line[256], wanted[64], buf[8];
    FILE *to = tmpfile();
    const pid_t child = fork();
    if (child == 0) {
        WANT(mq_receive(queue, buf, sizeof buf, 0) == 1);
        _exit(0);
    }
    WANT(to != 0 && child > 0);
    while (yak_program_report(to) == 0)
        pause_for(1);
    rewind(to);
    snprintf(wanted, sizeof wanted, " of process %ld waits in mq_receive on descriptor %d,",
             (long)child, queue);
    WANT(fgets(line, sizeof line, to) != 0 && strstr(line, wanted) != 0);
    WANT(strstr(line, "\"/yak-numbers\"") != 0);
    fclose(to);
    WANT(mq_send(queue, "a", 1, 0) == 0);
    ends_well(child);
}

int main(void)
{
    open_all();
    use_all();
    lowest_first();
    use_all();
    {
        const pid_t child = fork();
        if (child == 0) {
            WANT(mq_close(FIRST + 5) == 0 && open_one(5) == -1 && errno == ENFILE);
            _exit(0);
        }
        ends_well(child);
    }
    close_all();
    for (int i = 0; i < QUEUES; ++i)
        WANT(mq_unlink(name_of(i)) == 0);
    queue = fresh("/yak-numbers", 10, 8, 0);
    WANT(queue == FIRST && in_order(WAITS) == WAITS);
    tell_of_child();
    for (int i = 1; i < 48; ++i)
        WANT(open_one(0) == FIRST + i);
    WANT(in_order(WAITS - 2) == WAITS - 2);
    for (int i = 1; i < 48; ++i)
        WANT(mq_close(FIRST + i) == 0);
    WANT(in_order(WAITS) == WAITS);
    WANT(mq_close(queue) == 0 && mq_unlink("/yak-numbers") == 0 && mq_unlink(name_of(0)) == 0);
    puts("well");
    return 0;
}
