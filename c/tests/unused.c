/* The library does not affect a program that uses no queue: pthread_cancel makes no system, whose
 * journal would be written at the end, and in a forked child it says nothing about queues, even in
 * a child of a program that uses them. The same holds under a seed and under a schedule. The
 * argument is used or unused. */
#define _GNU_SOURCE
#include <fcntl.h>
#include <mqueue.h>
#include <pthread.h>
#include <stdio.h>
#include <stdlib.h>
#include <string.h>
#include <sys/wait.h>
#include <unistd.h>

#include "want.h"

static void *sleep_long(void *of)
{
    /* Under a seed a sleep is not a cancellation point. */
    for (;;) {
        sleep(1);
        pthread_testcancel();
    }
    return of;
}

static void cancel_one(void)
{
    pthread_t thread;
    void *ended;
    WANT(pthread_create(&thread, 0, sleep_long, 0) == 0);
    WANT(pthread_cancel(thread) == 0 && pthread_join(thread, &ended) == 0 &&
         ended == PTHREAD_CANCELED);
}

int main(int count, char **words)
{
    const char *journal = getenv("YAK_JOURNAL");
    struct mq_attr attr = room_for(1);
    int status = 0;
    pid_t child;
    WANT(count == 2 && journal != 0);
    if (strcmp(words[1], "used") == 0)
        WANT(mq_open("/yak-unused", O_RDWR | O_CREAT | O_EXCL, 0600, &attr) != -1);
    cancel_one();
    child = fork();
    if (child == 0) {
        cancel_one();
        exit(0);
    }
    WANT(child != -1 && waitpid(child, &status, 0) == child && WIFEXITED(status) &&
         WEXITSTATUS(status) == 0);
    WANT(access(journal, F_OK) != 0);
    puts("well");
    return 0;
}
