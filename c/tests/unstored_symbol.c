/* The journal of the exported mq_* is stored if YAK_JOURNAL names a file at the first call, or
 * under a seed. Otherwise yak_program_journal writes nothing and fails with ENOTSUP, and so does
 * yak_program_check. In either case the report lists the waiting calls.
 *
 * usage: unstored_symbol [FILE]     FILE is named by YAK_JOURNAL after the first call */
#define _GNU_SOURCE
#include <errno.h>
#include <fcntl.h>
#include <mqueue.h>
#include <pthread.h>
#include <stdio.h>
#include <stdlib.h>
#include <yakyrombe/program.h>

#include "stored.h"
#include "want.h"

static mqd_t queue;

static void *receive(void *of)
{
    char buf[8];
    (void)of;
    WANT(mq_receive(queue, buf, sizeof buf, 0) == 1);
    return 0;
}

/* How many lines the report has; it must return that number. */
static int report_lines(void)
{
    FILE *to = tmpfile();
    int lines = 0, count, byte;
    WANT(to != 0 && (count = yak_program_report(to)) >= 0);
    rewind(to);
    while ((byte = fgetc(to)) != EOF)
        lines += byte == '\n';
    fclose(to);
    WANT(lines >= count);
    return count;
}

static void try_journal(void)
{
    FILE *to = tmpfile();
    WANT(to != 0);
    if (is_stored())
        WANT(yak_program_journal(to) == 0 && ftell(to) > 0);
    else
        WANT(yak_program_journal(to) == -1 && errno == ENOTSUP && ftell(to) == 0);
    fclose(to);
    WANT(is_checked());
}

int main(int count, char **words)
{
    struct mq_attr attr = room_for(4);
    pthread_t thread;
    WANT((queue = mq_open("/yak-unstored", O_RDWR | O_CREAT | O_EXCL, 0600, &attr)) != -1);
    try_journal();
    WANT(report_lines() == 0);
    WANT(pthread_create(&thread, 0, receive, 0) == 0);
    while (report_lines() == 0)
        pause_for(1);
    WANT(report_lines() == 1);
    WANT(mq_send(queue, "a", 1, 0) == 0 && pthread_join(thread, 0) == 0);
    WANT(report_lines() == 0);
    try_journal();
    if (count == 2)
        WANT(setenv("YAK_JOURNAL", words[1], 1) == 0);
    puts("well");
    fflush(stdout);
    return 0;
}
