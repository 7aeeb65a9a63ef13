/* A journal that can't be written leaves no file open: each report by a signal fails to write it to
 * a full device. Run with YAK_REPORT_SIGNAL=12 YAK_JOURNAL=/dev/full. */
#define _GNU_SOURCE
#include <dirent.h>
#include <fcntl.h>
#include <mqueue.h>
#include <pthread.h>
#include <signal.h>
#include <stdio.h>
#include <stdlib.h>
#include <string.h>
#include <unistd.h>
#include <yakyrombe/program.h>

#include "want.h"

enum { REPORTS = 20 };

static mqd_t queue;
static char path[] = "/tmp/yak-full-XXXXXX";

static void *receive(void *of)
{
    char buf[8];
    (void)of;
    WANT(mq_receive(queue, buf, sizeof buf, 0) == 1);
    return 0;
}

static int open_files(void)
{
    int count = 0;
    DIR *files = opendir("/proc/self/fd");
    WANT(files != 0);
    while (readdir(files) != 0)
        ++count;
    closedir(files);
    return count;
}

/* How many lines of the error stream say that the journal was not written. */
static int told(void)
{
    char line[256];
    int count = 0;
    FILE *from = fopen(path, "r");
    WANT(from != 0);
    while (fgets(line, sizeof line, from) != 0)
        count +=
            strstr(line, "the journal was not written to /dev/full: No space left on device") != 0;
    fclose(from);
    return count;
}

int main(void)
{
    struct mq_attr attr = room_for(1);
    pthread_t thread;
    int errors = mkstemp(path), before;
    WANT(errors != -1 && dup2(errors, STDERR_FILENO) != -1);
    WANT((queue = mq_open("/yak-full-device", O_RDWR | O_CREAT | O_EXCL, 0600, &attr)) != -1);
    WANT(pthread_create(&thread, 0, receive, 0) == 0);
    while (yak_program_report(stderr) == 0)
        pause_for(1);
    before = open_files();
    for (int i = 0; i < REPORTS; ++i) {
        WANT(kill(getpid(), SIGUSR2) == 0);
        for (int waited = 0; told() <= i && waited < 10000; ++waited)
            pause_for(1);
        WANT(told() > i);
    }
    WANT(open_files() == before);
    WANT(mq_send(queue, "a", 1, 0) == 0 && pthread_join(thread, 0) == 0);
    unlink(path);
    puts("well");
    return 0;
}
