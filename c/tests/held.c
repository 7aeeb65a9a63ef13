/* If a close fails for lack of memory, the library remembers the descriptors that its processes
 * hold for it, and closes them later. Linked with --wrap=mprotect, which makes the library's
 * allocations fail, and run with YAK_JOURNAL. In each child the close has another sequence number,
 * and in some of them its allocation fails. */
#define _GNU_SOURCE
#include <errno.h>
#include <fcntl.h>
#include <mqueue.h>
#include <stdbool.h>
#include <stdio.h>
#include <stdlib.h>
#include <string.h>
#include <sys/wait.h>
#include <time.h>
#include <unistd.h>
#include <yakyrombe/program.h>

#include "stored.h"
#include "want.h"

/* The journal grows at 4,096 entries, and then needs more memory than is open. */
enum { CHILDREN = 70, FIRST_PADDING = 4096 - CHILDREN + 10, ROUNDS = 3, HIT = 7 };

/* Volatile, because the system's headers declare that its calls call no function of this file. */
static volatile bool refuses;
static volatile int refused;

int __real_mprotect(void *at, size_t size, int rights);
int __wrap_mprotect(void *at, size_t size, int rights);

int __wrap_mprotect(void *at, size_t size, int rights)
{
    refused += refuses;
    errno = ENOMEM;
    return refuses ? -1 : __real_mprotect(at, size, rights);
}

/* Opens the queue, and waits in it for a moment; for that, process 2 opens it too. */
static mqd_t open_and_wait(void)
{
    struct mq_attr attr = room_for(1);
    struct timespec soon;
    char buf[8];
    mqd_t queue;
    WANT((queue = mq_open("/yak-held", O_RDWR | O_CREAT, 0600, &attr)) != -1);
    clock_gettime(CLOCK_REALTIME, &soon);
    soon.tv_nsec += 1000000;
    soon.tv_sec += soon.tv_nsec / 1000000000;
    soon.tv_nsec %= 1000000000;
    WANT(mq_timedreceive(queue, buf, sizeof buf, 0, &soon) == -1 && errno == ETIMEDOUT);
    return queue;
}

/* How many descriptors process 2 holds, according to the journal. */
static int held_by_second(void)
{
    char line[512], reply[16];
    int held = 0;
    FILE *journal = tmpfile();
    WANT(journal != 0 && yak_program_journal(journal) == 0);
    rewind(journal);
    while (fgets(line, sizeof line, journal) != 0) {
        held += sscanf(line, "%*u 2 open %*s \"%*[^\"]\" -> %15s", reply) == 1 &&
                strcmp(reply, "fd") == 0;
        held -= sscanf(line, "%*u 2 close %*u -> %15s", reply) == 1 && strcmp(reply, "ok") == 0;
    }
    fclose(journal);
    return held;
}

static void child(int padding)
{
    struct mq_attr attr;
    mqd_t queue = open_and_wait();
    int status;
    WANT(held_by_second() == 1);
    for (int i = 0; i < padding; ++i)
        WANT(mq_getattr(queue, &attr) == 0);
    refuses = true;
    status = mq_close(queue);
    refuses = false;
    if (status != 0 || refused == 0)
        _exit(0);
    WANT(held_by_second() == 1);
    for (int i = 0; i < ROUNDS; ++i) {
        queue = open_and_wait();
        WANT(held_by_second() == 1);
        WANT(mq_close(queue) == 0);
        WANT(held_by_second() == 0);
    }
    WANT(yak_program_check() == 0);
    _exit(HIT);
}

int main(void)
{
    int hits = 0;
    WANT(is_stored() && setenv("YAK_FORK", "new", 1) == 0);
    for (int i = 0; i < CHILDREN; ++i) {
        int status = 0;
        pid_t it = fork();
        if (it == 0)
            child(FIRST_PADDING + i);
        WANT(it != -1 && waitpid(it, &status, 0) == it && WIFEXITED(status) &&
             (WEXITSTATUS(status) == 0 || WEXITSTATUS(status) == HIT));
        hits += WEXITSTATUS(status) == HIT;
    }
    WANT(hits != 0);
    puts("well");
    return 0;
}
