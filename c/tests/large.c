/* The error stream says once, at the send that does it, that a stored journal has passed 1 GB,
 * counting 64 bytes an entry, 56 more for one with limits, and the bytes of names and messages. If
 * no journal is stored, it never says so. */
#define _GNU_SOURCE
#include <fcntl.h>
#include <mqueue.h>
#include <stdio.h>
#include <unistd.h>

#include "want.h"

static const char NAME[] = "/yak-large";

enum { LARGE = 1000000000, MSGSIZE = 65536, ROUND = 64 + MSGSIZE + 64 };

static mqd_t queue;

static void pass(long rounds)
{
    static char bytes[MSGSIZE];
    for (long i = 0; i < rounds; ++i) {
        WANT(mq_send(queue, bytes, sizeof bytes, 0) == 0);
        WANT(mq_receive(queue, bytes, sizeof bytes, 0) == MSGSIZE);
    }
}

static void say(const char *what)
{
    puts(what);
    fflush(stdout);
}

/* It does not end by exit, because then the journal would be written. */
int main(void)
{
    const long opened = 64 + 56 + (long)sizeof NAME - 1;
    struct mq_attr attr = room_for(1);
    attr.mq_msgsize = MSGSIZE;
    WANT((queue = mq_open(NAME, O_RDWR | O_CREAT | O_EXCL, 0600, &attr)) != -1);
    pass((LARGE - opened) / ROUND);
    say("below");
    pass(1);
    say("above");
    pass(100);
    say("well");
    _exit(0);
}
