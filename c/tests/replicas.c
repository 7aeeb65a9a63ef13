/* A process of the library that already has the queue open makes a wait: with more queues than one
 * process can have open, each is opened only once for waits. Run with YAK_JOURNAL. */
#define _GNU_SOURCE
#include <fcntl.h>
#include <mqueue.h>
#include <stdbool.h>
#include <stdio.h>
#include <string.h>
#include <time.h>
#include <yakyrombe/program.h>

#include "stored.h"
#include "want.h"

enum { MANY = 40, ROUNDS = 3 };

/* How many opens the journal has. */
static int opens(void)
{
    char line[512], what[16];
    int count = 0;
    FILE *journal = tmpfile();
    WANT(journal != 0 && yak_program_journal(journal) == 0);
    rewind(journal);
    while (fgets(line, sizeof line, journal) != 0)
        count += sscanf(line, "%*u %*u %15s", what) == 1 && strcmp(what, "open") == 0;
    fclose(journal);
    return count;
}

int main(void)
{
    static const struct timespec past;
    mqd_t queues[MANY];
    WANT(is_stored());
    for (int i = 0; i < MANY; ++i) {
        struct mq_attr attr = room_for(1);
        char name[32];
        snprintf(name, sizeof name, "/yak-replicas-%d", i);
        WANT((queues[i] = mq_open(name, O_RDWR | O_CREAT | O_EXCL, 0600, &attr)) != -1);
    }
    for (int round = 0; round < ROUNDS; ++round)
        for (int i = 0; i < MANY; ++i) {
            char buf[8];
            WANT(mq_timedreceive(queues[i], buf, sizeof buf, 0, &past) == -1 && errno == ETIMEDOUT);
        }
    WANT(opens() == 2 * MANY);
    WANT(is_checked());
    puts("well");
    return 0;
}
