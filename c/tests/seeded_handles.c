/* The two tokens of deadlock.c by handles, under a seed. A token that has not come after two
 * simulated seconds is a fault where the argument is "late": then a seed shows that, and no
 * deadlock. */
#define _GNU_SOURCE
#include <yakyrombe/seed.h>

#include <yakyrombe.h>

#include <string.h>

static const yak_opening OPENING = {
    .maxmsg = 1, .msgsize = 8, .access = 2, .create = true, .limited = true};
static const uint8_t NAMES[2][2] = {{'/', 'l'}, {'/', 'r'}};
static yak_process processes[3];
static bool has_deadlines;

static void want(uint32_t answer)
{
    if (answer != YAK_DONE) {
        fprintf(stderr, "refused: %u\n", (unsigned)answer);
        exit(answer == YAK_TIMEDOUT ? 3 : 1);
    }
}

static void open_both(yak_process *process, uint32_t *d)
{
    uint32_t answer;
    for (int i = 0; i < 2; ++i) {
        answer = yak_open(process, NAMES[i], sizeof NAMES[i], &OPENING, &d[i]);
        want(answer);
    }
}

static void take(yak_process *process, uint32_t d)
{
    uint8_t buf[8];
    yak_message message;
    yak_moment until = yak_now();
    until.sec += 2;
    want(has_deadlines ? yak_timed_receive(process, d, buf, sizeof buf, &message, &until)
                       : yak_receive(process, d, buf, sizeof buf, &message));
}

static void lay_back(yak_process *process, uint32_t d)
{
    want(yak_send(process, d, (const uint8_t *)"t", 1, 0));
}

static void *work(void *of)
{
    long first = (long)of;
    yak_process *process = &processes[1 + first];
    uint32_t d[2];
    open_both(process, d);
    take(process, d[first]);
    take(process, d[1 - first]);
    lay_back(process, d[1 - first]);
    lay_back(process, d[first]);
    return 0;
}

int main(int count, char **words)
{
    pthread_t threads[2];
    uint32_t d[2];
    has_deadlines = count == 2 && strcmp(words[1], "late") == 0;
    want(yak_new(processes, 3));
    open_both(&processes[0], d);
    for (int i = 0; i < 2; ++i)
        lay_back(&processes[0], d[i]);
    for (long i = 0; i < 2; ++i)
        if (pthread_create(&threads[i], 0, work, (void *)i) != 0)
            return 1;
    for (int i = 0; i < 2; ++i)
        pthread_join(threads[i], 0);
    puts("done");
    return yak_finish(processes, 3) != YAK_DONE;
}
