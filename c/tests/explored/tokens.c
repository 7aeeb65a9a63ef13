/* tokens [ROUNDS]: two tokens in two queues; each of two threads takes both, in another order, and
 * lays them back. Deadlocks with one preemption. */
#include "short.h"

static mqd_t queues[2];
static int rounds;

static void *work(void *of)
{
    const long first = (long)of;
    for (int i = 0; i < rounds; ++i) {
        get(queues[first]);
        get(queues[1 - first]);
        put(queues[1 - first], 't');
        put(queues[first], 't');
    }
    return 0;
}

int main(int count, char **words)
{
    pthread_t them[2];
    rounds = number(count, words, 1, 1);
    queues[0] = fresh("/left", 1);
    queues[1] = fresh("/right", 1);
    put(queues[0], 't');
    put(queues[1], 't');
    them[0] = go(work, 0);
    them[1] = go(work, 1);
    join(them, 2);
    puts("done");
    return 0;
}
