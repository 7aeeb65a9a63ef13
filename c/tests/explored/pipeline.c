/* pipeline STAGES MESSAGES ROOM: each stage takes from the queue before it, adds one, and puts into
 * the next. Right in every order. */
#include "short.h"

static mqd_t queues[8];
static int messages;

static void *stage(void *of)
{
    const long i = (long)of;
    for (int n = 0; n < messages; ++n)
        put(queues[i + 1], (char)(get(queues[i]) + 1));
    return 0;
}

int main(int count, char **words)
{
    const int stages = number(count, words, 1, 3), room = number(count, words, 3, 2);
    pthread_t them[8];
    messages = number(count, words, 2, 3);
    for (int i = 0; i <= stages; ++i)
        queues[i] = fresh_one("/stage", i, i == stages ? 10 : room);
    for (int i = 0; i < stages; ++i)
        them[i] = go(stage, i);
    for (int n = 0; n < messages; ++n)
        put(queues[0], (char)('a' + 2 * n));
    join(them, stages);
    for (int n = 0; n < messages; ++n)
        if (get(queues[stages]) != 'a' + 2 * n + stages)
            abort();
    puts("well");
    return 0;
}
