/* producers EACH ROOM: two producers send EACH messages into a queue with ROOM places; a consumer
 * receives all. Prints the order: each is an outcome. */
#include "short.h"

static mqd_t queue;
static int each;
static char got[64];

static void *produce(void *of)
{
    for (int i = 0; i < each; ++i)
        put(queue, (char)((long)of + i));
    return 0;
}

static void *consume(void *of)
{
    (void)of;
    for (int i = 0; i < 2 * each; ++i)
        got[i] = get(queue);
    return 0;
}

int main(int count, char **words)
{
    pthread_t them[3];
    each = number(count, words, 1, 3);
    queue = fresh("/queue", number(count, words, 2, 2));
    them[0] = go(produce, 'a');
    them[1] = go(produce, 'A');
    them[2] = go(consume, 0);
    join(them, 3);
    puts(got);
    return 0;
}
