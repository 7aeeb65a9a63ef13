/* counts THREADS CALLS same|own|look: each thread makes CALLS calls on one queue, on a queue of its
 * own, or looks at one queue. There are (THREADS * CALLS)! / CALLS!^THREADS orders of the calls; of
 * calls on own queues, and of looks, one matters. */
#include "short.h"

static mqd_t queues[8];
static int calls, kind;

static void *work(void *of)
{
    const long me = (long)of;
    for (int i = 0; i < calls; ++i)
        if (kind == 'l')
            held(queues[0]);
        else
            put(queues[kind == 'o' ? me : 0], (char)('a' + me));
    return 0;
}

int main(int count, char **words)
{
    const int threads = number(count, words, 1, 2);
    pthread_t them[8];
    calls = number(count, words, 2, 2);
    kind = count > 3 ? words[3][0] : 's';
    for (int i = 0; i < (kind == 'o' ? threads : 1); ++i)
        queues[i] = fresh_one("/queue", i, 32);
    for (int i = 0; i < threads; ++i)
        them[i] = go(work, i);
    join(them, threads);
    for (int i = 0; kind == 's' && i < threads * calls; ++i)
        putchar(get(queues[0]));
    putchar('\n');
    return 0;
}
