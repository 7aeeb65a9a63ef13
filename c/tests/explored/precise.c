/* precise [STEPS]: a fault that needs three preemptions, each at one place. A watchdog looks
 * whether two tokens are where they belong, and gives up if both are away. The worker takes the
 * one, lays it back, works for a while, and takes the other: both are never away at once. */
#include "short.h"

static mqd_t one, other, own;
static int work_steps;

static void *work(void *of)
{
    (void)of;
    get(one);
    put(one, 't');
    for (int i = 0; i < work_steps; ++i)
        held(own);
    get(other);
    put(other, 't');
    return 0;
}

static void *watch(void *of)
{
    (void)of;
    if (held(one) == 0 && held(other) == 0)
        abort();
    return 0;
}

int main(int count, char **words)
{
    pthread_t them[2];
    work_steps = number(count, words, 1, 12);
    one = fresh("/one", 1);
    other = fresh("/other", 1);
    own = fresh("/own", 1);
    put(one, 't');
    put(other, 't');
    them[0] = go(work, 0);
    them[1] = go(watch, 0);
    join(them, 2);
    puts("well");
    return 0;
}
