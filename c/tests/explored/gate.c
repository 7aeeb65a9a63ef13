/* gate [right]: two threads of <threads.h> wait at a gate, which is opened by one signal, or
 * `right` by a broadcast. */
#include <stdio.h>
#include <threads.h>

static mtx_t lock;
static cnd_t opened;
static int is_open;

static int pass(void *of)
{
    (void)of;
    mtx_lock(&lock);
    while (!is_open)
        cnd_wait(&opened, &lock);
    mtx_unlock(&lock);
    return 7;
}

int main(int count, char **words)
{
    thrd_t them[2];
    int given = 0;
    (void)words;
    mtx_init(&lock, mtx_plain);
    cnd_init(&opened);
    for (int i = 0; i < 2; ++i)
        if (thrd_create(&them[i], pass, 0) != thrd_success)
            return 2;
    mtx_lock(&lock);
    is_open = 1;
    if (count > 1)
        cnd_broadcast(&opened);
    else
        cnd_signal(&opened);
    mtx_unlock(&lock);
    for (int i = 0; i < 2; ++i)
        if (thrd_join(them[i], &given) != thrd_success || given != 7)
            return 1;
    puts("done");
    return 0;
}
