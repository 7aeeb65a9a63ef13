/* flags [right]: a thread makes a description not block and then sends, and another receives by it.
 * The receive fails with EAGAIN if the flag is set before it begins and the message comes later; if
 * it has begun to wait, the flag does not matter to it. `right` polls then. */
#include "short.h"

#include <errno.h>

static mqd_t queue;
static int is_right;

static void *receive(void *of)
{
    char bytes[8];
    while (mq_receive(queue, bytes, sizeof bytes, 0) < 0)
        if (errno != EAGAIN || !is_right)
            abort();
    return of;
}

static void *set_and_send(void *of)
{
    struct mq_attr attr = {.mq_flags = O_NONBLOCK};
    mq_setattr(queue, &attr, 0);
    put(queue, 'm');
    return of;
}

int main(int count, char **words)
{
    pthread_t them[2];
    (void)words;
    is_right = count > 1;
    queue = fresh("/flags", 4);
    them[0] = go(receive, 0);
    them[1] = go(set_and_send, 0);
    join(them, 2);
    puts("done");
    return 0;
}
