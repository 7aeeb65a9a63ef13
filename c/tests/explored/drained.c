/* drained [right]: a consumer that waits for a post looks for a message without waiting. The
 * producer posts before it sends; `right` sends first. */
#include "short.h"

#include <errno.h>
#include <semaphore.h>

static mqd_t queue;
static sem_t there;
static int is_right;

static void *produce(void *of)
{
    for (int i = 0; i < 2; ++i) {
        if (!is_right)
            sem_post(&there);
        put(queue, 'm');
        if (is_right)
            sem_post(&there);
    }
    return of;
}

int main(int count, char **words)
{
    struct mq_attr attr = {.mq_flags = O_NONBLOCK};
    pthread_t other;
    (void)words;
    is_right = count > 1;
    sem_init(&there, 0, 0);
    queue = fresh("/drained", 4);
    mq_setattr(queue, &attr, 0);
    other = go(produce, 0);
    for (int i = 0; i < 2; ++i) {
        sem_wait(&there);
        get(queue);
    }
    pthread_join(other, 0);
    puts("done");
    return 0;
}
