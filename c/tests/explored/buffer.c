/* buffer [right]: a bounded buffer with a mutex and two conditions; what is taken out of it goes
 * into a queue. A consumer that does not look again after its wait finds nothing, if the other one
 * was faster; that takes no preemption. */
#include "short.h"

enum { ROOM = 1, ITEMS = 2 };

static pthread_mutex_t lock = PTHREAD_MUTEX_INITIALIZER;
static pthread_cond_t filled = PTHREAD_COND_INITIALIZER, emptied = PTHREAD_COND_INITIALIZER;
static mqd_t taken;
static int count, is_right;

static void *produce(void *of)
{
    for (int i = 0; i < ITEMS; ++i) {
        pthread_mutex_lock(&lock);
        while (count == ROOM)
            pthread_cond_wait(&emptied, &lock);
        ++count;
        pthread_cond_signal(&filled);
        pthread_mutex_unlock(&lock);
    }
    return of;
}

static void *consume(void *of)
{
    pthread_mutex_lock(&lock);
    if (is_right)
        while (count == 0)
            pthread_cond_wait(&filled, &lock);
    else if (count == 0)
        pthread_cond_wait(&filled, &lock);
    if (count == 0)
        exit(1);
    --count;
    pthread_cond_signal(&emptied);
    pthread_mutex_unlock(&lock);
    put(taken, 'i');
    return of;
}

int main(int words, char **unused)
{
    pthread_t them[3];
    (void)unused;
    is_right = words > 1;
    taken = fresh("/taken", 8);
    them[0] = go(consume, 0);
    them[1] = go(consume, 0);
    them[2] = go(produce, 0);
    join(them, 3);
    printf("%ld taken\n", held(taken));
    return 0;
}
