/* wakes [right]: a flag is set without the mutex of its condition, so a wake can be lost, with one
 * preemption. */
#include "short.h"

static pthread_mutex_t lock = PTHREAD_MUTEX_INITIALIZER;
static pthread_cond_t cond = PTHREAD_COND_INITIALIZER;
static volatile int flag;
static int is_right;
static mqd_t queue;

static void *set(void *of)
{
    (void)of;
    put(queue, 'a');
    if (is_right)
        pthread_mutex_lock(&lock);
    flag = 1;
    if (is_right)
        pthread_mutex_unlock(&lock);
    pthread_cond_signal(&cond);
    return 0;
}

int main(int count, char **words)
{
    pthread_t setter;
    (void)words;
    is_right = count > 1;
    queue = fresh("/queue", 2);
    setter = go(set, 0);
    pthread_mutex_lock(&lock);
    while (!flag)
        pthread_cond_wait(&cond, &lock);
    pthread_mutex_unlock(&lock);
    pthread_join(setter, 0);
    puts("well");
    return 0;
}
