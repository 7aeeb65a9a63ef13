/* memory [locked|added|stored]: two threads add one to a count that they share. Without a word they
 * do that at once, which is a data race in every order. If the count is loaded and stored by
 * atomics, an addition can be lost, with one preemption. Under a lock, and by an atomic addition,
 * none is. It is compiled with -fsanitize=thread, so that its memory is seen. */
#include "short.h"

static pthread_mutex_t lock = PTHREAD_MUTEX_INITIALIZER;
static int count;
static char how;

static void *add(void *of)
{
    if (how == 'l')
        pthread_mutex_lock(&lock);
    if (how == 's')
        __atomic_store_n(&count, __atomic_load_n(&count, __ATOMIC_ACQUIRE) + 1, __ATOMIC_RELEASE);
    else if (how == 'a')
        __atomic_fetch_add(&count, 1, __ATOMIC_RELAXED);
    else
        ++count;
    if (how == 'l')
        pthread_mutex_unlock(&lock);
    return of;
}

int main(int words, char **word)
{
    pthread_t them[2];
    how = words > 1 ? *word[1] : 0;
    them[0] = go(add, 0);
    them[1] = go(add, 0);
    join(them, 2);
    printf("%d\n", count);
    return count != 2;
}
