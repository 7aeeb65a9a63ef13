/* bank THREADS [right]: each thread reads a balance under a mutex, writes a line to the log, a
 * queue, and then writes the balance under the mutex. A deposit is lost with one preemption, unless
 * the mutex is held all the time. */
#include "short.h"

static mqd_t journal;
static pthread_mutex_t lock = PTHREAD_MUTEX_INITIALIZER;
static int balance, is_right;

static void *deposit(void *of)
{
    int seen;
    pthread_mutex_lock(&lock);
    seen = balance;
    if (!is_right)
        pthread_mutex_unlock(&lock);
    put(journal, (char)('0' + (long)of));
    if (!is_right)
        pthread_mutex_lock(&lock);
    balance = seen + 1;
    pthread_mutex_unlock(&lock);
    return 0;
}

int main(int count, char **words)
{
    const int threads = number(count, words, 1, 2);
    pthread_t them[8];
    is_right = count > 2;
    journal = fresh("/log", 8);
    for (int i = 0; i < threads; ++i)
        them[i] = go(deposit, i);
    join(them, threads);
    printf("balance %d, log ", balance);
    for (int i = 0; i < threads; ++i)
        putchar(get(journal));
    puts("");
    return balance != threads;
}
