/* zeros N: the thread 0 looks for the last zero of N + 1 words, while N others each make a word one
 * more than the word before it ("lastzero" of Abdulla, Aronsson, Jonsson and Sagonas, 2014, which
 * has (N + 3) 2^(N - 2) orders). */
#include <pthread.h>
#include <stdatomic.h>
#include <stdlib.h>

enum { MOST = 16 };

static atomic_int words[MOST + 1];
static int count;

static void *look(void *of)
{
    int i = count;
    while (atomic_load(&words[i]) != 0)
        --i;
    return of;
}

static void *add(void *of)
{
    const long i = (long)of;
    atomic_store(&words[i], atomic_load(&words[i - 1]) + 1);
    return 0;
}

int main(int argc, char **argv)
{
    pthread_t them[MOST + 1];
    count = argc > 1 ? atoi(argv[1]) : 3;
    if (count > MOST)
        return 2;
    for (long i = 0; i <= count; ++i)
        if (pthread_create(&them[i], 0, i == 0 ? look : add, (void *)i) != 0)
            abort();
    for (int i = 0; i <= count; ++i)
        pthread_join(them[i], 0);
    return 0;
}
