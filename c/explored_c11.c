/* The names of <threads.h>: each is the one of <pthread.h>, of which the machine knows. In the GNU
 * C library the objects of the two are the same. */
#define _GNU_SOURCE
#include <errno.h>
#include <pthread.h>
#include <sched.h>
#include <stdint.h>
#include <stdlib.h>
#include <threads.h>
#include <time.h>

_Static_assert(sizeof(mtx_t) == sizeof(pthread_mutex_t), "a mutex is not one of <pthread.h>");
_Static_assert(sizeof(cnd_t) == sizeof(pthread_cond_t), "a condition is not one of <pthread.h>");

static int result_of(int error)
{
    switch (error) {
    case 0:
        return thrd_success;
    case ENOMEM:
        return thrd_nomem;
    case ETIMEDOUT:
        return thrd_timedout;
    case EBUSY:
        return thrd_busy;
    default:
        return thrd_error;
    }
}

/* ---- threads ---- */

typedef struct beginning {
    thrd_start_t run;
    void *with;
} beginning;

static void *run_thread(void *of)
{
    const beginning it = *(beginning *)of;
    free(of);
    return (void *)(intptr_t)it.run(it.with);
}

int thrd_create(thrd_t *thread, thrd_start_t run, void *with)
{
    beginning *it = malloc(sizeof *it);
    int error;
    if (it == 0)
        return thrd_nomem;
    *it = (beginning){.run = run, .with = with};
    error = pthread_create(thread, 0, run_thread, it);
    if (error != 0)
        free(it);
    return error == EAGAIN ? thrd_nomem : result_of(error);
}

int thrd_join(thrd_t thread, int *result)
{
    void *of = 0;
    const int error = pthread_join(thread, &of);
    if (error == 0 && result != 0)
        *result = (int)(intptr_t)of;
    return result_of(error);
}

int thrd_sleep(const struct timespec *time, struct timespec *left)
{
    if (nanosleep(time, left) == 0)
        return 0;
    return errno == EINTR ? -1 : -2;
}

void thrd_yield(void)
{
    sched_yield();
}

void call_once(once_flag *once, void (*begin)(void))
{
    pthread_once((pthread_once_t *)once, begin);
}

/* ---- mutexes and conditions ---- */

static pthread_mutex_t *mutex_of(mtx_t *it)
{
    return (pthread_mutex_t *)it;
}

static pthread_cond_t *cond_of(cnd_t *it)
{
    return (pthread_cond_t *)it;
}

int mtx_lock(mtx_t *it)
{
    return result_of(pthread_mutex_lock(mutex_of(it)));
}

int mtx_timedlock(mtx_t *it, const struct timespec *until)
{
    return result_of(pthread_mutex_timedlock(mutex_of(it), until));
}

int mtx_trylock(mtx_t *it)
{
    return result_of(pthread_mutex_trylock(mutex_of(it)));
}

int mtx_unlock(mtx_t *it)
{
    return result_of(pthread_mutex_unlock(mutex_of(it)));
}

int cnd_wait(cnd_t *it, mtx_t *mutex)
{
    return result_of(pthread_cond_wait(cond_of(it), mutex_of(mutex)));
}

int cnd_timedwait(cnd_t *it, mtx_t *mutex, const struct timespec *until)
{
    return result_of(pthread_cond_timedwait(cond_of(it), mutex_of(mutex), until));
}

int cnd_signal(cnd_t *it)
{
    return result_of(pthread_cond_signal(cond_of(it)));
}

int cnd_broadcast(cnd_t *it)
{
    return result_of(pthread_cond_broadcast(cond_of(it)));
}
