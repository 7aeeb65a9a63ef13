/* readers WAY [right]: a producer holds a lock while it puts a job into a queue, and a consumer,
 * which has some work before, takes the lock and looks for the job. What fails needs the consumer
 * to be first (read), to try while the lock is held (try), or to wait too long for it (timed). */
#include "short.h"

#include <errno.h>

static mqd_t jobs, other;
static pthread_rwlock_t config = PTHREAD_RWLOCK_INITIALIZER;
static pthread_mutex_t mutex = PTHREAD_MUTEX_INITIALIZER;
static int is_right;

static void work(int count)
{
    for (int i = 0; i < count; ++i)
        held(other);
}

static void fail(const char *why)
{
    if (is_right)
        return;
    puts(why);
    fflush(stdout);
    abort();
}

static void *produce(void *of)
{
    pthread_rwlock_rdlock(&config);
    put(jobs, 'j');
    pthread_rwlock_unlock(&config);
    return of;
}

static void *consume(void *of)
{
    work(14);
    pthread_rwlock_rdlock(&config);
    if (held(jobs) == 0)
        fail("no job yet");
    pthread_rwlock_unlock(&config);
    return of;
}

static void *write_job(void *of)
{
    pthread_rwlock_wrlock(&config);
    put(jobs, 'j');
    pthread_rwlock_unlock(&config);
    return of;
}

static void *try_to_read(void *of)
{
    work(14);
    if (pthread_rwlock_tryrdlock(&config) != 0)
        fail("it is busy");
    else
        pthread_rwlock_unlock(&config);
    return of;
}

static void *put_and_lock(void *of)
{
    put(jobs, 'j');
    pthread_mutex_lock(&mutex);
    pthread_mutex_unlock(&mutex);
    return of;
}

static void *lock_in_time(void *of)
{
    const long first = held(jobs);
    struct timespec until;
    long second;
    work(12);
    second = held(jobs);
    clock_gettime(CLOCK_REALTIME, &until);
    until.tv_sec += 1;
    if (pthread_mutex_timedlock(&mutex, &until) == 0)
        pthread_mutex_unlock(&mutex);
    else if (first == 0 && second == 1)
        fail("it took too long");
    return of;
}

int main(int count, char **words)
{
    const char *way = count > 1 ? words[1] : "";
    pthread_t them[2];
    is_right = count > 2;
    jobs = fresh("/jobs", 4);
    other = fresh("/other", 4);
    if (strcmp(way, "read") == 0) {
        them[0] = go(produce, 0);
        them[1] = go(consume, 0);
    } else if (strcmp(way, "try") == 0) {
        them[0] = go(write_job, 0);
        them[1] = go(try_to_read, 0);
    } else if (strcmp(way, "timed") == 0) {
        them[0] = go(put_and_lock, 0);
        them[1] = go(lock_in_time, 0);
    } else {
        return 2;
    }
    join(them, 2);
    puts("done");
    return 0;
}
