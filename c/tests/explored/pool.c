/* pool WORKERS JOBS [wrong]: a pool whose workers steal. The jobs begin in the first worker's
 * queue; a worker takes from its own, and then from the others' without waiting, until it finds
 * none. The first job has a child, which goes into the queue of the worker that does it. If wrong,
 * a worker looks whether there is a job, and then waits for it, which somebody else may have taken:
 * it deadlocks with one preemption. */
#include "short.h"

static mqd_t queues[8];
static pthread_mutex_t lock = PTHREAD_MUTEX_INITIALIZER;
static int workers, done, is_wrong;

/* A job out of one of the queues, or 0. */
static char find_job(long me)
{
    char buf[8];
    for (int i = 0; i < workers; ++i) {
        const mqd_t from = queues[(me + i) % workers];
        if (is_wrong && held(from) == 0)
            continue;
        if (mq_receive(from, buf, sizeof buf, 0) >= 0)
            return buf[0];
    }
    return 0;
}

static void *work(void *of)
{
    const long me = (long)of;
    for (char job; (job = find_job(me)) != 0;) {
        if (job == 'p')
            put(queues[me], 'c');
        pthread_mutex_lock(&lock);
        ++done;
        pthread_mutex_unlock(&lock);
    }
    return 0;
}

int main(int count, char **words)
{
    const int jobs = number(count, words, 2, 2);
    struct mq_attr attr = {0};
    pthread_t them[8];
    workers = number(count, words, 1, 2);
    is_wrong = count > 3;
    attr.mq_flags = is_wrong ? 0 : O_NONBLOCK;
    for (int i = 0; i < workers; ++i) {
        queues[i] = fresh_one("/worker", i, 8);
        mq_setattr(queues[i], &attr, 0);
    }
    for (int i = 0; i < jobs; ++i)
        put(queues[0], i == 0 ? 'p' : 'j');
    for (int i = 0; i < workers; ++i)
        them[i] = go(work, i);
    join(them, workers);
    printf("%d of %d done\n", done, jobs + 1);
    return done != jobs + 1;
}
