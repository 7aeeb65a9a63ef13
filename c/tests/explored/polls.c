/* polls WAY: a thread polls without a pause until another has sent a message (queue) or stored a
 * value (word, yield), or takes a lock by tries (try, flag). Each ends under every fair schedule.
 * With `never` nobody sends; `hasty` takes it that a yield lets the other send. */
#include "short.h"

#include <errno.h>
#include <sched.h>
#include <stdatomic.h>

static mqd_t queue;
static atomic_int word;
static atomic_flag flag = ATOMIC_FLAG_INIT;
static pthread_mutex_t lock = PTHREAD_MUTEX_INITIALIZER;

static void *send_one(void *of)
{
    put(queue, 'm');
    return of;
}

static void *store(void *of)
{
    atomic_store(&word, 1);
    return of;
}

static void *hold(void *of)
{
    pthread_mutex_lock(&lock);
    put(queue, 'm');
    pthread_mutex_unlock(&lock);
    return of;
}

static void *spin(void *of)
{
    while (atomic_flag_test_and_set(&flag))
        ;
    atomic_flag_clear(&flag);
    return of;
}

static void *nothing(void *of)
{
    return of;
}

static void receive(void)
{
    char bytes[8];
    while (mq_receive(queue, bytes, sizeof bytes, 0) < 0)
        if (errno != EAGAIN)
            abort();
}

int main(int count, char **words)
{
    const char *way = count > 1 ? words[1] : "";
    struct mq_attr attr = {.mq_flags = O_NONBLOCK};
    pthread_t other;
    queue = fresh("/polls", 4);
    mq_setattr(queue, &attr, 0);
    if (strcmp(way, "queue") == 0) {
        other = go(send_one, 0);
        receive();
    } else if (strcmp(way, "never") == 0) {
        other = go(nothing, 0);
        receive();
    } else if (strcmp(way, "word") == 0) {
        other = go(store, 0);
        while (atomic_load(&word) == 0)
            ;
    } else if (strcmp(way, "yield") == 0) {
        other = go(store, 0);
        while (atomic_load(&word) == 0)
            sched_yield();
    } else if (strcmp(way, "hasty") == 0) {
        other = go(send_one, 0);
        sched_yield();
        get(queue);
    } else if (strcmp(way, "flag") == 0) {
        other = go(spin, 0);
        spin(0);
    } else if (strcmp(way, "try") == 0) {
        other = go(hold, 0);
        while (pthread_mutex_trylock(&lock) != 0)
            ;
        pthread_mutex_unlock(&lock);
    } else {
        return 2;
    }
    pthread_join(other, 0);
    return 0;
}
