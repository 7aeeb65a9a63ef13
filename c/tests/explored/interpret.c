/* interpret ROOM WORD..: a thread for each word, which makes the operations of its letters, each on
 * the object of the digit behind it. Prints what each thread was told, and what the queues hold.
 * checks/explored makes such words at random (checks/random_programs.py has the letters). With C11
 * defined, threads, mutexes and conditions are those of <threads.h>. */
#include "short.h"

#include <sched.h>
#include <semaphore.h>
#include <signal.h>
#include <unistd.h>

#ifdef C11
#include <threads.h>
#define pthread_t thrd_t
#define pthread_mutex_t mtx_t
#define pthread_mutex_init(it, none) mtx_init(it, mtx_timed)
#define pthread_mutex_lock mtx_lock
#define pthread_mutex_trylock mtx_trylock
#define pthread_mutex_timedlock mtx_timedlock
#define pthread_mutex_unlock mtx_unlock
#define pthread_cond_t cnd_t
#define pthread_cond_init(it, none) cnd_init(it)
#define pthread_cond_wait cnd_wait
#define pthread_cond_timedwait cnd_timedwait
#define pthread_cond_signal cnd_signal
#define pthread_cond_broadcast cnd_broadcast
#endif

enum { THREADS = 8, OBJECTS = 2 };

static mqd_t queues[OBJECTS], shy[OBJECTS]; /* the same queues, by descriptions that do not block */
static pthread_mutex_t locks[OBJECTS];
static pthread_cond_t conds[OBJECTS];
static pthread_rwlock_t shared[OBJECTS];
static pthread_barrier_t barriers[OBJECTS];
static pthread_once_t onces[OBJECTS];
static sem_t sems[OBJECTS];
static char **words;

/* What a thread was told, and what it sends next. */
typedef struct telling {
    char said[64];
    unsigned count;
    char next;
} telling;

static telling tellings[THREADS];

static struct timespec in_a_second(void)
{
    struct timespec it;
    clock_gettime(CLOCK_REALTIME, &it);
    it.tv_sec += 1;
    return it;
}

static char send_to(mqd_t queue, telling *of, unsigned prio, const struct timespec *until)
{
    const char c = of->next++;
    const int failed =
        until != 0 ? mq_timedsend(queue, &c, 1, prio, until) : mq_send(queue, &c, 1, prio);
    return failed != 0 ? '-' : '+';
}

static char receive_from(mqd_t queue, const struct timespec *until)
{
    char buf[8];
    const ssize_t len = until != 0 ? mq_timedreceive(queue, buf, sizeof buf, 0, until)
                                   : mq_receive(queue, buf, sizeof buf, 0);
    return len < 0 ? '-' : buf[0];
}

static char try_lock(int i)
{
    if (pthread_mutex_trylock(&locks[i]) != 0)
        return '-';
    pthread_mutex_unlock(&locks[i]);
    return 'y';
}

static char lock_until(int i)
{
    const struct timespec until = in_a_second();
    if (pthread_mutex_timedlock(&locks[i], &until) != 0)
        return '-';
    pthread_mutex_unlock(&locks[i]);
    return 'm';
}

/* A read lock or a write lock that is given back at once, if there is one. */
static char lock_shared(char letter, int i)
{
    const struct timespec until = in_a_second();
    int error;
    if (letter == 'i')
        error = pthread_rwlock_tryrdlock(&shared[i]);
    else if (letter == 'j')
        error = pthread_rwlock_trywrlock(&shared[i]);
    else if (letter == 'h')
        error = pthread_rwlock_timedrdlock(&shared[i], &until);
    else
        error = pthread_rwlock_timedwrlock(&shared[i], &until);
    if (error != 0)
        return '-';
    pthread_rwlock_unlock(&shared[i]);
    return letter;
}

static char await_until(int i)
{
    const struct timespec until = in_a_second();
    int error;
    pthread_mutex_lock(&locks[0]);
    error = pthread_cond_timedwait(&conds[i], &locks[0], &until);
    pthread_mutex_unlock(&locks[0]);
    return error != 0 ? '-' : 'C';
}

static char await_semaphore(int i)
{
    const struct timespec until = in_a_second();
    return sem_timedwait(&sems[i], &until) == 0 ? 'z' : '-';
}

static void set_flags(int i, long flags)
{
    const struct mq_attr attr = {.mq_flags = flags};
    if (mq_setattr(queues[i], &attr, 0) != 0)
        abort();
}

/* ---- threads that do one thing, and what else can be done ---- */

static void *post(void *of)
{
    sem_post(of);
    return 0;
}

static void post_at_notice(union sigval value)
{
    sem_post(value.sival_ptr);
}

static char ask_for_notice(int i)
{
    struct sigevent event = {
        .sigev_notify = SIGEV_THREAD,
        .sigev_notify_function = post_at_notice,
        .sigev_value.sival_ptr = &sems[i],
    };
    return mq_notify(queues[i], &event) == 0 ? 'D' : '-';
}

static void post_once(void)
{
    sem_post(&sems[0]);
}

#ifdef C11
static void start(void *(*run)(void *), void *with)
{
    run(with);
}
#else
static void start(void *(*run)(void *), void *with)
{
    pthread_detach(go(run, (long)with));
}
#endif

static char use_rest(char letter, int i)
{
    switch (letter) {
    case 'e':
        exit(3);
    case 'o':
        pthread_once(&onces[i], post_once);
        return 0;
    case 'Y':
        sched_yield();
        return 0;
    case 'M':
        return pthread_barrier_wait(&barriers[i]) != 0 ? 'M' : 'B';
    case 'd':
        usleep(1000);
        return 0;
    case 'P':
        start(post, &sems[i]);
        return 0;
    default:
        return ask_for_notice(i);
    }
}

static char await(int i)
{
    pthread_mutex_lock(&locks[0]);
    pthread_cond_wait(&conds[i], &locks[0]);
    pthread_mutex_unlock(&locks[0]);
    return 'c';
}

/* What a thread is told by an operation on queues; 0 if nothing. */
static char use_queue(char letter, int i, telling *of)
{
    struct timespec until;
    switch (letter) {
    case 's':
        send_to(queues[i], of, 0, 0);
        return 0;
    case 'S':
        send_to(queues[i], of, 1, 0);
        return 0;
    case 'N':
        return send_to(shy[i], of, 0, 0);
    case 'T':
        until = in_a_second();
        return send_to(queues[i], of, 0, &until);
    case 'r':
        return receive_from(queues[i], 0);
    case 'n':
        return receive_from(shy[i], 0);
    case 't':
        until = in_a_second();
        return receive_from(queues[i], &until);
    case 'f':
        set_flags(i, O_NONBLOCK);
        return 0;
    case 'F':
        set_flags(i, 0);
        return 0;
    case 'x':
        if (held(queues[i]) != 0)
            abort();
        return 0;
    default:
        return (char)('0' + held(queues[i]));
    }
}

/* The same by others. */
static char use_other(char letter, int i)
{
    switch (letter) {
    case 'l':
        pthread_mutex_lock(&locks[i]);
        return 0;
    case 'u':
        pthread_mutex_unlock(&locks[i]);
        return 0;
    case 'y':
        return try_lock(i);
    case 'e':
    case 'o':
    case 'Y':
    case 'M':
    case 'd':
    case 'P':
    case 'D':
        return use_rest(letter, i);
    case 'm':
        return lock_until(i);
    case 'R':
        pthread_rwlock_rdlock(&shared[i]);
        return 0;
    case 'W':
        pthread_rwlock_wrlock(&shared[i]);
        return 0;
    case 'U':
        pthread_rwlock_unlock(&shared[i]);
        return 0;
    case 'i':
    case 'j':
    case 'h':
    case 'v':
        return lock_shared(letter, i);
    case 'C':
        return await_until(i);
    case 'z':
        return await_semaphore(i);
    case 'w':
        sem_wait(&sems[i]);
        return 0;
    case 'p':
        sem_post(&sems[i]);
        return 0;
    case 'q':
        return sem_trywait(&sems[i]) == 0 ? 'q' : '-';
    case 'c':
        return await(i);
    case 'k':
        pthread_cond_signal(&conds[i]);
        return 0;
    default:
        pthread_cond_broadcast(&conds[i]);
        return 0;
    }
}

static void *work(void *of)
{
    telling *it = &tellings[(long)of];
    it->next = (char)('a' + 6 * (long)of);
    for (const char *at = words[(long)of]; *at != 0; at += 2) {
        const char told = strchr("sSNTrntgfFx", *at) != 0 ? use_queue(*at, at[1] - '0', it)
                                                          : use_other(*at, at[1] - '0');
        if (told != 0)
            it->said[it->count++] = told;
    }
    return 0;
}

#ifdef C11
static int work_too(void *of)
{
    work(of);
    return 0;
}
#endif

static pthread_t begin(long i)
{
#ifdef C11
    thrd_t it;
    if (thrd_create(&it, work_too, (void *)i) != thrd_success)
        abort();
    return it;
#else
    return go(work, i);
#endif
}

static void await_all(pthread_t *them, int threads)
{
#ifdef C11
    for (int i = 0; i < threads; ++i)
        thrd_join(them[i], 0);
#else
    join(them, threads);
#endif
}

int main(int count, char **arguments)
{
    const int threads = count - 2;
    pthread_t them[THREADS];
    for (int i = 0; i < OBJECTS; ++i) {
        char name[] = "/queue-0";
        name[sizeof name - 2] = (char)('0' + i);
        queues[i] = fresh(name, number(count, arguments, 1, 1));
        shy[i] = mq_open(name, O_RDWR | O_NONBLOCK);
        pthread_mutex_init(&locks[i], 0);
        pthread_cond_init(&conds[i], 0);
        pthread_rwlock_init(&shared[i], 0);
        pthread_barrier_init(&barriers[i], 0, 2);
        sem_init(&sems[i], 0, 1);
    }
    words = arguments + 2;
    for (int i = 0; i < threads && i < THREADS; ++i)
        them[i] = begin(i);
    await_all(them, threads);
    for (int i = 0; i < threads; ++i)
        printf("%s,", tellings[i].said);
    for (int i = 0; i < OBJECTS; ++i) {
        putchar(' ');
        for (char c; (c = receive_from(shy[i], 0)) != '-';)
            putchar(c);
    }
    putchar('\n');
    return 0;
}
