/* ways WAY: two or three threads that wait for one another in one of the ways that the explorer
 * knows. checks/explored says how each can end. */
#include "short.h"

#include <errno.h>
#include <limits.h>
#include <linux/futex.h>
#include <sched.h>
#include <semaphore.h>
#include <sys/syscall.h>
#include <unistd.h>

static pthread_mutex_t lock = PTHREAD_MUTEX_INITIALIZER;
static pthread_cond_t cond = PTHREAD_COND_INITIALIZER;
static pthread_rwlock_t shared = PTHREAD_RWLOCK_INITIALIZER;
static pthread_barrier_t barrier;
static pthread_once_t once = PTHREAD_ONCE_INIT;
static sem_t semaphore;
static unsigned word;
static mqd_t queue;
static char said[16];
static int value;

static struct timespec in_a_second(void)
{
    struct timespec it;
    clock_gettime(CLOCK_REALTIME, &it);
    it.tv_sec += 1;
    return it;
}

/* A send is where another thread may go on. */
static void say(char c)
{
    put(queue, c);
}

static void *hold_for_a_while(void *of)
{
    pthread_mutex_lock(&lock);
    say('a');
    pthread_mutex_unlock(&lock);
    return of;
}

static void try_lock(void)
{
    if (pthread_mutex_trylock(&lock) == 0) {
        say('t');
        pthread_mutex_unlock(&lock);
    } else {
        say('-');
    }
}

static void lock_with_deadline(void)
{
    const struct timespec until = in_a_second();
    if (pthread_mutex_timedlock(&lock, &until) == 0) {
        say('t');
        pthread_mutex_unlock(&lock);
    } else {
        say('-');
    }
}

static void *signal_value(void *of)
{
    pthread_mutex_lock(&lock);
    value = 1;
    pthread_cond_signal(&cond);
    pthread_mutex_unlock(&lock);
    return of;
}

static void await_value(void)
{
    const struct timespec until = in_a_second();
    int error = 0;
    pthread_mutex_lock(&lock);
    while (value == 0 && error == 0)
        error = pthread_cond_timedwait(&cond, &lock, &until);
    pthread_mutex_unlock(&lock);
    say(error == ETIMEDOUT ? '-' : 't');
}

static void *write_shared(void *of)
{
    pthread_rwlock_wrlock(&shared);
    value = 1;
    say('w');
    value = 2;
    pthread_rwlock_unlock(&shared);
    return of;
}

static void read_shared(void)
{
    pthread_rwlock_rdlock(&shared);
    say((char)('0' + value));
    pthread_rwlock_unlock(&shared);
}

static void *meet(void *of)
{
    say('m');
    if (pthread_barrier_wait(&barrier) == PTHREAD_BARRIER_SERIAL_THREAD)
        ++value;
    say('n');
    return of;
}

static void *meet_nobody(void *of)
{
    pthread_setname_np(pthread_self(), "lonely");
    pthread_barrier_wait(&barrier);
    return of;
}

static void say_nothing(void)
{
}

/* What a wait without a loop round it tells. */
static void await_once(void)
{
    pthread_mutex_lock(&lock);
    if (value == 0)
        pthread_cond_wait(&cond, &lock);
    say(value == 0 ? '-' : 't');
    pthread_mutex_unlock(&lock);
}

static void await_post(void)
{
    say(sem_wait(&semaphore) == 0 ? 't' : '-');
}

static void *sleep_once(void *of)
{
    say(usleep(1000) == 0 ? 's' : '-');
    return of;
}

/* One thread holds a lock that spins, and another takes it, or tries. */
static pthread_spinlock_t spinning;

static void *hold_spinning(void *of)
{
    pthread_spin_lock(&spinning);
    say('h');
    pthread_spin_unlock(&spinning);
    return of;
}

static void take_spinning(void)
{
    pthread_spin_lock(&spinning);
    say('t');
    pthread_spin_unlock(&spinning);
}

static void try_spinning(void)
{
    if (pthread_spin_trylock(&spinning) == 0) {
        pthread_spin_unlock(&spinning);
        say('t');
    } else {
        say('-');
    }
}

/* Whether there was memory. */
static void *allocate(void *of)
{
    char *volatile memory = malloc(8);
    say(memory != 0 ? 'm' : '-');
    free(memory);
    return of;
}

static void begin_once(void)
{
    ++value;
    say('o');
}

static void *do_once(void *of)
{
    pthread_once(&once, begin_once);
    say('d');
    return of;
}

static void *post(void *of)
{
    say('p');
    sem_post(&semaphore);
    return of;
}

static void try_semaphore(void)
{
    say(sem_trywait(&semaphore) == 0 ? 't' : '-');
}

static void await_semaphore(void)
{
    const struct timespec until = in_a_second();
    say(sem_timedwait(&semaphore, &until) == 0 ? 't' : '-');
}

static void *sleep_and_say(void *of)
{
    usleep(1000);
    say('s');
    return of;
}

static void *receive_for_ever(void *of)
{
    const mqd_t empty = fresh("/empty", 1);
    get(empty);
    return of;
}

static void cancel(pthread_t thread)
{
    void *ended = 0;
    pthread_cancel(thread);
    pthread_join(thread, &ended);
    say(ended == PTHREAD_CANCELED ? 'c' : '-');
}

static void *wake_word(void *of)
{
    __atomic_store_n(&word, 1, __ATOMIC_SEQ_CST);
    syscall(SYS_futex, &word, FUTEX_WAKE_PRIVATE, 1, 0, 0, 0);
    return of;
}

static void await_word(void)
{
    while (__atomic_load_n(&word, __ATOMIC_SEQ_CST) == 0)
        syscall(SYS_futex, &word, FUTEX_WAIT_PRIVATE, 0, 0, 0, 0);
    say('t');
}

static void *yield_to_all(void *of)
{
    while (__atomic_load_n(&word, __ATOMIC_SEQ_CST) == 0)
        sched_yield();
    return of;
}

static void yield_and_tell(void)
{
    sched_yield();
    __atomic_store_n(&word, 1, __ATOMIC_SEQ_CST);
}

static void *end_program(void *of)
{
    (void)of;
    exit(0);
}

static void lock_twice(void)
{
    pthread_mutex_lock(&lock);
    pthread_mutex_lock(&lock);
}

static void lock_recursively(void)
{
    pthread_mutexattr_t kind;
    pthread_mutexattr_init(&kind);
    pthread_mutexattr_settype(&kind, PTHREAD_MUTEX_RECURSIVE);
    pthread_mutex_init(&lock, &kind);
    pthread_mutex_lock(&lock);
    pthread_mutex_lock(&lock);
    pthread_mutex_unlock(&lock);
    pthread_mutex_unlock(&lock);
    say('r');
}

static void say_m(void)
{
    say('M');
}

/* What the first thread does beside the second. */
static const struct way {
    const char *name;
    void *(*other)(void *);
    void (*here)(void);
} ways[] = {
    {"trylock", hold_for_a_while, try_lock},
    {"timedlock", hold_for_a_while, lock_with_deadline},
    {"timedwait", signal_value, await_value},
    {"rwlock", write_shared, read_shared},
    {"semtry", post, try_semaphore},
    {"semtime", post, await_semaphore},
    {"sleep", sleep_and_say, say_m},
    {"futex", wake_word, await_word},
    {"exit", end_program, say_m},
    {"yield", yield_to_all, yield_and_tell},
    {"twice", hold_for_a_while, lock_twice},
    {"alone", meet_nobody, say_nothing},
    {"once-waited", signal_value, await_once},
    {"once-posted", post, await_post},
    {"once-slept", sleep_once, say_nothing},
    {"allocates", allocate, say_nothing},
    {"spin", hold_spinning, take_spinning},
    {"spintry", hold_spinning, try_spinning},
    {"recursive", sleep_and_say, lock_recursively},
};

static void end(void)
{
    struct mq_attr attr = {.mq_flags = O_NONBLOCK};
    mq_setattr(queue, &attr, 0);
    for (int i = 0; mq_receive(queue, &said[i], 8, 0) >= 0;)
        i += 1;
    puts(said);
}

static int run_two(const struct way *way)
{
    pthread_t other = go(way->other, 0);
    way->here();
    pthread_join(other, 0);
    end();
    return 0;
}

int main(int count, char **words)
{
    const char *name = count > 1 ? words[1] : "";
    pthread_t them[2];
    queue = fresh("/said", 8);
    sem_init(&semaphore, 0, 0);
    pthread_barrier_init(&barrier, 0, 2);
    pthread_spin_init(&spinning, PTHREAD_PROCESS_PRIVATE);
    for (unsigned i = 0; i < sizeof ways / sizeof ways[0]; ++i)
        if (strcmp(ways[i].name, name) == 0)
            return run_two(&ways[i]);
    if (strcmp(name, "cancel") == 0) {
        cancel(go(receive_for_ever, 0));
    } else if (strcmp(name, "barrier") == 0 || strcmp(name, "once") == 0) {
        for (int i = 0; i < 2; ++i)
            them[i] = go(*name == 'b' ? meet : do_once, 0);
        join(them, 2);
        if (value != 1)
            abort();
    } else {
        return 2;
    }
    end();
    return 0;
}
