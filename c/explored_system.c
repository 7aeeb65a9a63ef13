/* The names that the machine takes in libyakyrombe-seed and libyakyrombe-explore alone: futexes, by
 * which Rust's threads wait, looks at semaphores, timers, what is not seen, and _exit. */
#define _GNU_SOURCE
#include "machine.h"
#include "the_program.h"

#include <linux/futex.h>
#include <stdarg.h>
#include <sys/eventfd.h>
#include <sys/socket.h>
#include <sys/syscall.h>
#include <sys/time.h>
#include <sys/timerfd.h>
#include <unistd.h>

/* A word of the library itself is none of the program's. */
static bool is_own(const void *word)
{
    const char *at = word, *from = (const char *)program_at;
    return from != 0 && at >= from && at < from + the_program.arena.size;
}

static long futex_wait(uint32_t *word, uint32_t value, const struct timespec *until)
{
    machine_op op;
    seat *here = machine_seat();
    bool is_well;
    machine_acts(STEP_FUTEXWAIT, word, 0);
    if (__atomic_load_n(word, __ATOMIC_SEQ_CST) != value) {
        machine_gave(EAGAIN, 0);
        return machine_fails(EAGAIN);
    }
    op = machine_op_on(STEP_WAKE, word, until);
    here->told = 0;
    is_well = machine_act(&op) && (here->told != 0 || (op.flags & YAK_TRY) == 0);
    machine_gave(is_well ? 0 : ETIMEDOUT, here->told - 1);
    here->told = 0;
    return is_well ? 0 : machine_fails(ETIMEDOUT);
}

static long futex_wake(uint32_t *word, unsigned most)
{
    machine_op op = machine_op_on(STEP_FUTEXWAKE, word, 0);
    op.arg = most == 1;
    machine_act(&op);
    return machine_tell(word, most);
}

/* What a futex call is if it is one that the machine knows. */
static bool is_known_futex(int how)
{
    return how == FUTEX_WAIT || how == FUTEX_WAIT_BITSET || how == FUTEX_WAKE;
}

static long futex(uint32_t *word, int how, uint32_t value, const struct timespec *time)
{
    struct timespec until;
    if (how == FUTEX_WAKE)
        return futex_wake(word, value);
    if (time == 0)
        return futex_wait(word, value, 0);
    until = how == FUTEX_WAIT_BITSET ? *time : machine_later(time);
    return futex_wait(word, value, &until);
}

long syscall(long number, ...)
{
    va_list rest;
    long with[6];
    va_start(rest, number);
    for (int i = 0; i < 6; ++i)
        with[i] = va_arg(rest, long);
    va_end(rest);
    if (number == SYS_futex && the_machine.is_on && !is_own((void *)with[0])) {
        const int how = (int)with[1] & ~(FUTEX_PRIVATE_FLAG | FUTEX_CLOCK_REALTIME);
        if (!is_known_futex(how))
            machine_misses(UNSEEN_FUTEXES);
        if (is_known_futex(how) && machine_decides())
            return futex((uint32_t *)with[0], how, (uint32_t)with[2],
                         (const struct timespec *)with[3]);
    }
    return YAK_REAL(syscall)(number, with[0], with[1], with[2], with[3], with[4], with[5]);
}

/* ---- locks that spin, which here wait as others ---- */

int pthread_spin_lock(pthread_spinlock_t *lock)
{
    if (!machine_decides())
        return YAK_REAL(pthread_spin_lock)(lock);
    machine_acts(STEP_SPINLOCK, (const void *)lock, 0);
    return YAK_REAL(pthread_spin_trylock)(lock);
}

int pthread_spin_trylock(pthread_spinlock_t *lock)
{
    int error;
    if (machine_decides())
        machine_acts(STEP_SPINTRY, (const void *)lock, 0);
    error = YAK_REAL(pthread_spin_trylock)(lock);
    machine_gave(error, 0);
    return error;
}

int pthread_spin_unlock(pthread_spinlock_t *lock)
{
    if (machine_decides())
        machine_acts(STEP_SPINUNLOCK, (const void *)lock, 0);
    return YAK_REAL(pthread_spin_unlock)(lock);
}

/* ---- looks at semaphores ---- */

int sem_getvalue(sem_t *sem, int *value)
{
    if (machine_decides())
        machine_acts(STEP_SEMVALUE, sem, 0);
    return YAK_REAL(sem_getvalue)(sem, value);
}

/* ---- timers, which run by the time of the system ---- */

int timer_create(clockid_t clock, struct sigevent *event, timer_t *timer)
{
    machine_misses(UNSEEN_TIMERS);
    return YAK_REAL(timer_create)(clock, event, timer);
}

int setitimer(__itimer_which_t which, const struct itimerval *now, struct itimerval *before)
{
    machine_misses(UNSEEN_TIMERS);
    return YAK_REAL(setitimer)(which, now, before);
}

unsigned alarm(unsigned seconds)
{
    machine_misses(UNSEEN_TIMERS);
    return YAK_REAL(alarm)(seconds);
}

/* ---- what is not seen, but known to be there ---- */

int timerfd_create(int clock, int flags)
{
    machine_misses(UNSEEN_TIMERS);
    return YAK_REAL(timerfd_create)(clock, flags);
}

int pipe(int ends[2])
{
    machine_misses(UNSEEN_PIPES);
    return YAK_REAL(pipe)(ends);
}

int pipe2(int ends[2], int flags)
{
    machine_misses(UNSEEN_PIPES);
    return YAK_REAL(pipe2)(ends, flags);
}

int socketpair(int family, int type, int protocol, int ends[2])
{
    machine_misses(UNSEEN_PIPES);
    return YAK_REAL(socketpair)(family, type, protocol, ends);
}

int eventfd(unsigned value, int flags)
{
    machine_misses(UNSEEN_PIPES);
    return YAK_REAL(eventfd)(value, flags);
}

/* ---- the end of the program ---- */

void _exit(int status)
{
    machine_exits(status);
    machine_quit(status);
}

void _Exit(int status) __attribute__((alias("_exit")));
