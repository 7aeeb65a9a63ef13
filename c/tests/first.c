/* Who has waited for the lock for long is first. The steps are forced: this file is linked with
 * c/lock.c alone and with --wrap=syscall, and stands in for what lock.c calls.
 *   - A thread that cannot acquire the lock says that it starves, while it tries and not while it
 *     sleeps.
 *   - Who releases the lock meanwhile acquires it again only after the one that starves.
 *   - If that one is dead, the others go on, and nobody is held back again. */
#define _GNU_SOURCE
#include "log.h"

#include <linux/futex.h>
#include <stdarg.h>
#include <sys/syscall.h>
#include <unistd.h>

#include "want.h"

long __wrap_syscall(long number, ...);
long __real_syscall(long number, ...);

static program own;
program *program_at = &own;
here *program_here;
bool program_is_apart;
_Thread_local own_thread program_thread;

/* What the thread that sleeps for the lock meets: another thread that holds it, one that starves
 * and comes inside, or one that is dead. */
static enum { HOLDER, COMES_INSIDE, IS_DEAD } meets;
enum { OTHER = 1 }; /* a thread that always lives */
static _Atomic int sleeps, wakes, insides;

/* ---- what lock.c calls ---- */

void arena_follow(void)
{
}

bool log_checkpoint(void)
{
    return true;
}

bool log_replay(void)
{
    return true;
}

void program_come_to_family(void)
{
}

int program_first(void)
{
    return 0;
}

bool program_is_alone(void)
{
    return true;
}

bool program_is_left_alone(void)
{
    return true;
}

void program_mend(void)
{
}

bool program_shares(void)
{
    return false;
}

void program_sweep(void)
{
}

void program_tell(const char *what)
{
    (void)what;
}

void program_wake_them(uint32_t answered)
{
    (void)answered;
}

void yak_wake_on_(yak_word_ word, int most)
{
    (void)word, (void)most;
    atomic_fetch_add(&wakes, 1);
}

/* No sleep lasts. */
long __wrap_syscall(long number, ...)
{
    const int count = number == SYS_futex ? 6 : number == SYS_get_robust_list ? 3 : 0;
    long a[6] = {0};
    va_list rest;
    va_start(rest, number);
    for (int i = 0; i < count; ++i)
        a[i] = va_arg(rest, long);
    va_end(rest);
    if (number != SYS_futex || (a[1] & FUTEX_CMD_MASK) != FUTEX_WAIT)
        return __real_syscall(number, a[0], a[1], a[2], a[3], a[4], a[5]);
    atomic_fetch_add(&sleeps, 1);
    if (meets == HOLDER) {
        WANT(__atomic_load_n(&own.starving, __ATOMIC_SEQ_CST) != program_thread.number);
    } else {
        WANT((int)a[2] == (int)FUTEX_WAITERS && *PROGRAM_WORD == (int)FUTEX_WAITERS);
        WANT(own.starving == OTHER);
        if (meets == COMES_INSIDE) {
            own.starving = 0;
            *PROGRAM_WORD = 0;
            atomic_fetch_add(&insides, 1);
            return 0;
        }
    }
    errno = ETIMEDOUT;
    return -1;
}

/* ---- the tests ---- */

static void enter(void)
{
    WANT(program_lock() == 0 && program_holds_lock());
}

/* The other thread holds the lock until this one says that it starves. */
static void *leave_once_it_starves(void *number)
{
    while (__atomic_load_n(&own.starving, __ATOMIC_SEQ_CST) != *(int *)number)
        ;
    __atomic_store_n(PROGRAM_WORD, (int)FUTEX_WAITERS, __ATOMIC_SEQ_CST);
    return 0;
}

static void starves(void)
{
    pthread_t holder;
    int number;
    enter();
    program_leave();
    number = program_thread.number;
    *PROGRAM_WORD = OTHER;
    meets = HOLDER;
    pthread_create(&holder, 0, leave_once_it_starves, &number);
    enter();
    pthread_join(holder, 0);
    WANT(sleeps != 0 && own.starving == 0);
    program_leave();
}

static void lets_in(bool comes)
{
    enter();
    meets = comes ? COMES_INSIDE : IS_DEAD;
    sleeps = wakes = insides = 0;
    own.starving = OTHER;
    *PROGRAM_WORD |= (int)FUTEX_WAITERS;
    program_leave();
    WANT(*PROGRAM_WORD == (int)FUTEX_WAITERS && wakes == 0);
    enter();
    WANT(sleeps == 1 && insides == comes && own.starving == 0);
    program_leave();
    WANT(*PROGRAM_WORD == 0 && wakes == 1);
    enter();
    program_leave();
    WANT(sleeps == 1 && wakes == 1);
}

int main(void)
{
    alarm(60);
    starves();
    lets_in(true);
    lets_in(false);
    puts("well");
    return 0;
}
