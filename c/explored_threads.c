/* The names of the system that the machine takes: threads, and what they wait for. Each parks, and
 * then makes the call, which never waits then. */
#define _GNU_SOURCE
#include "machine.h"

#include <limits.h>
#include <stdlib.h>
#include <sys/syscall.h>
#include <unistd.h>

/* ---- threads ---- */

typedef struct beginning {
    void *(*run)(void *);
    void *with;
    seat *seat;
} beginning;

static void *run_thread(void *of)
{
    const beginning it = *(beginning *)of;
    free(of);
    machine_sit_down(it.seat, false);
    return it.run(it.with);
}

/* Waits until the threads that have ended are gone, so that their stacks are found again in the
 * same order in each run. */
static void await_ended(void)
{
    for (unsigned i = 0; the_machine.seed == 0 && i < the_machine.used; ++i) {
        const seat *it = &the_machine.seats[i];
        for (unsigned tries = 0; it->state == SEAT_OUT && tries < 1000; ++tries) {
            if (tgkill(getpid(), it->tid, 0) != 0)
                break;
            YAK_REAL(sched_yield)();
        }
    }
}

/* Another thread of this name has ended. */
static void forget_earlier(const seat *it)
{
    for (unsigned i = 0; i < the_machine.used; ++i)
        if (&the_machine.seats[i] != it && pthread_equal(the_machine.seats[i].thread, it->thread))
            the_machine.seats[i].is_joined = true;
}

int pthread_create(pthread_t *thread, const pthread_attr_t *attr, void *(*run)(void *), void *with)
{
    beginning *it;
    seat *new;
    int error;
    if (!machine_decides())
        return YAK_REAL(pthread_create)(thread, attr, run, with);
    machine_begin_choices();
    await_ended();
    if ((it = malloc(sizeof *it)) == 0)
        return EAGAIN;
    if ((new = machine_add_seat()) == 0) {
        free(it);
        return EAGAIN;
    }
    *it = (beginning){.run = run, .with = with, .seat = new};
    error = YAK_REAL(pthread_create)(&new->thread, attr, run_thread, it);
    if (error != 0) {
        machine_drop_seat(new);
        free(it);
        return error;
    }
    *thread = new->thread;
    forget_earlier(new);
    machine_also(STEP_CREATE, (uint32_t)(new - the_machine.seats) + 1);
    if (the_machine.seed != 0)
        machine_acts(STEP_CREATE, 0, 0);
    return 0;
}

int pthread_join(pthread_t thread, void **result)
{
    machine_op op = {.kind = STEP_JOIN};
    for (unsigned i = 0; machine_decides() && i < the_machine.used; ++i) {
        seat *it = &the_machine.seats[i];
        if (it->is_joined || it == machine_seat() || !pthread_equal(it->thread, thread))
            continue;
        op.arg = i + 1;
        machine_act(&op);
        it->is_joined = true;
        break;
    }
    return YAK_REAL(pthread_join)(thread, result);
}

/* ---- mutexes ---- */

static int lock_until(pthread_mutex_t *mutex, const struct timespec *until)
{
    int error = machine_acts(STEP_LOCK, mutex, until);
    if (error == 0 && until == 0)
        error = YAK_REAL(pthread_mutex_lock)(mutex);
    else if (error == 0 && (error = YAK_REAL(pthread_mutex_trylock)(mutex)) == EBUSY)
        error = ETIMEDOUT;
    machine_gave(error, 0);
    return error;
}

int pthread_mutex_lock(pthread_mutex_t *mutex)
{
    return machine_decides() ? lock_until(mutex, 0) : YAK_REAL(pthread_mutex_lock)(mutex);
}

int pthread_mutex_timedlock(pthread_mutex_t *mutex, const struct timespec *until)
{
    return machine_decides() ? lock_until(mutex, until)
                             : YAK_REAL(pthread_mutex_timedlock)(mutex, until);
}

int pthread_mutex_clocklock(pthread_mutex_t *mutex, clockid_t clock, const struct timespec *until)
{
    return machine_decides() ? lock_until(mutex, until)
                             : YAK_REAL(pthread_mutex_clocklock)(mutex, clock, until);
}

int pthread_mutex_trylock(pthread_mutex_t *mutex)
{
    int error;
    if (machine_decides())
        machine_acts(STEP_TRYLOCK, mutex, 0);
    error = YAK_REAL(pthread_mutex_trylock)(mutex);
    machine_gave(error, 0);
    return error;
}

int pthread_mutex_unlock(pthread_mutex_t *mutex)
{
    const bool is_step = machine_decides() && the_machine.shared->is_each;
    int error;
    if (is_step)
        machine_acts(STEP_UNLOCK, mutex, 0);
    error = YAK_REAL(pthread_mutex_unlock)(mutex);
    if (machine_decides() && !is_step)
        machine_also(STEP_UNLOCK, machine_object(mutex, STEP_LOCK));
    return error;
}

/* ---- condition variables ---- */

static int wait_until(pthread_cond_t *cond, pthread_mutex_t *mutex, const struct timespec *until)
{
    machine_op op = machine_op_on(STEP_REGISTER, cond, 0);
    const uint32_t object = machine_object(mutex, STEP_LOCK);
    seat *here = machine_seat();
    int error;
    bool is_well;
    op.arg = object;
    machine_act(&op);
    if ((error = YAK_REAL(pthread_mutex_unlock)(mutex)) != 0)
        return error;
    machine_also(STEP_UNLOCK, object);
    op = machine_op_on(STEP_WAKE, cond, until);
    op.arg = object;
    op.mutex = mutex;
    op.odd = ODD_SPURIOUS;
    here->told = 0;
    is_well = machine_act(&op) && (here->told != 0 || (op.flags & YAK_TRY) == 0);
    is_well = is_well || here->is_odd;
    machine_also(STEP_LOCK, object);
    machine_gave(is_well ? 0 : ETIMEDOUT, here->told - 1);
    here->told = 0;
    error = YAK_REAL(pthread_mutex_lock)(mutex);
    if (here->is_cancelled)
        pthread_testcancel();
    return error != 0 ? error : is_well ? 0 : ETIMEDOUT;
}

int pthread_cond_wait(pthread_cond_t *cond, pthread_mutex_t *mutex)
{
    return machine_decides() ? wait_until(cond, mutex, 0)
                             : YAK_REAL(pthread_cond_wait)(cond, mutex);
}

int pthread_cond_timedwait(pthread_cond_t *cond, pthread_mutex_t *mutex,
                           const struct timespec *until)
{
    return machine_decides() ? wait_until(cond, mutex, until)
                             : YAK_REAL(pthread_cond_timedwait)(cond, mutex, until);
}

int pthread_cond_clockwait(pthread_cond_t *cond, pthread_mutex_t *mutex, clockid_t clock,
                           const struct timespec *until)
{
    return machine_decides() ? wait_until(cond, mutex, until)
                             : YAK_REAL(pthread_cond_clockwait)(cond, mutex, clock, until);
}

static int tell(pthread_cond_t *cond, bool is_one)
{
    machine_acts(is_one ? STEP_SIGNAL : STEP_BROADCAST, cond, 0);
    machine_tell(cond, is_one ? 1 : UINT_MAX);
    return 0;
}

int pthread_cond_signal(pthread_cond_t *cond)
{
    return machine_decides() ? tell(cond, true) : YAK_REAL(pthread_cond_signal)(cond);
}

int pthread_cond_broadcast(pthread_cond_t *cond)
{
    return machine_decides() ? tell(cond, false) : YAK_REAL(pthread_cond_broadcast)(cond);
}

/* ---- locks of readers and writers ---- */

static int rwlock_until(pthread_rwlock_t *lock, bool is_writer, const struct timespec *until,
                        bool is_try)
{
    machine_op op = machine_op_on(is_writer ? STEP_WRLOCK : STEP_RDLOCK, lock, until);
    int error;
    op.flags |= is_try ? YAK_TRY : 0;
    if (!machine_act(&op))
        error = ETIMEDOUT;
    else if ((op.flags & YAK_TRY) != 0)
        error = is_writer ? YAK_REAL(pthread_rwlock_trywrlock)(lock)
                          : YAK_REAL(pthread_rwlock_tryrdlock)(lock);
    else
        error = is_writer ? YAK_REAL(pthread_rwlock_wrlock)(lock)
                          : YAK_REAL(pthread_rwlock_rdlock)(lock);
    if (error == EBUSY && !is_try)
        error = ETIMEDOUT;
    machine_gave(error, 0);
    return error;
}

int pthread_rwlock_rdlock(pthread_rwlock_t *lock)
{
    return machine_decides() ? rwlock_until(lock, false, 0, false)
                             : YAK_REAL(pthread_rwlock_rdlock)(lock);
}

int pthread_rwlock_wrlock(pthread_rwlock_t *lock)
{
    return machine_decides() ? rwlock_until(lock, true, 0, false)
                             : YAK_REAL(pthread_rwlock_wrlock)(lock);
}

int pthread_rwlock_tryrdlock(pthread_rwlock_t *lock)
{
    return machine_decides() ? rwlock_until(lock, false, 0, true)
                             : YAK_REAL(pthread_rwlock_tryrdlock)(lock);
}

int pthread_rwlock_trywrlock(pthread_rwlock_t *lock)
{
    return machine_decides() ? rwlock_until(lock, true, 0, true)
                             : YAK_REAL(pthread_rwlock_trywrlock)(lock);
}

int pthread_rwlock_timedrdlock(pthread_rwlock_t *lock, const struct timespec *until)
{
    return machine_decides() ? rwlock_until(lock, false, until, false)
                             : YAK_REAL(pthread_rwlock_timedrdlock)(lock, until);
}

int pthread_rwlock_timedwrlock(pthread_rwlock_t *lock, const struct timespec *until)
{
    return machine_decides() ? rwlock_until(lock, true, until, false)
                             : YAK_REAL(pthread_rwlock_timedwrlock)(lock, until);
}

int pthread_rwlock_clockrdlock(pthread_rwlock_t *lock, clockid_t clock,
                               const struct timespec *until)
{
    return machine_decides() ? rwlock_until(lock, false, until, false)
                             : YAK_REAL(pthread_rwlock_clockrdlock)(lock, clock, until);
}

int pthread_rwlock_clockwrlock(pthread_rwlock_t *lock, clockid_t clock,
                               const struct timespec *until)
{
    return machine_decides() ? rwlock_until(lock, true, until, false)
                             : YAK_REAL(pthread_rwlock_clockwrlock)(lock, clock, until);
}

int pthread_rwlock_unlock(pthread_rwlock_t *lock)
{
    if (machine_decides())
        machine_acts(STEP_RWUNLOCK, lock, 0);
    return YAK_REAL(pthread_rwlock_unlock)(lock);
}

/* ---- semaphores ---- */

static uint32_t count_in(sem_t *sem)
{
    int value = 0;
    YAK_REAL(sem_getvalue)(sem, &value);
    return (uint32_t)value;
}

static int sem_until(sem_t *sem, const struct timespec *until)
{
    machine_op op = machine_op_on(STEP_SEMWAIT, sem, until);
    int error;
    uint32_t count;
    op.odd = ODD_SIGNAL;
    error = machine_act(&op) ? 0 : machine_was_odd() ? EINTR : ETIMEDOUT;
    count = count_in(sem);
    if (error == 0 && YAK_REAL(sem_trywait)(sem) != 0)
        error = errno == EAGAIN ? ETIMEDOUT : errno;
    machine_gave(error, count);
    return error == 0 ? 0 : machine_fails(error);
}

int sem_wait(sem_t *sem)
{
    return machine_decides() ? sem_until(sem, 0) : YAK_REAL(sem_wait)(sem);
}

int sem_timedwait(sem_t *sem, const struct timespec *until)
{
    return machine_decides() ? sem_until(sem, until) : YAK_REAL(sem_timedwait)(sem, until);
}

int sem_clockwait(sem_t *sem, clockid_t clock, const struct timespec *until)
{
    return machine_decides() ? sem_until(sem, until) : YAK_REAL(sem_clockwait)(sem, clock, until);
}

int sem_trywait(sem_t *sem)
{
    uint32_t count;
    int failed;
    if (!machine_decides())
        return YAK_REAL(sem_trywait)(sem);
    machine_acts(STEP_SEMTRY, sem, 0);
    count = count_in(sem);
    failed = YAK_REAL(sem_trywait)(sem);
    machine_gave(failed != 0 ? errno : 0, count);
    return failed;
}

int sem_post(sem_t *sem)
{
    if (machine_decides() && the_machine.shared->is_each)
        machine_acts(STEP_POST, sem, 0);
    else if (machine_decides())
        machine_also(STEP_POST, machine_object(sem, STEP_SEMWAIT));
    return YAK_REAL(sem_post)(sem);
}

/* ---- barriers, and what is done once ---- */

/* How many a barrier waits for: the third word of it. */
static unsigned size_of_barrier(const pthread_barrier_t *barrier)
{
    return ((const unsigned *)(const void *)barrier)[2];
}

static bool is_told(void *of)
{
    return ((const seat *)of)->told != 0;
}

static bool waits_at(const seat *it, const pthread_barrier_t *barrier)
{
    return it->state == SEAT_PARKED && it->op.kind == STEP_COLLECT && it->op.at == barrier &&
           it->told == 0;
}

int pthread_barrier_wait(pthread_barrier_t *barrier)
{
    machine_op op;
    unsigned count = 1;
    seat *here;
    if (!machine_decides())
        return YAK_REAL(pthread_barrier_wait)(barrier);
    here = machine_seat();
    machine_acts(STEP_BARRIER, barrier, 0);
    for (unsigned i = 0; i < the_machine.used; ++i)
        count += waits_at(&the_machine.seats[i], barrier);
    if (count >= size_of_barrier(barrier)) {
        for (unsigned i = 0; i < the_machine.used; ++i)
            if (waits_at(&the_machine.seats[i], barrier))
                the_machine.seats[i].told = 1;
        return PTHREAD_BARRIER_SERIAL_THREAD;
    }
    op = machine_op_on(STEP_COLLECT, barrier, 0);
    op.goes_on = is_told;
    op.with = here;
    here->told = 0;
    machine_act(&op);
    here->told = 0;
    return 0;
}

int pthread_once(pthread_once_t *once, void (*begin)(void))
{
    int error;
    if (machine_decides())
        machine_acts(STEP_ONCE, once, 0);
    error = YAK_REAL(pthread_once)(once, begin);
    /* What was done once comes before the others' calls. */
    if (machine_decides())
        machine_also(STEP_ONCE, machine_object(once, STEP_ONCE));
    return error;
}
