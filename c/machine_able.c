/* The machine: whether a parked thread can go on. It looks into the objects of the system, as the
 * GNU C library lays them out. */
#define _GNU_SOURCE
#include "machine.h"

#include <linux/futex.h>

pid_t machine_holder(const pthread_mutex_t *mutex)
{
    const int word = __atomic_load_n(&mutex->__data.__lock, __ATOMIC_RELAXED);
    return (word & ~(int)FUTEX_OWNER_DIED) == 0 ? 0 : mutex->__data.__owner;
}

/* A mutex that its own thread locks again is recursive, or the system refuses it; else the thread
 * waits for itself, for ever. */
static bool is_free(const pthread_mutex_t *mutex, const seat *it)
{
    const pid_t tid = machine_holder(mutex);
    return tid == 0 || (tid == it->tid && (mutex->__data.__kind & 3) != PTHREAD_MUTEX_NORMAL &&
                        (mutex->__data.__kind & 3) != PTHREAD_MUTEX_ADAPTIVE_NP);
}

/* The number of readers stands above three bits. A writer that asks again is refused. */
static bool is_rwlock_free(const pthread_rwlock_t *lock, bool is_writer, const seat *it)
{
    if (lock->__data.__cur_writer != 0)
        return lock->__data.__cur_writer == it->tid;
    return !is_writer || lock->__data.__readers >> 3 == 0;
}

/* A lock that spins is 1 on x86-64 if it is free, and else 0. */
static bool is_spin_free(const void *at)
{
#ifdef __x86_64__
    const int free_value = 1;
#else
    const int free_value = 0;
#endif
    return __atomic_load_n((const int *)at, __ATOMIC_SEQ_CST) == free_value;
}

static bool has_count(const void *at)
{
    int value = 0;
    YAK_REAL(sem_getvalue)((sem_t *)(uintptr_t)at, &value);
    return value > 0;
}

bool machine_can_move(const machine_op *op)
{
    const machine_queue *it = op->with;
    if (it == 0)
        return true;
    return op->kind == STEP_SEND ? it->current < it->room : it->current > 0;
}

bool machine_is_cancelled_in(const seat *it)
{
    switch (it->op.kind) {
    case STEP_JOIN:
    case STEP_WAKE:
    case STEP_SEMWAIT:
    case STEP_SLEEP:
    case STEP_SEND:
    case STEP_RECEIVE:
        return it->is_cancelled;
    default:
        return false;
    }
}

bool machine_is_try(const seat *it)
{
    return (it->op.flags & YAK_TRY) != 0 || (it->op.nonblock != 0 && *it->op.nonblock);
}

/* Whether what an operation waits for is there. */
static bool is_there(const seat *it)
{
    const machine_op *op = &it->op;
    if (machine_is_try(it) || (op->flags & YAK_NEVER_BLOCKS) != 0)
        return true;
    switch (op->kind) {
    case STEP_JOIN:
        return the_machine.seats[op->arg - 1].state == SEAT_OUT;
    case STEP_LOCK:
        return is_free(op->at, it);
    case STEP_SPINLOCK:
        return is_spin_free(op->at);
    case STEP_WAKE:
        return it->told != 0;
    case STEP_SEMWAIT:
        return has_count(op->at);
    case STEP_RDLOCK:
    case STEP_WRLOCK:
        return is_rwlock_free(op->at, op->kind == STEP_WRLOCK, it);
    case STEP_ONCE:
        return (*(const int *)op->at & 1) == 0;
    case STEP_SEND:
    case STEP_RECEIVE:
        return machine_can_move(op);
    case STEP_COLLECT:
        return op->goes_on(op->with);
    case STEP_SLEEP:
        return false;
    default:
        return true;
    }
}

/* Each thread has its own most, so that what one can do does not depend on what others did. */
bool machine_may_be_odd(const seat *it)
{
    const yak_explored *all = the_machine.shared;
    if (it->op.odd == ODD_SPURIOUS)
        return it->odds[ODD_SPURIOUS] < all->spurious;
    return it->op.odd == ODD_SIGNAL && it->odds[ODD_SIGNAL] < all->signals;
}

unsigned machine_ability(const seat *it)
{
    const machine_op *op = &it->op;
    if (it->state != SEAT_PARKED)
        return YAK_CANNOT;
    /* A wait for a condition ends with its mutex, also at its deadline. */
    if (op->mutex != 0 && !is_free(op->mutex, it))
        return YAK_CANNOT;
    if (is_there(it) || machine_is_cancelled_in(it))
        return YAK_CAN;
    return (op->flags & YAK_TIMED) != 0 || machine_may_be_odd(it) ? YAK_LATE : YAK_CANNOT;
}
