/* The names of the system that the machine takes: time, and signals.
 *
 * Time stands still, but if a deadline passes. A thread sees a microsecond more each time it reads
 * the clock. Under a seed each choice takes a microsecond, and reading the clock none. */
#define _GNU_SOURCE
#include "machine.h"

#include <sched.h>
#include <stdlib.h>
#include <sys/time.h>
#include <unistd.h>

/* The simulated time as this thread reads it. */
static struct timespec read_clock(void)
{
    const long reads = the_machine.seed == 0 ? (long)++machine_seat()->reads : 0;
    const struct timespec more = {.tv_nsec = 1000L * reads};
    machine_also(STEP_CLOCK, machine_clock_object());
    return machine_later(&more);
}

int clock_gettime(clockid_t clock, struct timespec *now)
{
    if (!machine_decides() || (clock != CLOCK_REALTIME && clock != CLOCK_MONOTONIC))
        return YAK_REAL(clock_gettime)(clock, now);
    *now = read_clock();
    return 0;
}

time_t time(time_t *now)
{
    struct timespec it;
    clock_gettime(CLOCK_REALTIME, &it);
    if (now != 0)
        *now = it.tv_sec;
    return it.tv_sec;
}

int gettimeofday(struct timeval *now, void *zone)
{
    struct timespec it;
    (void)zone;
    clock_gettime(CLOCK_REALTIME, &it);
    now->tv_sec = it.tv_sec;
    now->tv_usec = it.tv_nsec / 1000;
    return 0;
}

/* Whether a signal has ended the sleep. */
static bool sleep_until(const struct timespec *until)
{
    machine_op op = machine_op_on(STEP_SLEEP, 0, until);
    op.odd = ODD_SIGNAL;
    machine_act(&op);
    return machine_was_odd();
}

int clock_nanosleep(clockid_t clock, int flags, const struct timespec *time, struct timespec *left)
{
    struct timespec until;
    if (!machine_decides())
        return YAK_REAL(clock_nanosleep)(clock, flags, time, left);
    until = (flags & TIMER_ABSTIME) != 0 ? *time : machine_later(time);
    if (!sleep_until(&until))
        return 0;
    if (left != 0 && (flags & TIMER_ABSTIME) == 0)
        *left = *time;
    return EINTR;
}

int nanosleep(const struct timespec *time, struct timespec *left)
{
    struct timespec until;
    if (!machine_decides())
        return YAK_REAL(nanosleep)(time, left);
    until = machine_later(time);
    if (!sleep_until(&until))
        return 0;
    if (left != 0)
        *left = *time;
    return machine_fails(EINTR);
}

unsigned sleep(unsigned seconds)
{
    const struct timespec time = {.tv_sec = (time_t)seconds};
    if (!machine_decides())
        return YAK_REAL(sleep)(seconds);
    return nanosleep(&time, 0) == 0 ? 0 : seconds;
}

int usleep(useconds_t micros)
{
    const struct timespec time = {.tv_sec = (time_t)(micros / 1000000),
                                  .tv_nsec = (long)(micros % 1000000) * 1000};
    return nanosleep(&time, 0);
}

int sched_yield(void)
{
    if (!machine_decides())
        return YAK_REAL(sched_yield)();
    machine_acts(STEP_YIELD, 0, 0);
    return 0;
}

/* ---- signals, whose handlers end no wait here ---- */

int pthread_kill(pthread_t thread, int number)
{
    the_machine.signals = the_machine.signals || number != 0;
    return YAK_REAL(pthread_kill)(thread, number);
}

int kill(pid_t process, int number)
{
    the_machine.signals = the_machine.signals || number != 0;
    return YAK_REAL(kill)(process, number);
}
