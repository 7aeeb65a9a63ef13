/* What tests share that stand in for exports of the proved library and for the system calls of
 * c/wait.c. They are linked with --wrap. */
#ifndef YAK_TESTS_WRAPPED_H
#define YAK_TESTS_WRAPPED_H

#include <errno.h>
#include <linux/futex.h>
#include <stdarg.h>
#include <stdbool.h>
#include <stdio.h>
#include <sys/syscall.h>
#include <unistd.h>

#include <yakyrombe.h>

uint32_t __wrap_yak_proved_close(yak_process *process, uint32_t d);
uint32_t __wrap_yak_proved_futex_word(yak_process *process, uint32_t *futex_word);
long __wrap_syscall(long number, ...);
long __real_syscall(long number, ...);

/* A test defines it. It sees the arguments of a sleep on a futex word, and may change them; true
 * if the sleep ends at once, as if its time were over. */
static bool ends_at_once(long *arguments);

long __wrap_syscall(long number, ...)
{
    long a[6];
    va_list rest;
    va_start(rest, number);
    for (int i = 0; i < 6; ++i)
        a[i] = va_arg(rest, long);
    va_end(rest);
    if (number == SYS_futex && (a[1] & FUTEX_CMD_MASK) == FUTEX_WAIT_BITSET && ends_at_once(a)) {
        errno = ETIMEDOUT;
        return -1;
    }
    return __real_syscall(number, a[0], a[1], a[2], a[3], a[4], a[5]);
}

/* Ends the test at an alarm. */
static inline void tell_late(int number)
{
    (void)number;
    puts("late");
    fflush(stdout);
    _exit(1);
}

#endif
