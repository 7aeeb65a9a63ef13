/* A wake-up by handles that was late: process 1 lowers the flag at which process 2 is about to
 * sleep; before it does, process 3 announces there and goes on with its call. Process 2 has to be
 * woken at once, by process 3, since nobody lowers the flag again. The steps are forced: this file
 * is linked with --wrap, and stands in for two exports of the proved library and for the system
 * calls of c/wait.c. */
#define _GNU_SOURCE
#include <pthread.h>
#include <signal.h>
#include <stdatomic.h>
#include <stdio.h>
#include <time.h>
#include <unistd.h>

#include "wrapped.h"

enum { FLAG = 1, POLLED = 1, WOKEN, ANNOUNCED, SLEEPS };

static uint64_t words[128];
static yak_process them[4];
static atomic_int turn, is_down;
static _Thread_local int me;

static void await(int wanted)
{
    const struct timespec delay = {.tv_nsec = 200000};
    while (atomic_load(&turn) < wanted)
        nanosleep(&delay, 0);
}

/* What the scan of the flag finds. Process 3 goes on with its call once process 2 sleeps. */
uint32_t __wrap_yak_proved_close(yak_process *process, uint32_t d)
{
    const struct timespec delay = {.tv_nsec = 2000000};
    (void)process, (void)d;
    if (me == 3 && words[FLAG] == 1 && atomic_load(&turn) >= WOKEN) {
        if (atomic_load(&turn) == WOKEN)
            atomic_store(&turn, ANNOUNCED);
        await(SLEEPS);
        nanosleep(&delay, 0);
    }
    return atomic_load(&is_down) && !(me == 3 && atomic_load(&turn) < ANNOUNCED)
               ? (uint32_t)YAK_DONE
               : (uint32_t)YAK_RETRY;
}

uint32_t __wrap_yak_proved_futex_word(yak_process *process, uint32_t *futex_word)
{
    (void)process;
    *futex_word = FLAG;
    return YAK_DONE;
}

/* Process 2 sleeps until it is woken, once process 3 has announced a sleep. */
static bool ends_at_once(long *arguments)
{
    if (me == 2 && atomic_load(&turn) < SLEEPS) {
        atomic_store(&turn, POLLED);
        await(ANNOUNCED);
        atomic_store(&turn, SLEEPS);
        arguments[3] = 0;
    }
    return false;
}

static void *close_as(void *of)
{
    me = (int)((yak_process *)of)->number;
    yak_close(of, 0);
    return 0;
}

int main(void)
{
    pthread_t second, third;
    for (unsigned i = 1; i < 4; ++i)
        them[i] = (yak_process){.number = i, .futex_words = words};
    me = 1;
    signal(SIGALRM, tell_late);
    alarm(20);
    pthread_create(&second, 0, close_as, &them[2]);
    await(POLLED);
    /* Process 1 lowers its flag with the end of its call, and wakes those at it. */
    atomic_store(&is_down, 1);
    yak_close(&them[1], 0);
    atomic_store(&turn, WOKEN);
    pthread_create(&third, 0, close_as, &them[3]);
    pthread_join(third, 0);
    pthread_join(second, 0);
    puts("well");
    return 0;
}
