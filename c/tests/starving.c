/* What a process by handles does that waits for the lock for long, and what the others do. The
 * steps are forced: this file is linked with --wrap, and stands in for two exports of the proved
 * library and for the system calls of c/wait.c.
 *   - Whose last step made progress does not sleep, but tries again.
 *   - While process 2 starves, process 1 does not return from its call before 2 is inside.
 *   - If 2 is stopped then, 1 goes on after a while, and is not held back again. */
#define _GNU_SOURCE
#include <pthread.h>
#include <signal.h>
#include <stdatomic.h>
#include <stdbool.h>
#include <stdint.h>
#include <stdio.h>
#include <time.h>
#include <unistd.h>

#include "want.h"
#include "wrapped.h"

enum { LOCK = 0, STARVING = 104, TRIES = 1000 };
/* What happens, one after the other. */
enum { BEGUN, STARVES, IS_HELD, IS_INSIDE };

static uint64_t words[128];
static yak_process them[3];
static atomic_int state, sleeps, holds, tries_left;
static atomic_bool is_stopped;

static void await(int wanted)
{
    const struct timespec delay = {.tv_nsec = 200000};
    while (atomic_load(&state) < wanted)
        nanosleep(&delay, 0);
}

static uint64_t starving(void)
{
    return __atomic_load_n(&words[STARVING], __ATOMIC_SEQ_CST);
}

/* Process 1 is always inside at once, or after so many tries. Process 2 is inside once 1 is held
 * back; or, if it is to be stopped, once 1 has made its calls. Until then it makes no other try,
 * since one that is about to sleep starves no longer. */
uint32_t __wrap_yak_proved_close(yak_process *process, uint32_t d)
{
    (void)d;
    if (process->number == 1)
        return atomic_fetch_sub(&tries_left, 1) > 0 ? (uint32_t)YAK_RETRY : (uint32_t)YAK_DONE;
    if (starving() != 0 && atomic_load(&state) == BEGUN) {
        atomic_store(&state, STARVES);
        await(atomic_load(&is_stopped) ? IS_INSIDE : IS_HELD);
    }
    if (atomic_load(&state) < IS_HELD)
        return YAK_RETRY;
    atomic_store(&state, IS_INSIDE);
    return YAK_DONE;
}

/* The last step of process 1 always made progress. */
uint32_t __wrap_yak_proved_futex_word(yak_process *process, uint32_t *futex_word)
{
    *futex_word = process->number == 1 ? UINT32_MAX : LOCK;
    return YAK_DONE;
}

/* A sleep for the lock ends at once, and one of a process that is held back only by a wake, unless
 * the other one is stopped. */
static bool ends_at_once(long *arguments)
{
    const uint64_t *word = (const uint64_t *)(arguments[0] / 8 * 8);
    if (word != &words[STARVING]) {
        atomic_fetch_add(&sleeps, 1);
        return true;
    }
    atomic_fetch_add(&holds, 1);
    if (!atomic_load(&is_stopped)) {
        arguments[3] = 0;
        atomic_store(&state, IS_HELD);
    }
    return false;
}

static void *close_second(void *unused)
{
    (void)unused;
    WANT(yak_close(&them[2], 0) == YAK_DONE);
    return 0;
}

static void try_again(void)
{
    atomic_store(&tries_left, TRIES);
    WANT(yak_close(&them[1], 0) == YAK_DONE);
    WANT(atomic_load(&sleeps) == 0 && atomic_load(&holds) == 0);
}

static void hold_back(bool stops)
{
    pthread_t second;
    atomic_store(&state, BEGUN);
    atomic_store(&holds, 0);
    atomic_store(&is_stopped, stops);
    pthread_create(&second, 0, close_second, 0);
    await(STARVES);
    WANT(stops || starving() == 2);
    WANT(yak_close(&them[1], 0) == YAK_DONE);
    WANT(atomic_load(&holds) == 1 && starving() == 0);
    if (stops) {
        WANT(yak_close(&them[1], 0) == YAK_DONE);
        WANT(atomic_load(&holds) == 1);
        atomic_store(&state, IS_INSIDE);
    } else {
        WANT(atomic_load(&state) == IS_INSIDE);
    }
    pthread_join(second, 0);
    WANT(starving() == 0);
}

int main(void)
{
    for (unsigned i = 1; i < 3; ++i)
        them[i] = (yak_process){.number = i, .futex_words = words};
    signal(SIGALRM, tell_late);
    alarm(60);
    try_again();
    hold_back(false);
    hold_back(true);
    puts("well");
    return 0;
}
