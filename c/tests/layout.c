/* The result of an allocation has the requested alignment, even if it failed. A handle has the size
 * that the library assumes, so the handles of an array are those that C means. No two handles share
 * a cache line, even if a processor fetches lines in pairs. */
#define _GNU_SOURCE
#include "../memory.h"
#include "../wait.h"

#include "sanitized.h"

#include <string.h>

enum { PROCESSES = 32, LINES = 128 };

_Static_assert(sizeof(yak_process) == LINES, "a handle has two cache lines");

static bool is_aligned(void *p, size_t align)
{
    return (uintptr_t)p % align == 0;
}

/* A sanitizer ends a program that requests so much memory. */
static bool refused_is_aligned(void)
{
#if HAS_ADDRESS_SANITIZER || HAS_THREAD_SANITIZER
    return true;
#else
    const volatile size_t most = SIZE_MAX / 2;
    const rattle_tried refused = rattle_alloc(most, 16);
    return !refused.ok && refused.p != 0 && is_aligned(refused.p, 16);
#endif
}

static bool memory_is_aligned(void)
{
    for (size_t align = 1; align <= 16; align *= 2) {
        rattle_tried one = rattle_alloc(1, align), more;
        if (!one.ok || !is_aligned(one.p, align))
            return false;
        more = rattle_realloc(one.p, 1, 100, align);
        if (!more.ok || !is_aligned(more.p, align))
            return false;
        rattle_dealloc(more.p);
    }
    return refused_is_aligned();
}

/* Sleeps on a word while it is 1, for at most `millis` milliseconds, and returns how many passed.
 */
static int64_t sleep_on(uint32_t *at, bool is_shared, clockid_t clock, long millis)
{
    const yak_word_ word = {.at = at, .is_shared = is_shared};
    struct timespec until;
    const yak_sleep_ sleep = {.until = &until, .clock = clock};
    yak_moment before = yak_monotonic_now(), after;
    clock_gettime(clock, &until);
    until.tv_nsec += millis * 1000000;
    until.tv_sec += until.tv_nsec / 1000000000;
    until.tv_nsec %= 1000000000;
    yak_sleep_on_(word, 1, &sleep);
    after = yak_monotonic_now();
    return (after.sec - before.sec) * 1000 + (after.nsec - before.nsec) / 1000000;
}

/* A sleep ends if the word has another value, and at its deadline by either clock, whether or not
 * the word is shared with other programs. */
static bool sleeps_while_it_is_one(void)
{
    static uint32_t words[2] = {0, 1};
    for (int is_shared = 0; is_shared <= 1; ++is_shared)
        if (sleep_on(&words[0], is_shared, CLOCK_MONOTONIC, 2000) >= 2000 ||
            sleep_on(&words[1], is_shared, CLOCK_MONOTONIC, 30) < 20 ||
            sleep_on(&words[1], is_shared, CLOCK_REALTIME, 30) < 20)
            return false;
    return true;
}

int main(void)
{
    static yak_process processes[PROCESSES + 1];
    uint32_t k;
    if (strcmp(yak_version(), YAK_VERSION) != 0)
        return 7;
    if (!memory_is_aligned())
        return 5;
    if (!sleeps_while_it_is_one())
        return 6;
    if (yak_new(processes, PROCESSES) != YAK_DONE)
        return 1;
    for (k = 0; k < PROCESSES; k++)
        if (!processes[k].full || processes[k].number != k + 1 || !processes[k].futex_words)
            return 2;
    if (processes[PROCESSES].full || processes[PROCESSES].number != 0)
        return 3;
    for (k = 0; k < PROCESSES; k++)
        if (yak_free(&processes[k]) != YAK_DONE || processes[k].full)
            return 4;
    puts("well");
    return 0;
}
