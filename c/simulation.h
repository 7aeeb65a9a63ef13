/* simulation.h: the time and the random choices of the machine. */
#ifndef YAKYROMBE_SIMULATION_H
#define YAKYROMBE_SIMULATION_H

#include <errno.h>
#include <stdbool.h>
#include <stdint.h>
#include <stdlib.h>
#include <time.h>

/* Where simulated time begins. */
enum { SIMULATION_BEGIN = 1000000000 };

static inline bool simulation_is_before(const struct timespec *one, const struct timespec *other)
{
    return one->tv_sec != other->tv_sec ? one->tv_sec < other->tv_sec
                                        : one->tv_nsec < other->tv_nsec;
}

/* The moment so much later. */
static inline struct timespec simulation_later(const struct timespec *moment,
                                               const struct timespec *time)
{
    const long nanos = moment->tv_nsec + time->tv_nsec;
    const struct timespec later = {
        .tv_sec = moment->tv_sec + time->tv_sec + nanos / 1000000000,
        .tv_nsec = nanos % 1000000000,
    };
    return later;
}

/* The next number of the generator. */
static inline uint64_t simulation_number(uint64_t *state)
{
    *state ^= *state << 13;
    *state ^= *state >> 7;
    *state ^= *state << 17;
    return *state;
}

/* The state of the generator for a seed. From 0 it would give 0 for ever. */
static inline uint64_t simulation_state(uint64_t seed)
{
    uint64_t state = (seed + 1) * 0x9E3779B97F4A7C15u;
    if (state == 0)
        state = 1;
    for (int i = 0; i < 20; ++i)
        simulation_number(&state);
    return state;
}

/* Reads a seed: whether the text is a whole number below 2^64. */
static inline bool simulation_read_seed(const char *text, uint64_t *seed)
{
    char *end;
    errno = 0;
    *seed = strtoull(text, &end, 10);
    return *text >= '0' && *text <= '9' && *end == 0 && errno == 0;
}

#endif
