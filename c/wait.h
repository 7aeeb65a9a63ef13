/* wait.h: how threads wait outside the proved library. Private to c/. */
#ifndef YAKYROMBE_WAIT_H
#define YAKYROMBE_WAIT_H

#include <yakyrombe.h>

#include <time.h>

/* The constants of waiting. The comment after each names the line of the proved library with the
 * same constant, as FILE: LINE; checks/pages compares the two. */
enum {
    /* The index of the futex word on which a process sleeps until its wait is answered, less its
       number. */
    YAK_ANSWER_WORD_ = 32, /* fast_mutex/src/futex_words.rt: process.saturating_add(32) */
    /* The index of the word in which a process counts its misses, less its number. A miss is a wait
       that polled without success. */
    YAK_MISSES_WORD_ = 64, /* fast_mutex/src/futex_words.rt: process.saturating_add(64) */
    /* How often a process tries to acquire the lock before it sleeps. */
    YAK_SPINS_ = 12, /* fast_mutex/src/enter.rt: const MOST_PAUSES: u32 = 12; */
    /* How often a wait polls for its answer before it sleeps: usually, and if its process has too
     * many misses (adaptive spinning). */
    YAK_LONG_POLLS_ = 7,  /* fast_mutex/src/futex_words.rt: const LONG_POLLS: u32 = 7; */
    YAK_SHORT_POLLS_ = 1, /* fast_mutex/src/futex_words.rt: const SHORT_POLLS: u32 = 1; */
    /* How many misses are too many, by how much a miss raises their number, and for how many waits
     * a process then polls less. */
    YAK_MOST_MISSES_ = 12, /* fast_mutex/src/futex_words.rt: const MOST_MISSES: u64 = 12; */
    YAK_FOR_A_MISS_ = 3,   /* fast_mutex/src/futex_words.rt: const FOR_A_MISS: u64 = 3; */
    YAK_WAITS_WITH_FEW_POLLS_ =
        64, /* fast_mutex/src/futex_words.rt: const WAITS_WITH_FEW_POLLS: u64 = 64; */
    /* The shortest and the longest backoff between two polls, in iterations of a loop. */
    YAK_SHORT_BACKOFF_ = 1024, /* fast_mutex/src/backoff.rt: const SHORTEST: u32 = 1_024; */
    YAK_LONG_BACKOFF_ = 16384, /* fast_mutex/src/backoff.rt: const LONGEST: u32 = 16_384; */
    /* The longest first sleep while acquiring the lock, in microseconds. */
    YAK_LOCK_SLEEP_ = 500, /* fast_mutex/src/enter.rt: const FIRST_SLEEP: u64 = 500; */
    /* The index of the word that says who starves. */
    YAK_STARVING_WORD_ =
        104, /* fast_mutex/src/futex_words.rt: keep who of them starves in word 104 */
    /* What is added to it if threads sleep until that process is inside; how often they poll
       before; and for how many milliseconds they sleep at most. */
    YAK_HELD_ = 64,           /* fast_mutex/src/futex_words.rt: const HELD: u64 = 64; */
    YAK_POLLS_HELD_BACK_ = 8, /* fast_mutex/src/futex_words.rt: const POLLS_HELD_BACK: u32 = 8; */
    YAK_LONGEST_HOLD_ = 1,    /* fast_mutex/src/futex_words.rt: const LONGEST_HOLD: u64 = 1; */
    /* The first and the longest sleep of a wait with a deadline by a clock of the program, in
     * milliseconds. */
    YAK_FIRST_SLEEP_ = 10,  /* mq/src/sleep_times.rt: const FIRST_SLEEP: u64 = 10; */
    YAK_LONGEST_SLEEP_ = 80 /* mq/src/sleep_times.rt: const LONGEST_SLEEP: u64 = 80; */
};

/* A word on which threads sleep. `is_shared` if threads of several operating-system processes do,
 * in shared memory. */
typedef struct yak_word_ {
    uint32_t *at;
    bool is_shared;
} yak_word_;

/* The deadline of a sleep, by a clock of the system; null for none. If `restarts`, a signal handler
 * with SA_RESTART does not end the sleep (if it has a deadline, from Linux 5.16 on). */
typedef struct yak_sleep_ {
    const struct timespec *until;
    clockid_t clock;
    bool restarts;
} yak_sleep_;

/* The hooks by which a seed schedules the calls. The machine sets them if the environment has a
 * seed. */
typedef struct yak_turns_ {
    void (*turn)(void);
    void (*await_answer)(yak_process *process, const yak_moment *until, const char *call,
                         uint32_t d);
    struct timespec (*now)(void);
} yak_turns_;

/* For the functions that a message to a waiting receiver passes: they stand together, on few pages.
 */
#define YAK_HOT __attribute__((hot))

#pragma GCC visibility push(hidden)

/* Sleeps while the word has the value. Returns 0, possibly spuriously, or EINTR if a signal handler
 * ended the sleep. On systems other than Linux it sleeps for a millisecond. */
int yak_sleep_on_(yak_word_ word, uint32_t value, const yak_sleep_ *sleep);

/* Wakes at most this many threads that sleep on the word. */
void yak_wake_on_(yak_word_ word, int most);

/* Backs off for this many iterations of a loop. */
static inline void yak_pause_(unsigned turns)
{
    for (; turns != 0; --turns)
        __asm__ volatile("" ::: "memory"); /* so that the compiler keeps the loop */
}

/* Backs off before the next attempt, each time twice as long; false after `most` attempts. Under
 * contention, long backoffs let the holder of the lock make several calls in a row. */
bool yak_spin_(unsigned *tries, unsigned most);

/* One try of a call on a handle: YAK_RETRY if the process did not acquire the lock. */
typedef uint32_t yak_try_(yak_process *process, void *with);

/* Makes a call whose tries are not in this archive, until its process comes inside the lock. */
uint32_t yak_through_(yak_process *process, yak_try_ *attempt, void *with);

/* Lets a seed schedule the calls; null ends that. */
void yak_follow_(const yak_turns_ *turns);

#pragma GCC visibility pop

#endif
