/* bench.h: what the workloads of mqbench share. */
#ifndef YAK_BENCH_H
#define YAK_BENCH_H

#include <yakyrombe.h>

#include <stdbool.h>
#include <stdint.h>

enum { MOST_PROCESSES = 32, MESSAGE_SIZE = 16, USUAL_DEPTH = 10 };

/* How a system is made. */
typedef enum storage { STORED, UNSTORED, PREPAID, BOUNDED } storage;

/* A workload with its sizes; those that it lacks are 0. */
typedef struct workload {
    const char *name;
    uint64_t size, processes, depth;
    storage storage;
    uint64_t entries, bytes; /* of a bounded journal */
    uint64_t busy;           /* threads that count beside it */
} workload;

/* What was measured. The text stands behind the time of an operation. */
typedef struct measured {
    uint64_t operations;
    double nanoseconds;
    char text[1024];
} measured;

/* Ends the program, with a line on the error stream. */
_Noreturn void bench_stop(int status, const char *format, ...)
    __attribute__((format(printf, 2, 3)));

/* Ends the program with the name of an answer. */
_Noreturn void bench_refuse(uint32_t answer);

/* Ends the program unless the answer is YAK_DONE. */
static inline void bench_want(uint32_t answer)
{
    if (__builtin_expect(answer != YAK_DONE, 0))
        bench_refuse(answer);
}

/* Makes the processes of a system, in the way that the workload says. */
void bench_make(const workload *of, yak_process *processes, size_t count);

/* Opens a queue for both directions, created with this depth if there is none. */
uint32_t bench_open(yak_process *process, const char *name, uint64_t depth);

/* A send and a receive of MESSAGE_SIZE bytes. */
static inline void bench_send(yak_process *process, uint32_t d, uint32_t prio)
{
    static const uint8_t message[MESSAGE_SIZE] = "sixteen bytes ..";
    bench_want(yak_send(process, d, message, sizeof message, prio));
}

static inline void bench_receive(yak_process *process, uint32_t d)
{
    uint8_t buf[MESSAGE_SIZE];
    yak_message message;
    bench_want(yak_receive(process, d, buf, sizeof buf, &message));
}

/* The nanoseconds of a clock. */
double bench_now(void);
double bench_processor_time(void);

/* The resident memory of the program in kilobytes, and its minor page faults. */
typedef struct footprint {
    uint64_t resident, faults;
} footprint;
footprint bench_footprint(void);

/* Pseudorandom numbers. */
typedef struct dice {
    uint64_t state;
} dice;
uint32_t bench_roll(dice *it, uint32_t sides);

/* Makes a random call of a storm, or a few that belong together, and counts them. */
typedef struct tally tally;
tally *bench_tally(void);
uint64_t bench_gust(yak_process *process, dice *at, tally *counts);
void bench_tally_text(const tally *counts, char *to, size_t size);

/* Adds to the text of what was measured. */
void bench_add(measured *to, const char *format, ...) __attribute__((format(printf, 2, 3)));

/* The workloads. */
void bench_pair(const workload *of, measured *to);
void bench_deep(const workload *of, measured *to);
void bench_wide(const workload *of, measured *to);
void bench_memory(const workload *of, measured *to);
void bench_pingpong(const workload *of, measured *to);
void bench_stream(const workload *of, measured *to);
void bench_crowd(const workload *of, measured *to);
void bench_queues(const workload *of, measured *to);
void bench_systems(const workload *of, measured *to);
void bench_idle(const workload *of, measured *to);
void bench_storm(const workload *of, measured *to);
void bench_soak(const workload *of, measured *to);

#endif
