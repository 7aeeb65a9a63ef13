/* Workloads of one thread. */
#include "bench.h"

#include <stdio.h>

enum {
    WIDE_PROCESSES = 32,
    WIDE_QUEUES = 64,
    WIDE_DESCRIPTORS = 16,
    ENTRY = 64,
    LIMITS = 56,
    REFUSED = 4
};

/* Sends and receives in turn, this number of times each. */
static void pairs(yak_process *process, uint32_t d, uint64_t rounds)
{
    for (uint64_t i = 0; i < rounds; ++i) {
        bench_send(process, d, 0);
        bench_receive(process, d);
    }
}

/* Ends the system of one process, and adds what its journal takes: ENTRY bytes for each of its
 * entries, of which the first opened the queue, LIMITS more for that one, and the payload. */
static void add_journal(const workload *of, measured *to, yak_process *process, uint64_t payload)
{
    const uint64_t entries = to->operations + 1,
                   tenths = 10 * (ENTRY * entries + LIMITS + payload) / to->operations;
    uint8_t line[256];
    size_t len;
    if (of->storage == STORED || of->storage == BOUNDED) {
        bench_want(yak_entry(process, entries - 1, line, sizeof line, &len));
        if (yak_entry(process, entries, line, sizeof line, &len) != YAK_NO_ENTRY)
            bench_stop(REFUSED, "the journal has more than %llu entries",
                       (unsigned long long)entries);
        bench_add(to, "; %llu entries, %llu payload bytes, %llu.%llu bytes each",
                  (unsigned long long)entries, (unsigned long long)payload,
                  (unsigned long long)(tenths / 10), (unsigned long long)(tenths % 10));
    }
    bench_want(yak_free(process));
}

static void measure_one(const workload *of, measured *to,
                        void (*work)(const workload *of, yak_process *process, uint32_t d))
{
    static const char name[] = "/bench";
    yak_process process;
    double start;
    uint32_t d;
    bench_make(of, &process, 1);
    d = bench_open(&process, name, of->depth == 0 ? USUAL_DEPTH : of->depth);
    start = bench_now();
    work(of, &process, d);
    to->nanoseconds = bench_now() - start;
    add_journal(of, to, &process, sizeof name - 1 + MESSAGE_SIZE * (to->operations / 2));
}

static void do_pairs(const workload *of, yak_process *process, uint32_t d)
{
    pairs(process, d, of->size);
}

void bench_pair(const workload *of, measured *to)
{
    to->operations = 2 * of->size;
    measure_one(of, to, do_pairs);
}

/* Fills the queue with messages of pseudorandom priorities, and drains it. */
static void do_deep(const workload *of, yak_process *process, uint32_t d)
{
    for (uint64_t round = 0; round < of->size; ++round) {
        dice at = {round};
        for (uint64_t i = 0; i < of->depth; ++i)
            bench_send(process, d, bench_roll(&at, 32768));
        for (uint64_t i = 0; i < of->depth; ++i)
            bench_receive(process, d);
    }
}

void bench_deep(const workload *of, measured *to)
{
    to->operations = 2 * of->depth * of->size;
    measure_one(of, to, do_deep);
}

/* Process p has descriptors on the 16 queues from p on, and the last one works on the last queue.
 */
void bench_wide(const workload *of, measured *to)
{
    yak_process processes[WIDE_PROCESSES];
    double start;
    bench_make(of, processes, WIDE_PROCESSES);
    for (unsigned p = 0; p < WIDE_PROCESSES; ++p)
        for (unsigned k = 0; k < WIDE_DESCRIPTORS; ++k) {
            const unsigned queue = (2 * p + k + 2) % WIDE_QUEUES;
            char name[8];
            uint32_t d;
            snprintf(name, sizeof name, "/w%u", queue);
            d = bench_open(&processes[p], name, USUAL_DEPTH);
            if (p % 8 == 0 && queue % 2 == 0 && k < 8)
                yak_notify(&processes[p], d, true, queue);
        }
    start = bench_now();
    pairs(&processes[WIDE_PROCESSES - 1], WIDE_DESCRIPTORS - 1, of->size);
    to->nanoseconds = bench_now() - start;
    to->operations = 2 * of->size;
    /* yak_finish would check the journal, which takes longer than the calls. */
    for (unsigned p = 0; p < WIDE_PROCESSES; ++p)
        bench_want(yak_free(&processes[p]));
}

void bench_memory(const workload *of, measured *to)
{
    static const uint64_t marks[] = {10000, 1000000, 100000000};
    yak_process process;
    double start;
    uint32_t d;
    uint64_t mark = 0;
    bench_make(of, &process, 1);
    d = bench_open(&process, "/bench", USUAL_DEPTH);
    start = bench_now();
    for (uint64_t made = 0; made < of->size;) {
        if (made % 2 == 0)
            bench_send(&process, d, 0);
        else
            bench_receive(&process, d);
        ++made;
        if ((mark < sizeof marks / sizeof *marks && made == marks[mark]) || made == of->size) {
            const footprint it = bench_footprint();
            mark += made != of->size;
            bench_add(to, "; %llu KB and %llu page faults after %llu",
                      (unsigned long long)it.resident, (unsigned long long)it.faults,
                      (unsigned long long)made);
        }
    }
    to->nanoseconds = bench_now() - start;
    to->operations = of->size;
    bench_want(yak_free(&process));
}
