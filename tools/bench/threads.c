/* Workloads of several threads, each with a process of its own. */
#include "bench.h"

#include <pthread.h>
#include <stdatomic.h>
#include <stdio.h>
#include <time.h>

enum { REFUSED = 4 };

/* What a thread does in each round. */
typedef enum part { SENDS, RECEIVES, ASKS, REPLIES, PAIRS } part;

typedef struct member {
    pthread_t thread;
    yak_process *process;
    part part;
    uint64_t rounds;
    uint32_t to, back;
} member;

static void *take_part(void *of)
{
    const member *me = of;
    for (uint64_t i = 0; i < me->rounds; ++i)
        switch (me->part) {
        case SENDS:
            bench_send(me->process, me->to, 0);
            break;
        case RECEIVES:
            bench_receive(me->process, me->to);
            break;
        case ASKS:
            bench_send(me->process, me->to, 0);
            bench_receive(me->process, me->back);
            break;
        case REPLIES:
            bench_receive(me->process, me->to);
            bench_send(me->process, me->back, 0);
            break;
        case PAIRS:
            bench_send(me->process, me->to, 0);
            bench_receive(me->process, me->to);
            break;
        }
    return 0;
}

/* Lets each member take its part in a thread of its own, and returns how long that takes. */
static double run_members(member *members, uint64_t count)
{
    const double start = bench_now();
    for (uint64_t i = 0; i < count; ++i)
        if (pthread_create(&members[i].thread, 0, take_part, &members[i]) != 0)
            bench_stop(REFUSED, "no thread");
    for (uint64_t i = 0; i < count; ++i)
        pthread_join(members[i].thread, 0);
    return bench_now() - start;
}

/* Processes that take the two parts in turn, each in a thread of its own. */
static void in_threads(const workload *of, measured *to, uint64_t count, part even, part odd)
{
    yak_process processes[MOST_PROCESSES];
    member members[MOST_PROCESSES];
    bench_make(of, processes, count);
    for (uint64_t i = 0; i < count; ++i)
        members[i] = (member){.process = &processes[i],
                              .part = i % 2 == 0 ? even : odd,
                              .rounds = of->size,
                              .to = bench_open(&processes[i], "/members", USUAL_DEPTH),
                              .back = bench_open(&processes[i], "/back", USUAL_DEPTH)};
    to->nanoseconds = run_members(members, count);
    bench_want(yak_finish(processes, count));
}

/* Threads with a queue of their own each: in systems of so many processes. */
static void in_own_queues(const workload *of, measured *to, uint64_t together)
{
    yak_process processes[MOST_PROCESSES];
    member members[MOST_PROCESSES];
    const uint64_t count = of->processes;
    for (uint64_t i = 0; i < count; i += together)
        bench_make(of, &processes[i], together);
    for (uint64_t i = 0; i < count; ++i) {
        const char name[] = {'/', (char)('A' + i), 0};
        members[i] = (member){.process = &processes[i],
                              .part = PAIRS,
                              .rounds = of->size,
                              .to = bench_open(&processes[i], name, USUAL_DEPTH)};
    }
    to->operations = 2 * count * of->size;
    to->nanoseconds = run_members(members, count);
    for (uint64_t i = 0; i < count; i += together)
        bench_want(yak_finish(&processes[i], together));
}

void bench_queues(const workload *of, measured *to)
{
    in_own_queues(of, to, of->processes);
}

void bench_systems(const workload *of, measured *to)
{
    in_own_queues(of, to, 1);
}

void bench_pingpong(const workload *of, measured *to)
{
    to->operations = 4 * of->size;
    in_threads(of, to, 2, ASKS, REPLIES);
}

void bench_stream(const workload *of, measured *to)
{
    to->operations = 2 * of->size;
    in_threads(of, to, 2, SENDS, RECEIVES);
}

void bench_crowd(const workload *of, measured *to)
{
    to->operations = of->processes * of->size;
    in_threads(of, to, of->processes, SENDS, RECEIVES);
}

/* One process works while the others are blocked. Then it sends each of them a message. */
void bench_idle(const workload *of, measured *to)
{
    yak_process processes[MOST_PROCESSES];
    member members[MOST_PROCESSES];
    const struct timespec pause = {.tv_nsec = 1000000};
    const uint64_t blocked = of->processes - 1;
    double start, processor;
    uint32_t own, shared;
    bench_make(of, processes, of->processes);
    for (uint64_t i = 1; i <= blocked; ++i) {
        members[i] = (member){.process = &processes[i],
                              .part = RECEIVES,
                              .rounds = 1,
                              .to = bench_open(&processes[i], "/blocked", USUAL_DEPTH)};
        if (pthread_create(&members[i].thread, 0, take_part, &members[i]) != 0)
            bench_stop(REFUSED, "no thread");
    }
    own = bench_open(&processes[0], "/own", USUAL_DEPTH);
    shared = bench_open(&processes[0], "/blocked", USUAL_DEPTH);
    nanosleep(&pause, 0);
    start = bench_now();
    processor = bench_processor_time();
    while (bench_now() - start < (double)of->size * 1e6) {
        bench_send(&processes[0], own, 0);
        bench_receive(&processes[0], own);
        to->operations += 2;
    }
    to->nanoseconds = bench_now() - start;
    processor = bench_processor_time() - processor;
    for (uint64_t i = 1; i <= blocked; ++i)
        bench_send(&processes[0], shared, 0);
    for (uint64_t i = 1; i <= blocked; ++i)
        pthread_join(members[i].thread, 0);
    bench_add(to, "; %.0f ms of processor time in %.0f ms", processor / 1e6, to->nanoseconds / 1e6);
    bench_want(yak_finish(processes, of->processes));
}
