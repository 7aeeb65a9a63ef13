/* Workloads of random calls: a storm of every kind of call, and a soak. */
#include "bench.h"

#include <pthread.h>
#include <stdatomic.h>
#include <stdio.h>
#include <stdlib.h>
#include <string.h>
#include <time.h>

enum { FAULTY = 1, REFUSED = 4, STORM_PROCESSES = 32 };

/* ---- how often each call and each error came ---- */

enum {
    OPEN,
    CLOSE,
    UNLINK,
    SEND,
    RECEIVE,
    TIMED_SEND,
    TIMED_RECEIVE,
    GETATTR,
    SETATTR,
    NOTIFY,
    NOTICE,
    EXIT,
    KINDS,
    MOST_ANSWER = 32
};

struct tally {
    _Atomic uint64_t kinds[KINDS], answers[MOST_ANSWER];
};

tally *bench_tally(void)
{
    static tally it;
    return &it;
}

static uint32_t count(tally *to, int kind, uint32_t answer)
{
    ++to->kinds[kind];
    if (answer < MOST_ANSWER)
        ++to->answers[answer];
    return answer;
}

void bench_tally_text(const tally *counts, char *to, size_t size)
{
    static const char *const kinds[KINDS] = {"open",    "close",      "unlink",        "send",
                                             "receive", "timed send", "timed receive", "getattr",
                                             "setattr", "notify",     "notice",        "exit"};
    static const char *const errors[] = {"",       "EAGAIN",   "EBADF",    "EBUSY",        "EEXIST",
                                         "EINVAL", "EMFILE",   "EMSGSIZE", "ENAMETOOLONG", "ENOENT",
                                         "ENOSPC", "NOMEMORY", "ETIMEDOUT"};
    size_t used = 0;
    for (int i = 0; i < KINDS && used < size; ++i)
        used += (size_t)snprintf(to + used, size - used, "; %s %llu", kinds[i],
                                 (unsigned long long)counts->kinds[i]);
    for (size_t i = 1; i < sizeof errors / sizeof *errors && used < size; ++i)
        if (counts->answers[i] != 0)
            used += (size_t)snprintf(to + used, size - used, "; %s %llu", errors[i],
                                     (unsigned long long)counts->answers[i]);
}

/* ---- a random call ---- */

static const char *const NAMES[] = {"/a", "/b", "/c", "/d", "/e", "/f", "/g"};

/* One of the lowest descriptors, which are mostly open, or any, with one that never is. */
static uint32_t descriptor(dice *at)
{
    return bench_roll(at, 8) == 0 ? bench_roll(at, 17) : bench_roll(at, 3);
}

static yak_moment soon(dice *at)
{
    struct timespec now;
    clock_gettime(CLOCK_REALTIME, &now);
    now.tv_nsec += bench_roll(at, 2000000);
    return (yak_moment){now.tv_sec + now.tv_nsec / 1000000000, now.tv_nsec % 1000000000};
}

static void open_random(yak_process *process, dice *at, tally *counts)
{
    const char *name = NAMES[bench_roll(at, 7)];
    const uint32_t access = bench_roll(at, 4);
    const yak_opening opening = {.maxmsg = bench_roll(at, 5),
                                 .msgsize = MESSAGE_SIZE,
                                 .access = access < 2 ? access : 2,
                                 .create = bench_roll(at, 4) != 0,
                                 .exclusive = bench_roll(at, 4) == 0,
                                 .nonblock = bench_roll(at, 2) == 0,
                                 .limited = true};
    uint32_t d;
    count(counts, OPEN, yak_open(process, (const uint8_t *)name, strlen(name), &opening, &d));
}

static void end_random(yak_process *process, dice *at, tally *counts)
{
    const uint32_t which = bench_roll(at, 8);
    const char *name = NAMES[bench_roll(at, 7)];
    if (which == 0)
        count(counts, EXIT, yak_exit(process));
    else if (which <= 2)
        count(counts, UNLINK, yak_unlink(process, (const uint8_t *)name, strlen(name)));
    else
        count(counts, CLOSE, yak_close(process, descriptor(at)));
}

/* Sends and receives have a deadline, so that none waits for ever. */
static void carry_random(yak_process *process, dice *at, tally *counts)
{
    uint8_t bytes[20] = "a message of a storm";
    const uint32_t d = descriptor(at), len = bench_roll(at, 18);
    const yak_moment until = soon(at);
    yak_attributes attributes;
    yak_message message;
    if (yak_getattr(process, d, &attributes) == YAK_DONE && attributes.nonblock) {
        if (bench_roll(at, 2) == 0)
            count(counts, SEND, yak_send(process, d, bytes, len, bench_roll(at, 33000)));
        else
            count(counts, RECEIVE, yak_receive(process, d, bytes, sizeof bytes, &message));
    } else if (bench_roll(at, 2) == 0) {
        count(counts, TIMED_SEND,
              yak_timed_send(process, d, bytes, len, bench_roll(at, 33000), &until));
    } else {
        count(counts, TIMED_RECEIVE,
              yak_timed_receive(process, d, bytes, sizeof bytes, &message, &until));
    }
}

static void ask_random(yak_process *process, dice *at, tally *counts)
{
    const uint32_t d = descriptor(at);
    yak_attributes attributes;
    uint64_t value;
    switch (bench_roll(at, 4)) {
    case 0:
        count(counts, GETATTR, yak_getattr(process, d, &attributes));
        break;
    case 1:
        count(counts, SETATTR, yak_setattr(process, d, bench_roll(at, 2) == 0, &attributes));
        break;
    case 2:
        count(counts, NOTIFY, yak_notify(process, d, bench_roll(at, 3) != 0, d));
        break;
    default:
        count(counts, NOTICE, yak_next_notice(process, &value));
        break;
    }
}

uint64_t bench_gust(yak_process *process, dice *at, tally *counts)
{
    const uint32_t which = bench_roll(at, 20);
    if (which <= 2)
        open_random(process, at, counts);
    else if (which <= 4)
        end_random(process, at, counts);
    else if (which <= 14)
        carry_random(process, at, counts);
    else
        ask_random(process, at, counts);
    return 1;
}

/* ---- a storm ---- */

typedef struct share {
    pthread_t thread;
    yak_process *process;
    dice at;
    uint64_t calls;
} share;

static void *storm_in_thread(void *of)
{
    share *me = of;
    for (uint64_t i = 0; i < me->calls; ++i)
        bench_gust(me->process, &me->at, bench_tally());
    return 0;
}

void bench_storm(const workload *of, measured *to)
{
    yak_process processes[STORM_PROCESSES];
    share shares[STORM_PROCESSES];
    double start;
    bench_make(of, processes, STORM_PROCESSES);
    start = bench_now();
    for (unsigned i = 0; i < STORM_PROCESSES; ++i) {
        shares[i] = (share){.process = &processes[i],
                            .at = {of->depth * 1000 + i},
                            .calls = (of->size + STORM_PROCESSES - 1) / STORM_PROCESSES};
        to->operations += shares[i].calls;
        if (pthread_create(&shares[i].thread, 0, storm_in_thread, &shares[i]) != 0)
            bench_stop(REFUSED, "no thread");
    }
    for (unsigned i = 0; i < STORM_PROCESSES; ++i)
        pthread_join(shares[i].thread, 0);
    to->nanoseconds = bench_now() - start;
    bench_add(to, "; seed %llu", (unsigned long long)of->depth);
    bench_tally_text(bench_tally(), to->text + strlen(to->text),
                     sizeof to->text - strlen(to->text) - 32);
    if (of->storage == STORED || of->storage == BOUNDED) {
        bench_want(yak_check(&processes[0]));
        bench_add(to, "; history ok");
    }
    bench_want(yak_finish(processes, STORM_PROCESSES));
}

/* ---- a soak ---- */

enum {
    SOAKED = 8,
    CARRIERS = 4,
    QUEUES = 4,
    PRIORITIES = 4,
    SOAK_DEPTH = 8,
    SETTLED = 100000,
    MOST_GROWTH = 1024,
    BATCH = 64
};

/* A message says who sent it, and which one it is among those of its sender, queue and priority. */
typedef struct carried {
    uint32_t sender, queue, prio, number;
} carried;

static atomic_bool is_over;
static _Atomic uint64_t calls, sent, received;
/* The number of the next message that may come, by sender, queue and priority. Two receivers can
 * pass each other behind a receive, so each receiver wants its own messages to rise. */
typedef struct seen {
    uint32_t next[CARRIERS][QUEUES][PRIORITIES];
} seen;

typedef struct carrier {
    pthread_t thread;
    yak_process *process;
    uint32_t number, queues[QUEUES];
    dice at;
    seen seen;
    uint32_t made[QUEUES][PRIORITIES];
} carrier;

static void note_received(seen *by, const carried *it, size_t len, uint32_t prio)
{
    uint32_t *next;
    if (len != sizeof *it || it->sender >= CARRIERS || it->queue >= QUEUES || it->prio != prio ||
        prio >= PRIORITIES)
        bench_stop(FAULTY, "a message came that was not sent");
    next = &by->next[it->sender][it->queue][prio];
    if (it->number < *next)
        bench_stop(FAULTY, "a message came before an earlier one of its sender and priority");
    *next = it->number + 1;
    ++received;
}

static void carry_one(carrier *me)
{
    const uint32_t queue = bench_roll(&me->at, QUEUES), prio = bench_roll(&me->at, PRIORITIES);
    carried it = {me->number, queue, prio, me->made[queue][prio]};
    yak_message message;
    uint32_t answer;
    if (bench_roll(&me->at, 2) == 0) {
        answer = yak_send(me->process, me->queues[queue], (const uint8_t *)&it, sizeof it, prio);
        if (answer == YAK_DONE) {
            ++me->made[queue][prio];
            ++sent;
        }
    } else {
        answer = yak_receive(me->process, me->queues[queue], (uint8_t *)&it, sizeof it, &message);
        if (answer == YAK_DONE)
            note_received(&me->seen, &it, message.len, message.prio);
    }
    if (answer != YAK_DONE && answer != YAK_AGAIN)
        bench_want(answer);
}

static void *soak_in_thread(void *of)
{
    carrier *me = of;
    while (!atomic_load(&is_over)) {
        for (int i = 0; i < BATCH; ++i)
            if (me->number < CARRIERS)
                carry_one(me);
            else
                bench_gust(me->process, &me->at, bench_tally());
        calls += BATCH;
    }
    return 0;
}

static void open_queues(yak_process *process, uint32_t *queues)
{
    const yak_opening opening = {.maxmsg = SOAK_DEPTH,
                                 .msgsize = sizeof(carried),
                                 .access = 2,
                                 .create = true,
                                 .nonblock = true,
                                 .limited = true};
    for (unsigned i = 0; i < QUEUES; ++i) {
        const uint8_t name[] = {'/', 's', 'o', 'a', 'k', (uint8_t)('0' + i)};
        bench_want(yak_open(process, name, sizeof name, &opening, &queues[i]));
    }
}

/* Waits until the time is over, and watches the memory. */
static void watch(const workload *of, measured *to, double start)
{
    const struct timespec pause = {.tv_nsec = 10000000};
    uint64_t settled = 0;
    while (bench_now() - start < (double)of->size * 1e9) {
        nanosleep(&pause, 0);
        if (settled == 0 && calls >= SETTLED)
            settled = bench_footprint().resident;
    }
    if (settled != 0 && bench_footprint().resident > settled + MOST_GROWTH &&
        (of->storage == UNSTORED || of->storage == PREPAID))
        bench_stop(FAULTY, "memory grew by %llu KB",
                   (unsigned long long)(bench_footprint().resident - settled));
    bench_add(to, "%llu KB, at the end %llu KB", (unsigned long long)settled,
              (unsigned long long)bench_footprint().resident);
}

void bench_soak(const workload *of, measured *to)
{
    yak_process processes[SOAKED + 1];
    static carrier carriers[SOAKED];
    measured memory = {.operations = 0};
    uint32_t left[QUEUES];
    carried it;
    yak_message message;
    double start;
    bench_make(of, processes, SOAKED + 1);
    open_queues(&processes[SOAKED], left);
    for (unsigned i = 0; i < SOAKED; ++i) {
        carriers[i] = (carrier){.process = &processes[i], .number = i, .at = {7 + i}};
        if (i < CARRIERS)
            open_queues(&processes[i], carriers[i].queues);
    }
    start = bench_now();
    for (unsigned i = 0; i < SOAKED; ++i)
        if (pthread_create(&carriers[i].thread, 0, soak_in_thread, &carriers[i]) != 0)
            bench_stop(REFUSED, "no thread");
    watch(of, &memory, start);
    atomic_store(&is_over, true);
    for (unsigned i = 0; i < SOAKED; ++i)
        pthread_join(carriers[i].thread, 0);
    to->nanoseconds = bench_now() - start;
    to->operations = calls;
    for (unsigned i = 0; i < QUEUES; ++i)
        while (yak_receive(&processes[SOAKED], left[i], (uint8_t *)&it, sizeof it, &message) ==
               YAK_DONE)
            ++received;
    if (sent != received)
        bench_stop(FAULTY, "messages were lost or came twice: %llu sent, %llu received",
                   (unsigned long long)sent, (unsigned long long)received);
    bench_add(to, "; %llu messages received once and in order; %s", (unsigned long long)received,
              memory.text);
    bench_want(yak_finish(processes, SOAKED + 1));
}
