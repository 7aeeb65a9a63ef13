/* mqbench: measures calls by the handles of yakyrombe.h. The arguments, or one line on standard
 * input, name a workload and its sizes. The status is 0; 1 if a soak found a fault; 2 if the line
 * is wrong; 3 if a read or a write failed; 4 if memory, a thread or a call was refused. */
#define _GNU_SOURCE
#include "bench.h"

#include <errno.h>
#include <pthread.h>
#include <stdarg.h>
#include <stdatomic.h>
#include <stdio.h>
#include <stdlib.h>
#include <string.h>
#include <sys/resource.h>
#include <time.h>
#include <unistd.h>

#ifndef YAK_BENCH_VERSION
#define YAK_BENCH_VERSION YAK_VERSION
#endif

enum { MOST_BYTES = 256, MOST_WORDS = 12, BAD_LINE = 2, BAD_STREAM = 3, REFUSED = 4 };

static const char USAGE[] =
    "usage: one line on the standard input, of a workload and its sizes\n"
    "  pair N      one process: a send and a receive in turn, N times each\n"
    "  deep D N    one process: fills a queue of depth D with D messages of pseudo-random"
    " priorities and drains it, N times\n"
    "  wide N      32 processes with 16 descriptors each on 64 queues, of which every second one"
    " has a registration: one sends and receives in turn, N times each\n"
    "  pingpong N  two processes in two threads: a message to and fro, N times\n"
    "  stream N    two processes in two threads: one sends N messages, one receives them\n"
    "  crowd P N   P processes in P threads on one queue: half of them send N messages each, half"
    " receive N each\n"
    "  queues P N  P processes in P threads, each with a queue of its own: a send and a receive in"
    " turn, N times each\n"
    "  systems P N the same, each with a system of its own\n"
    "  idle P T    P processes in P threads: one works alone for T milliseconds, on a queue of its"
    " own, while the others are blocked in a receive\n"
    "  storm S N   32 processes in 32 threads: N calls of every kind at random from the seed S,"
    " and their journal is checked\n"
    "  memory M    one process: M calls, a send and a receive in turn, with the memory and the page"
    " faults after 10000, 1000000, 100000000 and all of them\n"
    "  soak T      8 processes in 8 threads: calls at random for T seconds; fails if memory grows "
    "by"
    " a megabyte after 100000 calls, or if a message is lost, comes twice, or too early\n"
    "  bounded E B and one of these lines: the same in a system whose journal has at most E entries"
    " and B payload bytes, E and B up to 1000000000\n"
    "  unstored and one of these lines: the same in a system that stores no journal\n"
    "  prepaid and one of these lines: the same in one that also allocates only at an open\n"
    "  busy C and one of these lines: the same beside C threads that do nothing but count until it"
    " ends, C up to 32\n"
    "N and S from 1 to 10000000, M to 1000000000, D from 1 to 4096, D times N at most 10000000\n"
    "P from 2 to 32, even for a crowd, P times N at most 10000000, T from 1 to 60000\n";

/* ---- what the workloads share ---- */

void bench_stop(int status, const char *format, ...)
{
    static atomic_flag is_ending = ATOMIC_FLAG_INIT;
    va_list of;
    /* Several threads may come here at once; the first one ends the program. */
    while (atomic_flag_test_and_set(&is_ending))
        pause();
    va_start(of, format);
    vfprintf(stderr, format, of);
    va_end(of);
    fputc('\n', stderr);
    _Exit(status);
}

_Noreturn void bench_refuse(uint32_t answer)
{
    static const char *const names[] = {"",       "EAGAIN",   "EBADF",     "EBUSY",        "EEXIST",
                                        "EINVAL", "EMFILE",   "EMSGSIZE",  "ENAMETOOLONG", "ENOENT",
                                        "ENOSPC", "NOMEMORY", "ETIMEDOUT", "JOURNALFULL"};
    if (answer == YAK_NOMEMORY)
        bench_stop(REFUSED, "no memory");
    if (answer < sizeof names / sizeof *names)
        bench_stop(REFUSED, "a call was refused: %s", names[answer]);
    bench_stop(REFUSED, "a call was refused: %u", (unsigned)answer);
}

void bench_make(const workload *of, yak_process *processes, size_t count)
{
    static const yak_process empty = YAK_PROCESS_EMPTY;
    for (size_t i = 0; i < count; ++i)
        processes[i] = empty;
    switch (of->storage) {
    case STORED:
        bench_want(yak_new(processes, count));
        break;
    case UNSTORED:
        bench_want(yak_unstored(processes, count));
        break;
    case PREPAID:
        bench_want(yak_prepaid(processes, count));
        break;
    case BOUNDED:
        bench_want(yak_bounded(processes, count, of->entries, of->bytes));
        break;
    }
}

uint32_t bench_open(yak_process *process, const char *name, uint64_t depth)
{
    const yak_opening opening = {.maxmsg = (int64_t)depth,
                                 .msgsize = MESSAGE_SIZE,
                                 .access = 2,
                                 .create = true,
                                 .limited = true};
    uint32_t d = 0;
    bench_want(yak_open(process, (const uint8_t *)name, strlen(name), &opening, &d));
    return d;
}

static double nanoseconds_of(clockid_t clock)
{
    struct timespec now;
    if (clock_gettime(clock, &now) != 0)
        bench_stop(REFUSED, "no clock");
    return (double)now.tv_sec * 1e9 + (double)now.tv_nsec;
}

double bench_now(void)
{
    return nanoseconds_of(CLOCK_MONOTONIC);
}

double bench_processor_time(void)
{
    return nanoseconds_of(CLOCK_PROCESS_CPUTIME_ID);
}

footprint bench_footprint(void)
{
    footprint it = {0, 0};
    struct rusage usage;
    char line[128];
    FILE *status = fopen("/proc/self/status", "re");
    if (status == 0 || getrusage(RUSAGE_SELF, &usage) != 0)
        bench_stop(REFUSED, "no report of the memory");
    while (fgets(line, sizeof line, status) != 0)
        if (strncmp(line, "VmRSS:", 6) == 0)
            it.resident = strtoull(line + 6, 0, 10);
    fclose(status);
    it.faults = (uint64_t)usage.ru_minflt;
    return it;
}

uint32_t bench_roll(dice *it, uint32_t sides)
{
    it->state = it->state * 6364136223846793005u + 1442695040888963407u;
    return (uint32_t)((it->state >> 33) % sides);
}

void bench_add(measured *to, const char *format, ...)
{
    const size_t used = strlen(to->text);
    va_list of;
    va_start(of, format);
    vsnprintf(to->text + used, sizeof to->text - used, format, of);
    va_end(of);
}

/* ---- the line ---- */

/* A size of a workload: its letter, its range, and where it goes. */
typedef struct size {
    char letter;
    uint64_t least, most;
    size_t at;
} size;

#define SIZE(letter, least, most, field)               \
    {                                                  \
        letter, least, most, offsetof(workload, field) \
    }
static const size ROUNDS = SIZE('N', 1, 10000000, size), DEPTH = SIZE('D', 1, 4096, depth),
                  SHARERS = SIZE('P', 2, 32, processes), TIME = SIZE('T', 1, 60000, size),
                  SEED = SIZE('S', 1, 10000000, depth), CALLS = SIZE('M', 1, 1000000000, size),
                  ENTRIES = SIZE('E', 1, 1000000000, entries),
                  BYTES = SIZE('B', 1, 1000000000, bytes), BUSY = SIZE('C', 1, 32, busy);

static const struct {
    const char *name;
    const size *sizes[2];
    void (*measure)(const workload *of, measured *to);
} WORKLOADS[] = {
    {"pair", {&ROUNDS, 0}, bench_pair},
    {"deep", {&DEPTH, &ROUNDS}, bench_deep},
    {"wide", {&ROUNDS, 0}, bench_wide},
    {"pingpong", {&ROUNDS, 0}, bench_pingpong},
    {"stream", {&ROUNDS, 0}, bench_stream},
    {"crowd", {&SHARERS, &ROUNDS}, bench_crowd},
    {"queues", {&SHARERS, &ROUNDS}, bench_queues},
    {"systems", {&SHARERS, &ROUNDS}, bench_systems},
    {"idle", {&SHARERS, &TIME}, bench_idle},
    {"storm", {&SEED, &ROUNDS}, bench_storm},
    {"memory", {&CALLS, 0}, bench_memory},
    {"soak", {&TIME, 0}, bench_soak},
};
enum { WORKLOAD_COUNT = sizeof WORKLOADS / sizeof *WORKLOADS };

static _Noreturn void name_none(void)
{
    bench_stop(BAD_LINE, "the line names no workload (an empty input prints the usage)");
}

static void read_size(workload *to, const size *of, const char *word)
{
    char *end;
    uint64_t value;
    errno = 0;
    value = strtoull(word, &end, 10);
    if (*word < '0' || *word > '9' || *end != 0 || errno != 0 || value < of->least ||
        value > of->most)
        bench_stop(BAD_LINE, "line 1: %c must be a number from %llu to %llu", of->letter,
                   (unsigned long long)of->least, (unsigned long long)of->most);
    memcpy((char *)to + of->at, &value, sizeof value);
}

/* The sizes that follow a word, which must all be there. */
static char **read_sizes(workload *to, const size *const *sizes, size_t most, char **words)
{
    for (size_t i = 0; i < most && sizes[i] != 0; ++i) {
        if (*words == 0)
            name_none();
        ++words;
    }
    words -= (ptrdiff_t)(most == 2 && sizes[1] != 0 ? 2 : 1);
    for (size_t i = 0; i < most && sizes[i] != 0; ++i)
        read_size(to, sizes[i], *words++);
    return words;
}

/* The conditions in front of the workload: busy, then bounded, unstored or prepaid. */
static char **read_conditions(workload *to, char **words)
{
    static const size *const busy[] = {&BUSY, 0}, *const bounds[] = {&ENTRIES, &BYTES};
    if (*words != 0 && strcmp(*words, "busy") == 0)
        words = read_sizes(to, busy, 1, words + 1);
    if (*words != 0 && (strcmp(*words, "unstored") == 0 || strcmp(*words, "prepaid") == 0)) {
        to->storage = **words == 'u' ? UNSTORED : PREPAID;
        ++words;
    } else if (*words != 0 && strcmp(*words, "bounded") == 0) {
        to->storage = BOUNDED;
        words = read_sizes(to, bounds, 2, words + 1);
    }
    return words;
}

/* The number of the workload that the words ask for. */
static size_t read_line(workload *to, char **words)
{
    char **rest = read_conditions(to, words);
    for (size_t i = 0; i < WORKLOAD_COUNT && *rest != 0; ++i)
        if (strcmp(*rest, WORKLOADS[i].name) == 0) {
            size_t wanted = WORKLOADS[i].sizes[1] != 0 ? 2 : 1, there = 0;
            while (rest[1 + there] != 0)
                ++there;
            if (there != wanted)
                name_none();
            to->name = WORKLOADS[i].name;
            read_sizes(to, WORKLOADS[i].sizes, 2, rest + 1);
            if (strcmp(to->name, "deep") == 0 && to->depth * to->size > 10000000)
                bench_stop(BAD_LINE, "line 1: D times N must be at most 10000000");
            if (strcmp(to->name, "crowd") == 0 && to->processes % 2 != 0)
                bench_stop(BAD_LINE, "line 1: P must be even");
            if (WORKLOADS[i].sizes[0] == &SHARERS && WORKLOADS[i].sizes[1] == &ROUNDS &&
                to->processes * to->size > 10000000)
                bench_stop(BAD_LINE, "line 1: P times N must be at most 10000000");
            if (strcmp(to->name, "soak") == 0 && rest == words)
                to->storage = UNSTORED;
            return i;
        }
    name_none();
}

/* The words of the one line of standard input; none if it is empty. */
static void read_input(char *text, char **words)
{
    size_t len = fread(text, 1, MOST_BYTES + 1, stdin), count = 0;
    if (ferror(stdin))
        bench_stop(BAD_STREAM, "input fault");
    if (len > 0 && text[len - 1] == '\n')
        --len;
    if (len > MOST_BYTES || memchr(text, '\n', len) != 0 || memchr(text, 0, len) != 0)
        name_none();
    text[len] = 0;
    for (char *word = strtok(text, " "); word != 0; word = strtok(0, " ")) {
        if (count == MOST_WORDS)
            name_none();
        words[count++] = word;
    }
    words[count] = 0;
}

/* ---- threads that count beside a workload ---- */

static atomic_bool is_over;

static void *count_until_over(void *unused)
{
    for (volatile uint64_t counted = 0; !atomic_load_explicit(&is_over, memory_order_relaxed);)
        ++counted;
    return unused;
}

static void measure(const workload *of, size_t number, measured *to)
{
    pthread_t busy[MOST_PROCESSES];
    for (uint64_t i = 0; i < of->busy; ++i)
        if (pthread_create(&busy[i], 0, count_until_over, 0) != 0)
            bench_stop(REFUSED, "no thread");
    WORKLOADS[number].measure(of, to);
    atomic_store(&is_over, true);
    for (uint64_t i = 0; i < of->busy; ++i)
        pthread_join(busy[i], 0);
}

static void write_out(const char *text)
{
    if (fputs(text, stdout) < 0 || fflush(stdout) != 0)
        bench_stop(BAD_STREAM, "output fault");
}

int main(int count, char **arguments)
{
    char text[MOST_BYTES + 2], line[1200], *words[MOST_WORDS + 1] = {0};
    workload of = {.storage = STORED};
    measured result = {.operations = 0};
    size_t number;
    if (count == 2 && strcmp(arguments[1], "--help") == 0) {
        write_out(
            "mqbench WORKLOAD SIZES.. measures a workload, and mqbench alone one of a line:\n");
        write_out(USAGE);
        return 0;
    }
    if (count == 2 && strcmp(arguments[1], "--version") == 0) {
        write_out("mqbench " YAK_BENCH_VERSION "\n");
        return 0;
    }
    if (count == 1)
        read_input(text, words);
    if (count == 1 && words[0] == 0) {
        write_out(USAGE);
        return 0;
    }
    number = read_line(&of, count == 1 ? words : arguments + 1);
    measure(&of, number, &result);
    snprintf(line, sizeof line, "%s: %llu operations, %.1f ns each%s\n", of.name,
             (unsigned long long)result.operations,
             result.nanoseconds / (double)(result.operations == 0 ? 1 : result.operations),
             result.text);
    write_out(line);
    return 0;
}
