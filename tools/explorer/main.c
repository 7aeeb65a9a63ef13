/* yak-explore runs a program under every schedule that can matter, and reports how it can end.
 *
 * The machine of libyakyrombe-explore runs the program's threads by a list of choices
 * (c/machine.h); an engine says which list is next; yak-explore carries choices and traces between
 * the two, and keeps what the runs came to. */
#define _GNU_SOURCE
#include "explorer.h"

#include <errno.h>
#include <fcntl.h>
#include <getopt.h>
#include <limits.h>
#include <sched.h>
#include <signal.h>
#include <stdarg.h>
#include <stdlib.h>
#include <string.h>
#include <sys/mman.h>
#include <time.h>
#include <unistd.h>

static const char *const help =
    "usage: yak-explore [OPTION..] PROGRAM [ARGUMENT..]\n"
    "Runs a program under every schedule of its threads that can matter.\n"
    "\n"
    "  --time any|last  a deadline passes at any moment of its wait (any), or only if no thread\n"
    "                   can run (last); any if left out\n"
    "  --bounds MOST    schedules with 0 to MOST preemptions come first, or 'none'; 2 if left out\n"
    "  --budget RUNS    the most runs, 100000 if left out\n"
    "  --seconds N      the most seconds; no limit if 0 or left out\n"
    "  --early RUNS     random runs before the search, 50 if left out\n"
    "  --check RUNS     random runs after the search, 200 if left out\n"
    "  --steps MOST     the most steps of a run, 2000 if left out\n"
    "  --polls MOST     how often a thread polls in vain until others go on, 20 if left out; 0 is\n"
    "                   no limit\n"
    "  --spurious MOST  the most waits of a thread for a condition that end by themselves, 0 if "
    "left\n"
    "                   out\n"
    "  --signals MOST   the most waits of a thread that a signal interrupts (EINTR), 0 if left "
    "out\n"
    "  --refuse MOST    the most allocations of a thread that are refused, 0 if left out\n"
    "  --step-seconds N the most seconds that the processor computes a step, 10 if left out\n"
    "  --stop           stop at the first failure\n"
    "  --output DIR     write a folder for each failure: page.html, lanes, schedule, journal, "
    "threads, output\n"
    "  --help           say this\n"
    "  --version        say which version this is\n"
    "\n"
    "The status is 0 if every order was tried and none fails, 5 if one fails, 6 if not every "
    "order\n"
    "was tried, and 2 if the arguments are wrong.\n";

void stop(const char *format, ...)
{
    va_list rest;
    fprintf(stderr, "yak-explore: ");
    va_start(rest, format);
    vfprintf(stderr, format, rest);
    va_end(rest);
    fputc('\n', stderr);
    exit(WRONG_USE);
}

void *need(void *memory)
{
    if (memory == 0)
        stop("no memory");
    return memory;
}

char *find_beside(const char *name, const char *const *folders)
{
    char here[PATH_MAX], *path, *real;
    ssize_t len = readlink("/proc/self/exe", here, sizeof here - 1);
    here[len > 0 ? len : 0] = 0;
    if (strrchr(here, '/') != 0)
        *strrchr(here, '/') = 0;
    for (; *folders != 0; ++folders) {
        if (asprintf(&path, "%s/%s/%s", here, *folders, name) < 0)
            stop("no memory");
        real = realpath(path, 0);
        free(path);
        if (real != 0)
            return real;
    }
    return 0;
}

/* Whether a program has the machine in it, as seed.h puts it there: only that has this message. */
static bool has_machine(const char *path)
{
    static const char message[] = "YAK_SEED=%s is not";
    const int file = open(path, O_RDONLY | O_CLOEXEC);
    const off_t size = file >= 0 ? lseek(file, 0, SEEK_END) : 0;
    void *bytes = size > 0 ? mmap(0, (size_t)size, PROT_READ, MAP_PRIVATE, file, 0) : MAP_FAILED;
    bool has = false;
    if (bytes != MAP_FAILED) {
        has = memmem(bytes, (size_t)size, message, sizeof message - 1) != 0;
        munmap(bytes, (size_t)size);
    }
    if (file >= 0)
        close(file);
    return has;
}

/* The library beside yak-explore, or where it is installed; else the system looks for it. Null if
 * the program needs none. */
static char *find_library(const char *program)
{
    static const char *const folders[] = {".", YAK_NEAR, 0};
    const char *named = getenv("YAK_EXPLORE_LIBRARY");
    char *found;
    if (has_machine(program))
        return 0;
    if (named != 0 && *named != 0)
        return need(strdup(named));
    found = find_beside("libyakyrombe-explore.so", folders);
    return found != 0 ? found : need(strdup("libyakyrombe-explore.so"));
}

/* ---- options ---- */

static unsigned long number_of(const char *option, const char *text, unsigned long most)
{
    char *end;
    unsigned long it;
    errno = 0;
    it = strtoul(text, &end, 10);
    if (*text < '0' || *text > '9' || *end != 0 || errno != 0 || it > most)
        stop("--%s takes a whole number up to %lu, not %s", option, most, text);
    return it;
}

enum {
    BOUNDS = 1,
    BUDGET,
    EARLY,
    CHECK,
    SECONDS,
    STEPS,
    POLLS,
    STEP_SECONDS,
    SPURIOUS,
    SIGNALS,
    REFUSE,
    TIME,
    STOP,
    OUTPUT,
    HELP,
    VERSION
};

static const struct option names[] = {
    {"bounds", required_argument, 0, BOUNDS},
    {"budget", required_argument, 0, BUDGET},
    {"early", required_argument, 0, EARLY},
    {"check", required_argument, 0, CHECK},
    {"seconds", required_argument, 0, SECONDS},
    {"steps", required_argument, 0, STEPS},
    {"polls", required_argument, 0, POLLS},
    {"step-seconds", required_argument, 0, STEP_SECONDS},
    {"spurious", required_argument, 0, SPURIOUS},
    {"signals", required_argument, 0, SIGNALS},
    {"refuse", required_argument, 0, REFUSE},
    {"time", required_argument, 0, TIME},
    {"stop", no_argument, 0, STOP},
    {"output", required_argument, 0, OUTPUT},
    {"help", no_argument, 0, HELP},
    {"version", no_argument, 0, VERSION},
    {0, 0, 0, 0},
};

static void take_option(options *to, int which, const char *text)
{
    switch (which) {
    case BOUNDS:
        to->bounds = strcmp(text, "none") == 0 ? 0 : number_of("bounds", text, 1000) + 1;
        break;
    case BUDGET:
        to->budget = number_of("budget", text, 1000000000);
        break;
    case EARLY:
        to->early = number_of("early", text, 1000000000);
        break;
    case CHECK:
        to->check = number_of("check", text, 1000000000);
        break;
    case SECONDS:
        to->seconds = number_of("seconds", text, 1000000000);
        break;
    case STEPS:
        to->steps = number_of("steps", text, YAK_MOST_STEPS);
        break;
    case POLLS:
        to->polls = number_of("polls", text, 1000000000);
        break;
    case SPURIOUS:
        to->spurious = number_of("spurious", text, 1000000);
        break;
    case SIGNALS:
        to->signals = number_of("signals", text, 1000000);
        break;
    case REFUSE:
        to->refusals = number_of("refuse", text, 1000000);
        break;
    case STEP_SECONDS:
        to->step_seconds = number_of("step-seconds", text, 1000000000);
        break;
    case TIME:
        if (strcmp(text, "any") != 0 && strcmp(text, "last") != 0)
            stop("--time takes any or last, not %s", text);
        to->is_last = strcmp(text, "last") == 0;
        break;
    case STOP:
        to->stops = true;
        break;
    case OUTPUT:
        to->output = text;
        break;
    case HELP:
        fputs(help, stdout);
        exit(0);
    case VERSION:
        puts("yak-explore (Yakyrombe) " YAK_VERSION);
        exit(0);
    default:
        exit(WRONG_USE);
    }
}

static options read_options(int count, char **words)
{
    options it = {.bounds = 3,
                  .budget = 100000,
                  .early = 50,
                  .check = 200,
                  .steps = 2000,
                  .polls = YAK_POLLS,
                  .step_seconds = 10};
    for (int which; (which = getopt_long(count, words, "+", names, 0)) != -1;)
        take_option(&it, which, optarg);
    it.words = words + optind;
    if (*it.words == 0)
        stop("there is no program to run; see yak-explore --help");
    clock_gettime(CLOCK_MONOTONIC, &it.until);
    it.until.tv_sec += (time_t)it.seconds;
    return it;
}

/* ---- the exploration ---- */

typedef struct exploration {
    const options *options;
    program program;
    engine engine;
    outcomes outcomes;
    unsigned long runs;
    struct timespec began;
    char *done; /* what the engine says of the end, or null */
    bool is_late;
    bool is_cut; /* a run had more steps than it may have */
    char *doubt; /* why a run was not decided, or null */
} exploration;

int milliseconds_left(const options *of, int most)
{
    struct timespec now;
    double left;
    if (of->seconds == 0)
        return most;
    clock_gettime(CLOCK_MONOTONIC, &now);
    left = (double)(of->until.tv_sec - now.tv_sec) * 1e3 +
           (double)(of->until.tv_nsec - now.tv_nsec) / 1e6;
    if (left <= 0)
        return 0;
    return most >= 0 && left > most ? most : left > 1e9 ? 1000000000 : (int)left + 1;
}

static double seconds_since(const struct timespec *from)
{
    struct timespec now;
    clock_gettime(CLOCK_MONOTONIC, &now);
    return (double)(now.tv_sec - from->tv_sec) + (double)(now.tv_nsec - from->tv_nsec) / 1e9;
}

/* A line on a terminal, twice a second. */
static void show_progress(const exploration *it, bool is_last)
{
    static double shown;
    const double seconds = seconds_since(&it->began);
    if (!isatty(STDERR_FILENO) || (!is_last && seconds < shown + 0.5))
        return;
    shown = seconds;
    fprintf(stderr, "\r%lu runs, %u outcomes, %u of them failing, %.0f seconds%s", it->runs,
            it->outcomes.count, it->outcomes.failing, seconds, is_last ? "\n" : "");
}

/* Whether a step that is no choice also unlocks or posts. */
static bool has_local_post(const yak_explored *of)
{
    steps all = steps_of(of);
    for (step it; next_step(&all, &it);)
        for (const yak_record *at = it.follows; it.is_local && at != it.end; ++at)
            if (at->what == YAK_ALSO && (at->kind == STEP_UNLOCK || at->kind == STEP_POST))
                return true;
    return false;
}

/* Whether somebody tried for what another thread held or may give, or looked at it: then unlocks
 * and posts have to be steps of their own. */
static bool has_tries(const yak_explored *of)
{
    for (uint32_t i = 0; i < of->records; ++i) {
        const yak_record *it = &of->record[i];
        const bool is_wait = it->kind == STEP_LOCK || it->kind == STEP_SEMWAIT;
        if (it->what == YAK_AT &&
            (it->kind == STEP_TRYLOCK || it->kind == STEP_SEMTRY || it->kind == STEP_SEMVALUE ||
             (is_wait && (it->flags & (YAK_TIMED | YAK_TRY)) != 0)))
            return true;
    }
    return false;
}

/* Makes a run and keeps what it came to: false if the search is to stop. */
static bool make_run(exploration *it, run *result, bool *fails)
{
    program_run(&it->program, result);
    ++it->runs;
    it->is_cut |= result->end == YAK_END_STEPS;
    if (result->end == YAK_END_DOUBT && it->doubt == 0)
        it->doubt = need(strdup(it->program.shared->doubt));
    *fails = !result->is_late && outcomes_keep(&it->outcomes, it->program.shared, result, it->runs);
    free(result->printed);
    show_progress(it, false);
    it->is_late = result->is_late || milliseconds_left(it->options, 1) == 0;
    return !it->is_late && it->doubt == 0 && !(*fails && it->options->stops) &&
           !it->program.is_gone;
}

/* How many choices a run had. */
static uint32_t length_of(const yak_explored *of)
{
    uint32_t count = 0;
    for (uint32_t i = 0; i < of->records; ++i)
        count += of->record[i].what == YAK_CHOSE;
    return count;
}

/* Makes random runs before the search, which find many failures sooner: of depths 1 to 3, after one
 * by the rule. False if the search is not to begin. */
static bool run_early(exploration *it)
{
    yak_explored *shared = it->program.shared;
    bool goes_on = true, fails;
    run result;
    shared->is_random = true;
    for (uint64_t seed = 0; goes_on && seed < it->options->early; ++seed) {
        shared->choices = shared->leads = shared->sleepers = 0;
        shared->seed = seed;
        shared->changes = (uint32_t)(1 + seed % 3);
        goes_on = make_run(it, &result, &fails);
        shared->length = length_of(shared);
    }
    return goes_on;
}

/* Whether the search is to begin again: with unlocks and posts as steps, or with the begins of
 * calls that wait. */
static bool begins_again(yak_explored *shared)
{
    const bool is_each = !shared->is_each && (has_tries(shared) || has_local_post(shared)),
               is_begun = !shared->is_begun && shared->sets_flags;
    shared->is_each = shared->is_each || is_each;
    shared->is_begun = shared->is_begun || is_begun;
    return is_each || is_begun;
}

/* Searches until the engine is done, or something ends it earlier: false if the search is to begin
 * again. */
static bool search(exploration *it)
{
    yak_explored *shared = it->program.shared;
    bool goes_on = true, again = false, fails;
    run result;
    engine_start(&it->engine, it->options);
    while (goes_on) {
        char *line = 0;
        switch (engine_read(&it->engine, it->options, shared, &line)) {
        case ASKED_RUN:
            goes_on = make_run(it, &result, &fails);
            again = goes_on && begins_again(shared);
            if (again)
                goes_on = false;
            else
                engine_tell(&it->engine, shared, &result, fails);
            break;
        case ASKED_LATE:
            it->is_late = true;
            goes_on = false;
            break;
        case ASKED_DONE:
            free(it->done);
            it->done = need(strdup(line + strlen("done ")));
            break;
        case ASKED_BOUND:
            break;
        default:
            if (it->done == 0)
                stop("the engine has ended before it was done");
            goes_on = false;
        }
    }
    engine_stop(&it->engine);
    return !again;
}

static const char *say_atomics(const exploration *it)
{
    if (it->program.library == 0)
        return "what the program's own atomic operations do, if it has any";
    switch (atomics_in(it->options->words[0])) {
    case ATOMICS_SOME:
        return "atomic operations, as those of C11, of C++ and of std's Mutex in Rust";
    case ATOMICS_UNKNOWN:
        return "atomic operations, if there are any";
    default:
        return 0;
    }
}

/* What the program does and the explorer does not see, as the end of a line. */
static void say_unseen(const exploration *it)
{
    static const char *const words[] = {
#define YAK_UNSEEN_WORDS(name, words) words,
        YAK_UNSEEN(YAK_UNSEEN_WORDS)
#undef YAK_UNSEEN_WORDS
    };
    const yak_explored *shared = it->program.shared;
    const char *begin = "; it does not see ", *atomics = 0;
    for (unsigned i = 0; i < UNSEEN_KINDS; ++i)
        if ((shared->unseen >> i & 1) != 0) {
            printf("%s%s", begin, words[i]);
            begin = ", and ";
        }
    if (!shared->sees_memory && (atomics = say_atomics(it)) != 0)
        printf("%s%s", begin, atomics);
}

/* A run at random ended as none of the search did, so the search has left something out. */
static bool say_fault(const exploration *it, const outcome *lacking)
{
    const outcome *searched = it->outcomes.them;
    while (searched->searched == 0)
        ++searched;
    printf("not every order was tried: a random run ended as no run of the search, so the program "
           "shares what is not seen, or this is a fault of the explorer\n  the random run: ");
    write_command(stdout, lacking, &it->program);
    printf("  a run of the search: ");
    write_command(stdout, searched, &it->program);
    return false;
}

static bool say_every_order(const exploration *it)
{
    const outcome *lacking = outcome_not_searched(&it->outcomes);
    if (lacking != 0)
        return say_fault(it, lacking);
    printf("every order of what it sees that can matter was tried");
    if (it->is_cut)
        printf(", up to step %lu", it->options->steps);
    if (it->program.shared->gives_way)
        printf(", with at most %lu polls in a row and in vain", it->options->polls);
    say_unseen(it);
    puts("");
    return true;
}

/* Says how far the search came: whether every order was tried. */
static bool say_how_far(const exploration *it)
{
    const char *done = it->done != 0 ? it->done : "";
    unsigned long unseen = 0, of = 0;
    if (it->program.is_gone && it->doubt == 0) {
        puts("the program ended before its first thread, in one order");
        return true;
    }
    if (strcmp(done, "all") == 0)
        return say_every_order(it);
    if (sscanf(done, "unseen %lu %lu", &unseen, &of) == 2 && unseen == 0)
        return say_every_order(it);
    if (it->doubt != 0)
        printf("not every order was tried: %s\n", it->doubt);
    else if (of != 0)
        printf("not every order was tried: %lu of %lu random runs had one that the search had not "
               "seen, so the program shares what is not seen, or this is a fault of the explorer\n",
               unseen, of);
    else if (it->is_late)
        puts("not every order was tried: the time is used up");
    else if (strcmp(done, "budget") == 0)
        puts("not every order was tried: the budget is used up");
    else if (strcmp(done, "bound") == 0)
        puts("every order with that many preemptions was tried, and there are more");
    else if (strcmp(done, "unfit") == 0)
        puts("not every order was tried: the program does not do the same again by the same "
             "choices");
    else
        puts("not every order was tried: the search stopped at a failure");
    return false;
}

/* The program and yak-explore take turns, which is faster on one processor. */
static void stay_on_one_processor(void)
{
    const int here = sched_getcpu();
    cpu_set_t set;
    CPU_ZERO(&set);
    CPU_SET(here >= 0 ? here : 0, &set);
    sched_setaffinity(0, sizeof set, &set);
}

int main(int count, char **words)
{
    const options options = read_options(count, words);
    exploration it = {.options = &options};
    double seconds;
    bool is_all, fails;
    run result;
    signal(SIGPIPE, SIG_IGN);
    stay_on_one_processor();
    clock_gettime(CLOCK_MONOTONIC, &it.began);
    it.program.library = find_library(options.words[0]);
    program_start(&it.program, &options);
    if (it.program.is_gone)
        make_run(&it, &result, &fails);
    else if (run_early(&it))
        while (!search(&it))
            ;
    seconds = seconds_since(&it.began);
    show_progress(&it, true);
    if (options.output != 0 && it.outcomes.failing != 0)
        write_folders(&it.outcomes, &it.program);
    write_report(&it.outcomes, &it.program);
    program_stop(&it.program);
    printf("%lu run%s in %.2f seconds, %u outcome%s, %u failing: ", it.runs,
           it.runs == 1 ? "" : "s", seconds, it.outcomes.count, it.outcomes.count == 1 ? "" : "s",
           it.outcomes.failing);
    is_all = say_how_far(&it);
    return it.outcomes.failing != 0 ? FAILURE : is_all ? EVERY_ORDER : NOT_EVERY_ORDER;
}
