/* The machine's begin; YAK_SEED and YAK_SCHEDULE; and the server that makes a child for each run.
 */
#define _GNU_SOURCE
#include "machine.h"

#include <dirent.h>
#include <fcntl.h>
#include <limits.h>
#include <stdlib.h>
#include <string.h>
#include <sys/mman.h>
#include <sys/syscall.h>
#include <sys/wait.h>
#include <unistd.h>

enum { FIRST_FILE = 200 };

/* A child without what pthread_atfork asks for; since version 2.34 of the GNU C library. */
extern pid_t _Fork(void) __attribute__((weak));

void machine_quit(int status)
{
    for (;;)
        syscall(SYS_exit_group, status);
}

static void stop(const char *why)
{
    fprintf(stderr, "yakyrombe: %s\n", why);
    machine_quit(2);
}

/* ---- YAK_SEED and YAK_SCHEDULE ---- */

/* A seed is a number, with the word `last` in front if a deadline passes only if no thread can run.
 */
static void read_yak_seed(const char *text, yak_explored *to)
{
    to->is_random = to->is_each = true;
    to->is_last = strncmp(text, "last ", 5) == 0;
    if (!simulation_read_seed(text + (to->is_last ? 5 : 0), &to->seed)) {
        fprintf(stderr, "yakyrombe: YAK_SEED=%s is not a whole number below 2^64\n", text);
        machine_quit(2);
    }
    the_machine.seed = text;
}

static void stop_at(const char *text)
{
    fprintf(stderr,
            "yakyrombe: YAK_SCHEDULE has %s, which is not STEP:THREAD or STEP:THREAD.VARIANT in "
            "the order of the steps, each, begun, last, polls:MOST, spurious:MOST, signals:MOST, "
            "random:SEED\n",
            text);
    machine_quit(2);
}

/* A number from 1 to the most, which begins here; `text` is moved behind it. */
static unsigned read_number(const char **text, unsigned least, unsigned most, const char *word)
{
    char *end;
    const unsigned long it = strtoul(*text, &end, 10);
    if (**text < '0' || **text > '9' || it < least || it > most)
        stop_at(word);
    *text = end;
    return (unsigned)it;
}

static void read_choice(const char *word, yak_explored *to)
{
    const char *at = word;
    const unsigned step = read_number(&at, to->choices + 1, YAK_MOST_STEPS, word);
    unsigned thread, variant = 0;
    if (*at++ != ':')
        stop_at(word);
    thread = read_number(&at, 1, YAK_SEATS, word);
    if (*at == '.') {
        ++at;
        variant = read_number(&at, 0, YAK_SEATS, word);
    }
    if (*at != 0)
        stop_at(word);
    to->choices = step;
    to->choice[step - 1] = (uint16_t)(thread | variant << 8);
}

static void read_seed(const char *word, yak_explored *to)
{
    to->is_random = true;
    if (!simulation_read_seed(word, &to->seed))
        stop_at(word);
}

/* The number behind so many characters of a word. */
static unsigned read_count(const char *word, unsigned behind)
{
    const char *at = word + behind;
    const unsigned it = read_number(&at, 0, INT_MAX, word);
    if (*at != 0)
        stop_at(word);
    return it;
}

static void read_schedule(const char *text, yak_explored *to)
{
    char *copy = strdup(text), *rest = copy;
    if (copy == 0)
        stop("no memory");
    to->most_polls = YAK_POLLS;
    for (char *word; (word = strtok_r(rest, " ", &rest)) != 0;) {
        if (strcmp(word, "each") == 0)
            to->is_each = true;
        else if (strcmp(word, "begun") == 0)
            to->is_begun = true;
        else if (strcmp(word, "last") == 0)
            to->is_last = true;
        else if (strncmp(word, "random:", 7) == 0)
            read_seed(word + 7, to);
        else if (strncmp(word, "polls:", 6) == 0)
            to->most_polls = read_count(word, 6);
        else if (strncmp(word, "spurious:", 9) == 0)
            to->spurious = read_count(word, 9);
        else if (strncmp(word, "signals:", 8) == 0)
            to->signals = read_count(word, 8);
        else if (strncmp(word, "refuse:", 7) == 0)
            to->refusals = read_count(word, 7);
        else
            read_choice(word, to);
    }
    free(copy);
}

/* ---- runs ---- */

static void end_program(int status, void *unused)
{
    (void)unused;
    machine_exits(status);
}

/* From here on there are choices. The end of the program is a step, before what was asked for at
 * its end up to here. */
static void begin_run(void)
{
    const yak_explored *all = the_machine.shared;
    the_machine.chooses = true;
    the_machine.shared->sees_memory = the_machine.sees_memory;
    the_machine.first = the_machine.steps;
    if (machine_begin_refusals != 0)
        machine_begin_refusals();
    on_exit(end_program, 0);
    the_machine.random = simulation_state(all->seed);
    the_machine.seats[0].rank = machine_new_rank();
    for (uint32_t i = 0; i < all->sleepers && i < YAK_MOST_SLEEPS; ++i) {
        seat *it = &the_machine.seats[(all->sleeper[i].thread - 1) % YAK_SEATS];
        if (it->asleep < MACHINE_ASLEEP)
            it->wakes[it->asleep++] = all->sleeper[i].object;
        else
            it->wakes[0] = 0;
    }
}

/* Returns in each child; the server itself ends with yak-explore. */
static void serve(void)
{
    yak_explored *all = the_machine.shared;
    const uint32_t before = all->records;
    char byte = 'r';
    fflush(0);
    if (_Fork == 0)
        stop("the runs of a program need version 2.34 of the GNU C library");
    while (write(the_machine.link, &byte, 1) == 1 && read(the_machine.link, &byte, 1) == 1) {
        pid_t child;
        all->records = before;
        all->doubt[0] = 0;
        child = _Fork();
        if (child == 0) {
            close(the_machine.link);
            machine_seat()->tid = gettid();
            the_machine.process = getpid();
            machine_meet_child();
            return;
        }
        if (child < 0)
            stop("no child can be made");
        all->child = child;
        while (waitpid(child, &all->status, 0) < 0 && errno == EINTR)
            ;
    }
    machine_quit(0);
}

void machine_begin_choices(void)
{
    if (the_machine.chooses)
        return;
    if (!the_machine.is_direct)
        serve();
    begin_run();
}

/* ---- the begin ---- */

/* At the end of a thread, after the other destructors of thread-specific data. */
static void end_thread(void *of)
{
    static __thread unsigned times;
    if (++times + 1 < PTHREAD_DESTRUCTOR_ITERATIONS &&
        pthread_setspecific(the_machine.key, of) == 0)
        return;
    machine_leave();
}

/* A child that a program forks is not explored. By a seed it goes on, with one thread. */
static void in_child(void)
{
    machine_misses(UNSEEN_CHILDREN);
    the_machine.is_on = the_machine.is_on && the_machine.seed != 0;
    if (!the_machine.is_on)
        return;
    the_machine.process = getpid();
    for (unsigned i = 0; i < the_machine.used; ++i)
        if (i + 1 == machine_number())
            the_machine.seats[i].tid = the_machine.process;
        else
            the_machine.seats[i].state = SEAT_OUT;
}

/* Maps the memory of yak-explore, by the numbers of its files: those of the memory and of the
 * socket. They are not for what the program starts, and neither is this library. */
static void meet_explorer(const char *files)
{
    int memory = -1;
    if (sscanf(files, "%d,%d", &memory, &the_machine.link) != 2)
        stop("YAK_EXPLORE is for yak-explore");
    the_machine.shared =
        mmap(0, sizeof(yak_explored), PROT_READ | PROT_WRITE, MAP_SHARED, memory, 0);
    if (the_machine.shared == MAP_FAILED)
        stop("the memory of yak-explore can't be mapped");
    close(memory);
    fcntl(the_machine.link, F_SETFD, FD_CLOEXEC);
    unsetenv("YAK_EXPLORE");
    unsetenv("LD_PRELOAD");
    the_machine.shared->version = YAK_EXPLORE_VERSION;
}

/* A run that ends by a signal leaves its journal too, unless a sanitizer or another library handles
 * the signal. All other threads are parked. */
static void crash(int number)
{
    machine_note_entries();
    the_machine.is_on = false;
    machine_keep_journal();
    raise(number);
}

static void keep_journal_at_crash(void)
{
    static const int crashes[] = {SIGABRT, SIGSEGV, SIGBUS, SIGFPE, SIGILL};
    struct sigaction action = {.sa_handler = crash, .sa_flags = (int)SA_RESETHAND};
    for (unsigned i = 0; i < sizeof crashes / sizeof crashes[0]; ++i) {
        struct sigaction before;
        if (sigaction(crashes[i], 0, &before) == 0 && before.sa_handler == SIG_DFL)
            sigaction(crashes[i], &action, 0);
    }
}

/* Opens the file for the threads of the entries, far from the files that the program opens. */
static void open_threads(void)
{
    const char *path = getenv("YAK_THREADS");
    int file;
    if (path == 0 || *path == 0)
        return;
    file = open(path, O_WRONLY | O_CREAT | O_TRUNC | O_CLOEXEC, 0666);
    the_machine.threads = fcntl(file, F_DUPFD_CLOEXEC, FIRST_FILE);
    if (the_machine.threads < 0)
        stop("the file that YAK_THREADS names can't be written");
    close(file);
}

static void begin_alone(void (*read)(const char *text, yak_explored *to), const char *text)
{
    keep_journal_at_crash();
    open_threads();
    the_machine.shared = mmap(0, sizeof(yak_explored), PROT_READ | PROT_WRITE,
                              MAP_PRIVATE | MAP_ANONYMOUS | MAP_NORESERVE, -1, 0);
    if (the_machine.shared == MAP_FAILED)
        stop("no memory");
    the_machine.is_direct = true;
    the_machine.shared->most_steps = YAK_MOST_STEPS;
    read(text, the_machine.shared);
}

/* The calling thread is the first. */
static void begin_machine(void)
{
    the_machine.now.tv_sec = SIMULATION_BEGIN;
    pthread_key_create(&the_machine.key, end_thread);
    pthread_atfork(0, 0, in_child);
    the_machine.process = getpid();
    the_machine.used = 1;
    the_machine.seats[0].state = SEAT_RUNS;
    machine_sit_down(&the_machine.seats[0], true);
    the_machine.is_on = true;
    /* Also a program that never has a second thread has a run. */
    on_exit(end_program, 0);
    yak_follow_(&machine_turns);
}

static __attribute__((constructor)) void begin(void)
{
    const char *schedule = getenv("YAK_SCHEDULE"), *files = getenv("YAK_EXPLORE"),
               *seed = getenv("YAK_SEED");
    if (files != 0)
        meet_explorer(files);
    else if (schedule != 0)
        begin_alone(read_schedule, schedule);
    else if (seed != 0 && *seed != 0)
        begin_alone(read_yak_seed, seed);
    else
        return;
    the_machine.is_inner = getenv("YAK_MODEL") != 0;
    if (!the_machine.is_inner)
        begin_machine();
}

/* Whether a thread of the program runs, by its number. */
static bool runs(long tid)
{
    char path[64], text[512], *end;
    FILE *from;
    size_t len;
    snprintf(path, sizeof path, "/proc/self/task/%ld/stat", tid);
    if ((from = fopen(path, "re")) == 0)
        return false;
    len = fread(text, 1, sizeof text - 1, from);
    fclose(from);
    text[len] = 0;
    /* The state stands behind the name, which may have any bytes. */
    end = strrchr(text, ')');
    return end != 0 && strncmp(end, ") R", 3) == 0;
}

static bool others_run(void)
{
    const long here = syscall(SYS_gettid);
    bool any = false;
    DIR *tasks = opendir("/proc/self/task");
    if (tasks == 0)
        return false;
    for (struct dirent *it; (it = readdir(tasks)) != 0;)
        any = any || (it->d_name[0] != '.' && atol(it->d_name) != here && runs(atol(it->d_name)));
    closedir(tasks);
    return any;
}

/* A thread that runs may hold locks of the system, which would stay locked in a child: so the
 * others are given a second to sleep. */
static void await_others(void)
{
    const struct timespec pause = {.tv_nsec = 1000000};
    for (int i = 0; i < 1000 && others_run(); ++i)
        nanosleep(&pause, 0);
}

bool yak_explored_begin(void)
{
    if (!the_machine.is_inner || the_machine.is_on)
        return false;
    await_others();
    begin_machine();
    machine_begin_choices();
    return true;
}
