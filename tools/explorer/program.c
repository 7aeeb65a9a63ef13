/* The program under test: a server in it makes a child for each run. */
#define _GNU_SOURCE
#include "explorer.h"

#include <dirent.h>
#include <errno.h>
#include <fcntl.h>
#include <poll.h>
#include <signal.h>
#include <stdlib.h>
#include <string.h>
#include <sys/mman.h>
#include <sys/personality.h>
#include <sys/socket.h>
#include <sys/syscall.h>
#include <sys/wait.h>
#include <time.h>
#include <unistd.h>

enum {
    LOOK = 100,  /* milliseconds between looks at a run that has not ended */
    ASLEEP = 10, /* looks at a run in which no thread runs, until it is one that waits unseen */
    ALONE = 10,  /* seconds for a run without the server, besides those of a step */
    FIRST_FILE = 200, /* far from the files that a program opens */
    MOST_PRINTED = 1 << 20,
    NOT_FOUND = 127 /* the status of what could not be started */
};

/* ---- what the program finds in its environment ---- */

static void set_library(const program *it)
{
    const char *before = getenv("LD_PRELOAD");
    char *value;
    if (it->library != 0) {
        if (asprintf(&value, "%s%s%s", it->library, before != 0 ? ":" : "",
                     before != 0 ? before : "") < 0)
            _exit(2);
        setenv("LD_PRELOAD", value, 1);
    }
    unsetenv("YAK_SEED");
    unsetenv("YAK_JOURNAL");
    unsetenv("YAK_THREADS");
    unsetenv("YAK_SCHEDULE");
    unsetenv("YAK_REPORT");
    unsetenv("YAK_REPORT_SIGNAL");
}

/* Addresses stay the same if the system allows that; the search does not need it. */
static void become(const program *it)
{
    signal(SIGPIPE, SIG_DFL);
    personality(ADDR_NO_RANDOMIZE);
    execvp(it->options->words[0], it->options->words);
    dprintf(STDERR_FILENO, "%s: %s", it->options->words[0], strerror(errno));
    _exit(NOT_FOUND);
}

static void begin_server(const program *it, int memory, int link)
{
    char files[32];
    const int memory_there = fcntl(memory, F_DUPFD, FIRST_FILE),
              link_there = fcntl(link, F_DUPFD, FIRST_FILE);
    if (memory_there < 0 || link_there < 0 || dup2(it->printed, 1) < 0 || dup2(it->printed, 2) < 0)
        _exit(2);
    set_library(it);
    snprintf(files, sizeof files, "%d,%d", memory_there, link_there);
    setenv("YAK_EXPLORE", files, 1);
    become(it);
}

/* ---- the server ---- */

/* Waits for the byte that ends a run: false if none comes within the time. If the program is gone,
 * that is noted. */
static bool await_byte(program *it, int milliseconds)
{
    struct pollfd link = {.fd = it->link, .events = POLLIN};
    int ready;
    char byte;
    while ((ready = poll(&link, 1, milliseconds)) < 0 && errno == EINTR)
        ;
    if (ready == 0)
        return false;
    if (read(it->link, &byte, 1) == 1)
        return true;
    it->is_gone = true;
    if (waitpid(it->server, &it->status, 0) != it->server)
        it->status = 0;
    it->server = 0;
    return true;
}

/* What was printed, with what the program printed before its first run. */
static char *read_printed(program *it)
{
    off_t size = lseek(it->printed, 0, SEEK_END);
    char *text;
    if (size > MOST_PRINTED)
        size = MOST_PRINTED;
    text = need(malloc((size_t)size + 1));
    size = pread(it->printed, text, (size_t)size, 0);
    text[size > 0 ? size : 0] = 0;
    /* A zero byte would end the text. */
    for (off_t i = 0; i < size; ++i)
        text[i] = text[i] != 0 ? text[i] : '?';
    if (ftruncate(it->printed, it->before) != 0)
        stop("what the program printed can't be forgotten: %s", strerror(errno));
    return text;
}

void program_start(program *it, const options *options)
{
    const int memory = memfd_create("yak-explore", MFD_CLOEXEC);
    int links[2];
    it->options = options;
    it->printed = memfd_create("printed", MFD_CLOEXEC);
    if (memory < 0 || it->printed < 0 || ftruncate(memory, sizeof(yak_explored)) != 0 ||
        fcntl(it->printed, F_SETFL, O_APPEND) != 0 ||
        socketpair(AF_UNIX, SOCK_STREAM | SOCK_CLOEXEC, 0, links) != 0)
        stop("the files for the program can't be made: %s", strerror(errno));
    it->shared = mmap(0, sizeof(yak_explored), PROT_READ | PROT_WRITE, MAP_SHARED, memory, 0);
    if (it->shared == MAP_FAILED)
        stop("the memory for the program can't be made: %s", strerror(errno));
    it->shared->most_steps = (uint32_t)options->steps;
    it->shared->is_last = options->is_last;
    it->shared->most_polls = (uint32_t)options->polls;
    it->shared->spurious = (uint32_t)options->spurious;
    it->shared->signals = (uint32_t)options->signals;
    it->shared->refusals = (uint32_t)options->refusals;
    it->link = links[0];
    fflush(0);
    if ((it->server = fork()) == 0)
        begin_server(it, memory, links[1]);
    close(links[1]);
    close(memory);
    /* It may take as long as it wants up to its first thread, if there is no limit. */
    while (!await_byte(it, milliseconds_left(options, -1)))
        if (milliseconds_left(options, 1) == 0) {
            kill(it->server, SIGKILL);
            stop("the time is used up, and %s has not started a thread", options->words[0]);
        }
    it->before = lseek(it->printed, 0, SEEK_END);
    if (it->is_gone && WIFEXITED(it->status) && WEXITSTATUS(it->status) == NOT_FOUND)
        stop("%s", read_printed(it));
    if (it->shared->version != YAK_EXPLORE_VERSION)
        stop("%s was not loaded into %s, which may be linked statically; it said:\n%s",
             it->library != 0 ? it->library : "the machine", options->words[0], read_printed(it));
}

/* ---- a run that does not end ---- */

/* What is seen of a run between looks at it. */
typedef struct look {
    uint32_t records;
    double before; /* the time of the processor at its last step */
    double used;
    unsigned asleep; /* looks one after the other that found no thread running */
} look;

/* The seconds of the processor that a process has used. */
static double used_by(pid_t process)
{
    struct timespec used = {0};
    clockid_t clock;
    if (clock_getcpuclockid(process, &clock) != 0 || clock_gettime(clock, &used) != 0)
        return 0;
    return (double)used.tv_sec + (double)used.tv_nsec / 1e9;
}

/* Whether all threads of a process sleep. */
static bool all_sleep(pid_t process)
{
    char path[64], text[512], *state;
    bool any = false, runs = false;
    DIR *tasks;
    snprintf(path, sizeof path, "/proc/%d/task", process);
    if ((tasks = opendir(path)) == 0)
        return false;
    for (struct dirent *at; (at = readdir(tasks)) != 0;) {
        FILE *from;
        size_t len;
        if (*at->d_name == '.')
            continue;
        snprintf(path, sizeof path, "/proc/%d/task/%.20s/stat", process, at->d_name);
        if ((from = fopen(path, "re")) == 0)
            continue;
        len = fread(text, 1, sizeof text - 1, from);
        fclose(from);
        text[len] = 0;
        /* The state stands behind the name, which may have any bytes. */
        state = strrchr(text, ')');
        any = true;
        runs = runs || state == 0 || state[1] != ' ' || state[2] != 'S';
    }
    closedir(tasks);
    return any && !runs;
}

/* The call of the system in which a thread is. */
static const char *call_of(pid_t process, pid_t thread)
{
    static const struct {
        long number;
        const char *name;
    } calls[] = {
        {SYS_read, "read"},
        {SYS_readv, "readv"},
        {SYS_write, "write"},
        {SYS_ppoll, "ppoll"},
        {SYS_pselect6, "pselect"},
        {SYS_recvfrom, "recv"},
        {SYS_recvmsg, "recvmsg"},
        {SYS_accept, "accept"},
        {SYS_accept4, "accept"},
        {SYS_connect, "connect"},
        {SYS_wait4, "wait"},
        {SYS_waitid, "waitid"},
        {SYS_futex, "a futex of the system"},
        {SYS_epoll_pwait, "epoll_wait"},
        {SYS_rt_sigtimedwait, "sigwait"},
        {SYS_rt_sigsuspend, "sigsuspend"},
        {SYS_flock, "flock"},
        {SYS_fcntl, "fcntl"},
        {SYS_msgrcv, "msgrcv"},
        {SYS_msgsnd, "msgsnd"},
        {SYS_semtimedop, "semop"},
        {SYS_mq_timedsend, "mq_send of the system"},
        {SYS_mq_timedreceive, "mq_receive of the system"},
#ifdef SYS_pause
        {SYS_pause, "pause"},
        {SYS_poll, "poll"},
        {SYS_select, "select"},
        {SYS_epoll_wait, "epoll_wait"},
        {SYS_semop, "semop"},
#endif
    };
    char path[64];
    long number = -1;
    FILE *from;
    snprintf(path, sizeof path, "/proc/%d/task/%d/syscall", process, thread);
    if ((from = fopen(path, "re")) != 0) {
        if (fscanf(from, "%ld", &number) != 1)
            number = -1;
        fclose(from);
    }
    for (unsigned i = 0; i < sizeof calls / sizeof calls[0]; ++i)
        if (calls[i].number == number)
            return calls[i].name;
    return "a call of the system";
}

/* The thread that made the last step. */
static unsigned last_thread(const yak_explored *of)
{
    for (uint32_t i = of->records; i != 0; --i)
        if (of->record[i - 1].what == YAK_CHOSE)
            return of->record[i - 1].thread;
    return 1;
}

/* Looks at a run that has not ended: whether it is to be ended. */
static bool is_stuck(program *it, look *last, run *result)
{
    yak_explored *shared = it->shared;
    const pid_t child = shared->child;
    const double used = child > 0 ? used_by(child) : 0;
    if (it->options->seconds != 0 && milliseconds_left(it->options, 1) == 0) {
        result->is_late = true;
        return true;
    }
    if (child <= 0)
        return false;
    if (shared->records != last->records)
        *last = (look){.records = shared->records, .before = used};
    last->asleep = all_sleep(child) && used - last->used < 1e-3 ? last->asleep + 1 : 0;
    last->used = used;
    if (last->asleep >= ASLEEP) {
        result->end = YAK_END_DOUBT;
        snprintf(shared->doubt, sizeof shared->doubt, "thread %u waits in %s, which is not seen",
                 last_thread(shared),
                 call_of(child, shared->running != 0 ? shared->running : child));
        return true;
    }
    if (used - last->before <= (double)it->options->step_seconds)
        return false;
    result->is_hung = shared->sees_memory;
    if (!shared->sees_memory)
        result->end = YAK_END_DOUBT;
    snprintf(
        shared->doubt, sizeof shared->doubt,
        "thread %u computed a step for more than %lu seconds, or polls memory that is not seen",
        last_thread(shared), it->options->step_seconds);
    return true;
}

/* Waits for the end of a run, or ends it. */
static void await_run(program *it, run *result)
{
    look last = {0};
    for (;;) {
        if (await_byte(it, milliseconds_left(it->options, LOOK)))
            return;
        if (!is_stuck(it, &last, result))
            continue;
        if (it->shared->child > 0)
            kill(it->shared->child, SIGKILL);
        await_byte(it, -1);
        return;
    }
}

void program_run(program *it, run *result)
{
    const yak_explored *shared = it->shared;
    char byte = 'r';
    memset(result, 0, sizeof *result);
    it->shared->child = 0;
    if (!it->is_gone && write(it->link, &byte, 1) == 1)
        await_run(it, result);
    result->status = it->is_gone ? it->status : it->shared->status;
    if (shared->records != 0 && shared->record[shared->records - 1].what == YAK_END)
        result->end = shared->record[shared->records - 1].kind;
    if (shared->child_calls) {
        result->end = YAK_END_DOUBT;
        snprintf(it->shared->doubt, sizeof shared->doubt,
                 "a forked child makes calls on queues, which are not seen");
    }
    result->printed = read_printed(it);
}

void program_stop(program *it)
{
    int status;
    close(it->link);
    if (it->server > 0)
        waitpid(it->server, &status, 0);
    it->server = 0;
}

/* ---- a run without it ---- */

int program_run_alone(const program *it, const char *schedule, const char *printed,
                      const char *journal, const char *threads)
{
    int status = 0;
    pid_t child;
    fflush(0);
    if ((child = fork()) == 0) {
        const int to = open(printed, O_WRONLY | O_CREAT | O_TRUNC | O_APPEND, 0666);
        if (to < 0 || dup2(to, 1) < 0 || dup2(to, 2) < 0)
            _exit(2);
        close(to);
        set_library(it);
        setenv("YAK_SCHEDULE", schedule, 1);
        setenv("YAK_JOURNAL", journal, 1);
        setenv("YAK_THREADS", threads, 1);
        become(it);
    }
    for (unsigned tries = 0; child > 0 && tries < (ALONE + it->options->step_seconds) * 200;
         ++tries) {
        const pid_t ended = waitpid(child, &status, WNOHANG);
        if (ended != 0)
            return ended == child ? status : -1;
        usleep(5000);
    }
    if (child > 0) {
        kill(child, SIGKILL);
        waitpid(child, &status, 0);
    }
    return -1;
}
