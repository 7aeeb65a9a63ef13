/* Whether it is certain that no thread can go on: else it is no deadlock. */
#define _GNU_SOURCE
#include "machine.h"

#include <dirent.h>
#include <stdlib.h>

/* It is there with ThreadSanitizer, which has a thread of its own. */
extern void __tsan_acquire(void *at) __attribute__((weak));

/* Reads a file of /proc about a thread, or about the program: false if it can't be read. */
static bool read_file(const char *format, long tid, char *text, size_t size)
{
    char path[64];
    size_t len;
    FILE *from;
    snprintf(path, sizeof path, format, tid);
    if ((from = fopen(path, "r")) == 0)
        return false;
    len = fread(text, 1, size - 1, from);
    text[len] = 0;
    fclose(from);
    return len != 0;
}

/* Whether a thread sleeps until its turn comes: it is in a system call whose first argument is the
 * word of its seat. */
static bool sleeps(const seat *it)
{
    char text[256];
    unsigned long number, word;
    return read_file("/proc/self/task/%ld/syscall", it->tid, text, sizeof text) &&
           sscanf(text, "%lu %lx", &number, &word) == 2 &&
           word == (unsigned long)(uintptr_t)&it->go;
}

/* How many threads the program has that have no seat; -1 if /proc does not tell. */
static int count_strangers(void)
{
    int count = 0;
    DIR *tasks = opendir("/proc/self/task");
    if (tasks == 0)
        return -1;
    for (struct dirent *it; (it = readdir(tasks)) != 0;) {
        unsigned at = 0;
        while (at < the_machine.used && the_machine.seats[at].tid != atol(it->d_name))
            ++at;
        count += it->d_name[0] != '.' && at == the_machine.used;
    }
    closedir(tasks);
    return count;
}

/* Whether an object lies in memory that other programs may share. */
static bool is_shared(const void *object)
{
    unsigned long at = (unsigned long)(uintptr_t)object, from, end;
    char line[512], rights[8];
    bool is_shared = false;
    FILE *maps = object != 0 ? fopen("/proc/self/maps", "r") : 0;
    if (maps == 0)
        return false;
    while (fgets(line, sizeof line, maps) != 0)
        if (sscanf(line, "%lx-%lx %7s", &from, &end, rights) == 3 && from <= at && at < end)
            is_shared = rights[3] == 's';
    fclose(maps);
    return is_shared;
}

/* Why it is not certain that the threads that wait can't go on, as things stand. */
static const char *doubt_of_threads(void)
{
    int strangers = count_strangers();
    /* A part of a program that is explored has others beside it. */
    if (the_machine.is_inner)
        strangers = 0;
    if (strangers == -1)
        return "/proc does not tell whether other threads do";
    if (strangers > (__tsan_acquire != 0))
        return "there is a thread that the machine does not know, which was not started by "
               "pthread_create";
    for (unsigned at = 0; at < the_machine.used; ++at)
        if (the_machine.seats[at].state == SEAT_PARKED && at + 1 != machine_number() &&
            !sleeps(&the_machine.seats[at]))
            return "a thread is in a signal handler";
    return 0;
}

/* Whether the program handles what a timer sends, or has a timer of another kind. */
static bool has_timers(void)
{
    static const int sent[] = {SIGALRM, SIGVTALRM, SIGPROF};
    char text[64];
    for (unsigned i = 0; i < sizeof sent / sizeof sent[0]; ++i) {
        struct sigaction action;
        if (sigaction(sent[i], 0, &action) == 0 && action.sa_handler != SIG_DFL &&
            action.sa_handler != SIG_IGN)
            return true;
    }
    return read_file("/proc/self/timers", 0, text, sizeof text);
}

const char *machine_doubt(void)
{
    const char *doubt = 0;
    const unsigned unseen = the_machine.shared->unseen;
    if (the_machine.seed == 0 && (unseen & UNSEEN_TIMERS) != 0)
        return "the program has timers, by which a wait may be meant to end";
    if (the_machine.seed == 0 && (unseen & UNSEEN_CHILDREN) != 0)
        return "the program has forked a child, by which a wait may be meant to end";
    if (the_machine.signals)
        return "the program has sent a signal, by which a wait may be meant to end";
    if (has_timers())
        return "the program handles the signals of timers, by which a wait may be meant to end";
    for (unsigned i = 0; i < the_machine.used; ++i)
        if (the_machine.seats[i].state == SEAT_PARKED && is_shared(the_machine.seats[i].op.at))
            return "a thread waits for what lies in shared memory, which another program may "
                   "change";
    /* What has just begun to wait, or has just ended, is given a second. */
    for (int i = 0; i < 1000 && (doubt = doubt_of_threads()) != 0; ++i) {
        const struct timespec pause = {.tv_nsec = 1000000};
        YAK_REAL(nanosleep)(&pause, 0);
    }
    return doubt;
}
