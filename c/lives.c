/* Who lives: what the kernel marks, and what /proc says. All of this runs under the lock, so it
 * makes its system calls itself: the functions of the C library for files are cancellation points,
 * and those for folders allocate. */
#define _GNU_SOURCE
#include "lives.h"

#include <errno.h>
#include <fcntl.h>
#include <stdlib.h>
#include <string.h>
#include <sys/syscall.h>
#include <time.h>
#include <unistd.h>

enum {
    /* So many milliseconds a child that is made has to come before it is looked for. */
    UNDOUBTED = 20,
    /* So many milliseconds the start of a child, which /proc rounds, may be off. */
    OFF = 1000,
    TEXT = 1024 /* calls may come from a small signal stack */
};

/* ---- files of /proc ---- */

static int open_file(const char *path)
{
    return (int)syscall(SYS_openat, AT_FDCWD, path, O_RDONLY | O_CLOEXEC);
}

static ssize_t read_from(int file, void *to, size_t size)
{
    return (ssize_t)syscall(SYS_read, file, to, size);
}

static void close_file(int file)
{
    syscall(SYS_close, file);
}

/* What /proc/PID/stat says. */
typedef struct stat_line {
    char state;
    int threads;
    unsigned long long start;
} stat_line;

/* False if there is no such process. */
static bool read_stat(pid_t pid, stat_line *it)
{
    char path[64], text[1024], *at;
    const int file =
        snprintf(path, sizeof path, "/proc/%d/stat", (int)pid) > 0 ? open_file(path) : -1;
    ssize_t got;
    if (file < 0)
        return false;
    got = read_from(file, text, sizeof text - 1);
    close_file(file);
    if (got <= 0)
        return false;
    text[got] = 0;
    if ((at = strrchr(text, ')')) == 0)
        return false;
    return sscanf(at + 2,
                  "%c %*d %*d %*d %*d %*d %*u %*u %*u %*u %*u %*u %*u %*d %*d %*d %*d %d %*d %llu",
                  &it->state, &it->threads, &it->start) == 3;
}

static bool is_over(const stat_line *it)
{
    return it->state == 'X' || (it->state == 'Z' && it->threads <= 1);
}

uint64_t lives_start(pid_t pid)
{
    stat_line it;
    return read_stat(pid, &it) ? it.start : 0;
}

/* Calls a function with each number in a folder, until it returns true. */
static bool any_number(const char *folder, bool (*is_it)(pid_t number, pid_t pid), pid_t pid)
{
    _Alignas(8) char text[TEXT];
    const int file = open_file(folder);
    bool is_found = false;
    long got = 0;
    while (file >= 0 && !is_found && (got = syscall(SYS_getdents64, file, text, sizeof text)) > 0)
        for (long at = 0; at < got && !is_found;) {
            /* A struct linux_dirent64: the size at 16, the name at 19. */
            uint16_t size;
            const long number = strtol(text + at + 19, 0, 10);
            memcpy(&size, text + at + 16, sizeof size);
            is_found = number > 0 && is_it((pid_t)number, pid);
            at += size;
        }
    if (file >= 0)
        close_file(file);
    return is_found;
}

/* ---- the arena of a process ---- */

/* What the maps of a process tell. NO_MAPS: it is about to end, or has ended; or its first thread
 * has; or it is a thread of the kernel. */
enum { UNKNOWN, NO_MAPS, HAS_ARENA, HAS_NONE };

/* Whether a line of maps is that of the arena: a shared mapping with its inode. If that is not
 * known, then one at its address. */
static bool is_arena(const char *line)
{
    unsigned long from, inode;
    char how[8];
    if (sscanf(line, "%lx-%*x %7s %*x %*s %lu", &from, how, &inode) != 3 || how[3] != 's')
        return false;
    return the_program.inode != 0 ? inode == the_program.inode : from == (uintptr_t)program_at;
}

/* What a failed system call, or an empty file, says of maps. */
static int without_maps(ssize_t got)
{
    return got == 0 || errno == ENOENT || errno == ESRCH ? NO_MAPS : UNKNOWN;
}

/* Calls a function with each line of the maps of a thread, until it returns true: HAS_ARENA then.
 */
static int look_at_maps(const char *path, bool (*is_it)(const char *line))
{
    char text[TEXT];
    size_t kept = 0;
    ssize_t got = 0;
    int found = UNKNOWN;
    const int file = open_file(path);
    if (file < 0)
        return without_maps(file);
    while (found != HAS_ARENA && (got = read_from(file, text + kept, sizeof text - 1 - kept)) > 0) {
        char *line = text, *end;
        text[kept + (size_t)got] = 0;
        found = HAS_NONE;
        for (; (end = strchr(line, '\n')) != 0 && found != HAS_ARENA; line = end + 1)
            found = is_it(line) ? HAS_ARENA : HAS_NONE;
        /* A line may be cut by the end of what was read; a longer one than all of it is none. */
        kept = strlen(line) < sizeof text / 2 ? strlen(line) : 0;
        memmove(text, line, kept);
    }
    if (found == UNKNOWN)
        found = without_maps(got);
    close_file(file);
    return found;
}

/* The inode of the arena. */
static unsigned long inode_here;

static bool finds_inode(const char *line)
{
    unsigned long from;
    return sscanf(line, "%lx-%*x %*s %*x %*s %lu", &from, &inode_here) == 2 &&
           from == (uintptr_t)program_at;
}

unsigned long lives_inode(void)
{
    return look_at_maps("/proc/self/maps", finds_inode) == HAS_ARENA ? inode_here : 0;
}

static int found_here;

/* Whether the maps of a thread tell: then they are those of its process. */
static bool tells(pid_t thread, pid_t pid)
{
    char path[64];
    int found;
    snprintf(path, sizeof path, "/proc/%d/task/%d/maps", (int)pid, (int)thread);
    found = look_at_maps(path, is_arena);
    if (found != NO_MAPS)
        found_here = found;
    return found == HAS_ARENA || found == HAS_NONE;
}

/* What the maps of a process tell: after exec it has no arena. If its first thread has ended,
 * another thread tells. */
static int arena_of(pid_t pid)
{
    char folder[64];
    snprintf(folder, sizeof folder, "/proc/%d/task", (int)pid);
    found_here = NO_MAPS;
    if (!tells(pid, pid))
        any_number(folder, tells, pid);
    return found_here;
}

/* ---- processes that have come ---- */

bool lives_still(const owner *it)
{
    stat_line now;
    if (it == program_here->me || !lives_is_marked(it))
        return true;
    if (!read_stat(it->pid, &now))
        return kill(it->pid, 0) == 0 || errno != ESRCH;
    return now.start == it->start && !is_over(&now) && arena_of(it->pid) != HAS_NONE;
}

bool lives_thread(const owner *of, pid_t thread)
{
    const int error = errno;
    bool is_there;
    if (!lives_is_marked(of) || of == program_here->me)
        return true;
    if (thread == of->holder || atomic_load(&of->state) == OWNER_GONE)
        return false;
    is_there = syscall(SYS_tgkill, of->pid, thread, 0) == 0 || errno != ESRCH;
    errno = error;
    return is_there;
}

/* ---- children that come ---- */

/* Milliseconds since the start of the machine, by which /proc counts too. */
uint64_t lives_now(void)
{
    struct timespec now;
    clock_gettime(CLOCK_BOOTTIME, &now);
    return (uint64_t)now.tv_sec * 1000 + (uint64_t)now.tv_nsec / 1000000;
}

/* The places whose child is looked for. */
static bool is_missed[OWNERS];

static bool is_coming(const owner *it)
{
    const uint32_t state = atomic_load(&it->state);
    return state == OWNER_COMING || state == OWNER_JOINING;
}

/* When a fork was over; 0 if it is not known to be. */
static uint64_t made_at(const owner *it)
{
    const uint64_t made = atomic_load(&it->is_made);
    return made % 2 == 0 ? made / 2 : 0;
}

/* Whether a fork is over, so that its child exists or never will. */
static bool is_made(const owner *it, uint64_t least)
{
    const uint64_t made = made_at(it);
    stat_line parent;
    if (made != 0)
        return lives_now() - made >= least;
    return !read_stat(it->pid, &parent) || parent.start != it->start || is_over(&parent);
}

/* Whether a process with this start may be the child of a place. */
static bool may_be_child(const owner *it, uint64_t start)
{
    const uint64_t made = made_at(it);
    const uint64_t then = start * 1000 / (uint64_t)sysconf(_SC_CLK_TCK);
    return then + OFF >= it->forked && (made == 0 || then <= made + OFF);
}

/* The number of a process that has a place and is dead may have been given to another one. */
static bool has_place(pid_t pid, uint64_t start)
{
    for (unsigned i = 0; i < the_program.owners_used; ++i)
        if (atomic_load(&the_program.owners[i].state) == OWNER_LIVE &&
            the_program.owners[i].pid == pid && the_program.owners[i].start == start)
            return true;
    return false;
}

/* A process that lives, has the arena and has no place may be each child that is made in its time,
 * whoever is its parent by now. A child that comes has one thread, so one without maps does not
 * come. Never true, so that it is called with all processes. */
static bool look_at(pid_t pid, pid_t unused)
{
    stat_line it;
    bool may_be_one = false;
    int arena;
    (void)unused;
    if (!read_stat(pid, &it) || is_over(&it))
        return false;
    for (unsigned i = 0; i < the_program.owners_used && !may_be_one; ++i)
        may_be_one = is_missed[i] && may_be_child(&the_program.owners[i], it.start);
    if (!may_be_one || has_place(pid, it.start))
        return false;
    arena = arena_of(pid);
    if (arena == HAS_NONE || arena == NO_MAPS)
        return false;
    for (unsigned i = 0; i < the_program.owners_used; ++i)
        is_missed[i] = is_missed[i] && !may_be_child(&the_program.owners[i], it.start);
    return false;
}

static bool is_any(pid_t number, pid_t unused)
{
    (void)number, (void)unused;
    return true;
}

void lives_look_for_children(bool looks_at_once)
{
    bool is_doubtful = false;
    for (unsigned i = 0; i < the_program.owners_used; ++i) {
        const owner *it = &the_program.owners[i];
        is_missed[i] = is_coming(it) && is_made(it, looks_at_once ? 0 : UNDOUBTED);
        is_doubtful = is_doubtful || is_missed[i];
    }
    if (!is_doubtful)
        return;
    if (!any_number("/proc", is_any, 0))
        memset(is_missed, 0, sizeof is_missed);
    else
        any_number("/proc", look_at, 0);
}

bool lives_to_come(const owner *it)
{
    return !is_missed[it - the_program.owners];
}
