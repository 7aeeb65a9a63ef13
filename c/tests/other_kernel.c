/* Preloaded, it imitates two kinds of kernels. With BIG_PAGES=65536 (or 16384) pages have so many
 * bytes: an address inside a page is refused, a length counts up to the end of its last page, and a
 * new mapping begins at a page. With NO_LISTS=1 the kernel keeps no robust lists, as under
 * qemu-user. */
#define _GNU_SOURCE
#include <dlfcn.h>
#include <errno.h>
#include <stdarg.h>
#include <stdbool.h>
#include <stdint.h>
#include <stdlib.h>
#include <sys/mman.h>
#include <sys/syscall.h>
#include <unistd.h>

enum { MOST_ARGUMENTS = 6 };

static size_t page(void)
{
    static size_t size;
    if (size == 0) {
        const char *wanted = getenv("BIG_PAGES");
        size = wanted != 0 ? strtoul(wanted, 0, 10) : 4096;
    }
    return size;
}

static size_t whole(size_t size)
{
    return (size + page() - 1) & ~(page() - 1);
}

static long (*next_syscall(void))(long, ...)
{
    static long (*next)(long, ...);
    if (next == 0)
        *(void **)&next = dlsym(RTLD_NEXT, "syscall");
    return next;
}

/* A call with an address, unless that is inside a page. */
static int at_page(long call, void *at, size_t size, int how)
{
    if (((uintptr_t)at & (page() - 1)) != 0) {
        errno = EINVAL;
        return -1;
    }
    return (int)next_syscall()(call, at, whole(size), how);
}

int mprotect(void *at, size_t size, int rights)
{
    return at_page(SYS_mprotect, at, size, rights);
}

int madvise(void *at, size_t size, int advice)
{
    return at_page(SYS_madvise, at, size, advice);
}

int munmap(void *at, size_t size)
{
    return at_page(SYS_munmap, at, size, 0);
}

static void *map(void *at, size_t size, int rights, int kind, int file, off_t from)
{
    return (void *)next_syscall()(SYS_mmap, at, size, rights, kind, file, from);
}

void *mmap(void *at, size_t size, int rights, int kind, int file, off_t from)
{
    const int none = MAP_PRIVATE | MAP_ANONYMOUS | MAP_NORESERVE;
    char *room;
    size = whole(size);
    if (at != 0 || (kind & MAP_FIXED) != 0)
        return map(at, size, rights, kind, file, from);
    /* One page more than asked for has a page's begin in it. */
    room = map(0, size + page(), PROT_NONE, none, -1, 0);
    if (room == MAP_FAILED)
        return room;
    at = (void *)whole((uintptr_t)room);
    if (at != (void *)room)
        next_syscall()(SYS_munmap, room, (char *)at - room);
    next_syscall()(SYS_munmap, (char *)at + size, (size_t)(room + page() - (char *)at));
    return map(at, size, rights, kind | MAP_FIXED, file, from);
}

long sysconf(int name)
{
    static long (*next)(int);
    if (name == _SC_PAGESIZE)
        return (long)page();
    if (next == 0)
        *(void **)&next = dlsym(RTLD_NEXT, "sysconf");
    return next(name);
}

int getpagesize(void)
{
    return (int)page();
}

long syscall(long number, ...)
{
    long with[MOST_ARGUMENTS];
    va_list rest;
    if (number == SYS_get_robust_list && getenv("NO_LISTS") != 0) {
        errno = ENOSYS;
        return -1;
    }
    va_start(rest, number);
    for (int i = 0; i < MOST_ARGUMENTS; ++i)
        with[i] = va_arg(rest, long);
    va_end(rest);
    return next_syscall()(number, with[0], with[1], with[2], with[3], with[4], with[5]);
}
