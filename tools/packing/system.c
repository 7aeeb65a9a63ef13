/* The C functions of the kit that the proved programs call, for a machine for which the kit has
 * none. */
#define _GNU_SOURCE
#include <errno.h>
#include <signal.h>
#include <stdbool.h>
#include <stddef.h>
#include <stdint.h>
#include <stdlib.h>
#include <string.h>
#include <sys/socket.h>
#include <sys/uio.h>
#include <time.h>
#include <unistd.h>

/* ---- memory ---- */

typedef struct tried {
    bool is_ok;
    void *at;
} tried;

_Static_assert(_Alignof(max_align_t) >= 16, "malloc aligns by 16");

static tried tried_with(void *at)
{
    static max_align_t none;
    return (tried){at != 0, at != 0 ? at : &none};
}

tried rattle_alloc(size_t size, size_t align)
{
    return tried_with(malloc(size != 0 ? size : align));
}

tried rattle_realloc(void *at, size_t kept, size_t size, size_t align)
{
    (void)kept;
    return tried_with(realloc(at, size != 0 ? size : align));
}

void rattle_dealloc(void *at)
{
    free(at);
}

/* ---- arguments and environment ---- */

extern char **environ;
static size_t argument_count;
static char **arguments;

static void keep_arguments(int count, char **all, char **environment)
{
    (void)environment;
    argument_count = (size_t)count;
    arguments = all;
}

/* glibc passes the arguments to these functions before main. */
__attribute__((section(".init_array"), used)) static void (*const keeps)(int, char **,
                                                                         char **) = keep_arguments;

/* The length of a text, of which as much is copied as there is room; -2 if it is longer. */
static int64_t copied(const char *from, uint8_t *to, size_t room)
{
    const size_t len = strlen(from);
    memcpy(to, from, len < room ? len : room);
    return len <= room ? (int64_t)len : -2;
}

size_t rattle_arg_count(void)
{
    return argument_count;
}

int64_t rattle_arg(size_t i, uint8_t *to, size_t room)
{
    return i < argument_count ? copied(arguments[i], to, room) : -1;
}

int64_t rattle_env(const char *name, uint8_t *to, size_t room)
{
    const char *it = getenv(name);
    return it != 0 ? copied(it, to, room) : -1;
}

int64_t rattle_env_at(size_t i, uint8_t *to, size_t room)
{
    for (size_t j = 0; environ != 0 && environ[j] != 0; ++j)
        if (j == i)
            return copied(environ[j], to, room);
    return -1;
}

/* ---- errors and writes ---- */

int rattle_errno(void)
{
    return errno;
}

void rattle_set_errno(int error)
{
    errno = error;
}

/* A write to a closed pipe fails with EPIPE, and no SIGPIPE stays pending. */
static int64_t without_sigpipe(int file, const struct iovec *parts, int count, bool is_socket)
{
    struct msghdr message = {.msg_iov = (struct iovec *)parts, .msg_iovlen = (size_t)count};
    const struct timespec now = {0, 0};
    sigset_t pipes, before, pending;
    ssize_t written;
    int error;
    if (is_socket)
        return sendmsg(file, &message, MSG_NOSIGNAL);
    sigemptyset(&pipes);
    sigaddset(&pipes, SIGPIPE);
    sigpending(&pending);
    pthread_sigmask(SIG_BLOCK, &pipes, &before);
    written = writev(file, parts, count);
    error = errno;
    if (written < 0 && error == EPIPE && sigismember(&pending, SIGPIPE) == 0)
        while (sigtimedwait(&pipes, 0, &now) == -1 && errno == EINTR)
            ;
    pthread_sigmask(SIG_SETMASK, &before, 0);
    errno = error;
    return written;
}

int64_t rattle_write_no_sigpipe(int file, const uint8_t *from, size_t size)
{
    const struct iovec part = {(void *)from, size};
    return without_sigpipe(file, &part, 1, false);
}

int64_t rattle_write_parts(int file, uint32_t is_socket, const uint8_t *a, size_t a_len,
                           const uint8_t *b, size_t b_len, const uint8_t *c, size_t c_len,
                           const uint8_t *d, size_t d_len)
{
    const struct iovec parts[] = {
        {(void *)a, a_len}, {(void *)b, b_len}, {(void *)c, c_len}, {(void *)d, d_len}};
    return without_sigpipe(file, parts, 4, is_socket != 0);
}
