/* The world of a program in a module: its arguments, files in memory, the standard input, two
 * outputs, and a clock. It serves a program that reads and writes; it has no threads. What the
 * program calls has the names of the kit's and the system's C functions. */
#include "base.h"

IMPORT(now) double env_now(void); /* nanoseconds */
IMPORT(exit) _Noreturn void env_exit(int32_t status);

enum {
    ENOENT = 2,
    EBADF = 9,
    EAGAIN = 11,
    ENOMEM = 12,
    EINVAL = 22,
    ESPIPE = 29,
    ERANGE = 34,
    ENOSYS = 38
};
enum { MOST_ARGUMENTS = 64, MOST_FILES = 16, MOST_OPEN = 32, INPUT = 0, OUTPUT = 1, ERRORS = 2 };

typedef struct text {
    const uint8_t *at;
    size_t len;
} text;

static text arguments[MOST_ARGUMENTS];
static size_t argument_count;
/* The file 0 is the standard input. */
static struct {
    text name, content;
} files[MOST_FILES];
static size_t file_count;
static struct {
    size_t file, place;
    bool is_open;
} open_files[MOST_OPEN];
static struct {
    uint8_t *at;
    size_t len, room;
} outputs[ERRORS + 1];
static int32_t error;

static int64_t fails(int32_t with)
{
    error = with;
    return -1;
}

int32_t rattle_errno(void)
{
    return error;
}

void rattle_set_errno(int32_t it)
{
    error = it;
}

/* ---- what JavaScript calls before and after a run; its texts lie in blocks of host_take ---- */

void EXPORT(host_argument)(const uint8_t *at, size_t len)
{
    if (argument_count < MOST_ARGUMENTS)
        arguments[argument_count++] = (text){at, len};
}

void EXPORT(host_file)(const uint8_t *name, size_t name_len, const uint8_t *at, size_t len)
{
    if (file_count == MOST_FILES)
        return;
    files[file_count].name = (text){name, name_len};
    files[file_count++].content = (text){at, len};
}

const uint8_t *EXPORT(host_output)(uint32_t number)
{
    return outputs[number].at;
}

size_t EXPORT(host_output_len)(uint32_t number)
{
    return outputs[number].len;
}

int32_t rattle_main(void);

int32_t EXPORT(host_run)(void)
{
    return rattle_main();
}

/* ---- arguments and environment ---- */

int64_t rattle_arg(size_t i, uint8_t *buf, size_t room)
{
    if (i >= argument_count)
        return -1;
    memcpy(buf, arguments[i].at, arguments[i].len < room ? arguments[i].len : room);
    return arguments[i].len <= room ? (int64_t)arguments[i].len : -2;
}

int64_t rattle_env(const uint8_t *name, uint8_t *buf, size_t room)
{
    (void)name, (void)buf, (void)room;
    return -1;
}

int64_t rattle_env_at(size_t i, uint8_t *buf, size_t room)
{
    (void)i, (void)buf, (void)room;
    return -1;
}

/* ---- files ---- */

static bool has_output_room(int32_t number, size_t more)
{
    const size_t wanted = outputs[number].len + more;
    size_t room = outputs[number].room * 2;
    uint8_t *to;
    if (wanted <= outputs[number].room)
        return true;
    if (room < wanted)
        room = wanted + 4096;
    to = memory_take(room);
    if (to == 0)
        return false;
    if (outputs[number].at != 0) {
        memcpy(to, outputs[number].at, outputs[number].len);
        memory_give(outputs[number].at);
    }
    outputs[number].at = to;
    outputs[number].room = room;
    return true;
}

int64_t write(int32_t number, const uint8_t *from, size_t size)
{
    if (number != OUTPUT && number != ERRORS)
        return fails(EBADF);
    if (!has_output_room(number, size))
        return fails(ENOMEM);
    memcpy(outputs[number].at + outputs[number].len, from, size);
    outputs[number].len += size;
    return (int64_t)size;
}

int64_t __write(int32_t number, const uint8_t *from, size_t size)
{
    return write(number, from, size);
}

int64_t read(int32_t number, uint8_t *to, size_t size)
{
    const bool is_open =
        number == INPUT || (number > ERRORS && number < MOST_OPEN && open_files[number].is_open);
    const text *content;
    if (!is_open)
        return fails(EBADF);
    content = &files[open_files[number].file].content;
    if (size > content->len - open_files[number].place)
        size = content->len - open_files[number].place;
    memcpy(to, content->at + open_files[number].place, size);
    open_files[number].place += size;
    return (int64_t)size;
}

static bool is_named(size_t file, const uint8_t *name)
{
    size_t len = 0;
    while (name[len] != 0)
        ++len;
    return files[file].name.len == len && memcmp(files[file].name.at, name, len) == 0;
}

/* The lowest number that no open file has; 0 if there is none. */
static int32_t free_number(void)
{
    for (int32_t number = ERRORS + 1; number < MOST_OPEN; ++number)
        if (!open_files[number].is_open)
            return number;
    return 0;
}

int32_t open(const uint8_t *name, int32_t flags, ...)
{
    const int32_t number = free_number();
    const int32_t access = flags & 3;
    if (access != 0 || number == 0)
        return (int32_t)fails(EINVAL);
    for (size_t file = 1; file < file_count; ++file)
        if (is_named(file, name)) {
            open_files[number].file = file;
            open_files[number].place = 0;
            open_files[number].is_open = true;
            return number;
        }
    return (int32_t)fails(ENOENT);
}

int32_t close(int32_t number)
{
    if (number > ERRORS && number < MOST_OPEN)
        open_files[number].is_open = false;
    return 0;
}

int64_t lseek(int32_t number, int64_t offset, int32_t from)
{
    (void)number, (void)offset, (void)from;
    return fails(ESPIPE);
}

int32_t __xpg_strerror_r(int32_t number, uint8_t *to, size_t room)
{
    const char *said = number == ENOENT ? "No such file or directory" : "error";
    size_t i = 0;
    if (room == 0)
        return ERANGE;
    for (; said[i] != 0 && i + 1 < room; ++i)
        to[i] = (uint8_t)said[i];
    to[i] = 0;
    return 0;
}

/* ---- time, and the end ---- */

typedef struct moment {
    int64_t sec, nsec;
} moment;

int32_t clock_gettime(int32_t clock, moment *at)
{
    const double second = 1e9, now = env_now();
    (void)clock;
    at->sec = (int64_t)(now / second);
    at->nsec = (int64_t)(now - (double)at->sec * second);
    if (at->nsec < 0)
        at->nsec = 0;
    if (at->nsec > 999999999)
        at->nsec = 999999999;
    return 0;
}

_Noreturn void _exit(int32_t status)
{
    env_exit(status);
}

_Noreturn void abort(void)
{
    __builtin_trap();
}

/* A proved program begins by asking what an x86-64 processor can do. WebAssembly has instructions
 * for all that its module contains, so the answer is yes. */
const uint32_t *__x86_get_cpuid_feature_leaf(uint32_t leaf)
{
    static const uint32_t all[] = {~0U, ~0U, ~0U, ~0U, ~0U, ~0U, ~0U, ~0U};
    (void)leaf;
    return all;
}

/* ---- what fails here: threads, signals and other calls of a system ---- */

int32_t pthread_create(void *thread, const void *attributes, void *run, void *with)
{
    (void)thread, (void)attributes, (void)run, (void)with;
    return EAGAIN;
}

int32_t pthread_attr_init(void *attributes)
{
    (void)attributes;
    return 0;
}

int32_t pthread_attr_setguardsize(void *attributes, size_t size)
{
    (void)attributes, (void)size;
    return 0;
}

int32_t pthread_attr_setstacksize(void *attributes, size_t size)
{
    (void)attributes, (void)size;
    return 0;
}

int32_t pthread_attr_destroy(void *attributes)
{
    (void)attributes;
    return 0;
}

size_t pthread_self(void)
{
    return 1;
}

int32_t pthread_detach(size_t thread)
{
    (void)thread;
    return 0;
}

int32_t pthread_join(size_t thread, void *to)
{
    (void)thread, (void)to;
    return EINVAL;
}

int32_t sched_yield(void)
{
    return 0;
}

size_t __sysv_signal(int32_t number, size_t handler)
{
    (void)number, (void)handler;
    return 0;
}

int32_t statx(int32_t folder, const uint8_t *name, int32_t flags, uint32_t mask, void *to)
{
    (void)folder, (void)name, (void)flags, (void)mask, (void)to;
    return (int32_t)fails(ENOSYS);
}

int64_t syscall(int64_t number, void *a, int64_t b, int64_t c, void *d, ...)
{
    (void)number, (void)a, (void)b, (void)c, (void)d;
    return fails(ENOSYS);
}
