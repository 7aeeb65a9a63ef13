/* What a program calls that was compiled with -fsanitize=thread, and is linked with
 * libyakyrombe-explore in the place of the sanitizer's runtime. An access to memory is a part of
 * the step that runs, and an atomic one is a step. Two accesses of which one writes, and that no
 * step orders, are a data race, which ends the run with status 66. */
#define _GNU_SOURCE
#include "machine.h"
#include "races.h"

#include <malloc.h>
#include <string.h>

enum { RACE_STATUS = 66 };

void __cxa_guard_release(uint64_t *guard);
YAK_NEXT(__cxa_guard_release)

/* Whether there are choices, and this thread has begun. */
static bool is_seen(void)
{
    return the_machine.chooses && machine_number() != 0 && machine_decides();
}

/* ---- a race ---- */

/* Where code or a variable is: the name that the program's table of symbols has, or the place in
 * its file. */
static void write_place(char *text, size_t size, const void *at)
{
    Dl_info found;
    const char *file;
    if (dladdr(at, &found) == 0) {
        snprintf(text, size, "memory that no file has");
        return;
    }
    file = strrchr(found.dli_fname, '/');
    file = file != 0 ? file + 1 : found.dli_fname;
    if (found.dli_sname != 0)
        snprintf(text, size, "%s of %s", found.dli_sname, file);
    else
        snprintf(text, size, "%s+0x%lx", file,
                 (unsigned long)((const char *)at - (const char *)found.dli_fbase));
}

static void end_by_race(const races_access *it, const races_other *other)
{
    char where[128], here[128], there[128];
    write_place(where, sizeof where, (const void *)it->granule);
    write_place(here, sizeof here, it->code);
    write_place(there, sizeof there, other->code);
    the_machine.shared->race[0] = (uint64_t)(uintptr_t)it->code;
    the_machine.shared->race[1] = (uint64_t)(uintptr_t)other->code;
    the_machine.shared->race_thread[0] = (uint8_t)machine_number();
    the_machine.shared->race_thread[1] = (uint8_t)other->thread;
    fprintf(stderr, "yakyrombe: data race on %s: thread %u %s in %s, and thread %u %s in %s\n",
            where, machine_number(), it->is_write ? "writes" : "reads", here, other->thread,
            other->is_write ? "wrote" : "read", there);
    machine_end_run(YAK_END_RACE, RACE_STATUS);
}

/* ---- accesses ---- */

/* What a step depends on: four bytes, so that two atomics of that size do not depend on each other
 * because they stand side by side. */
enum { HALF = RACES_GRANULE / 2 };

static const void *half_of(const volatile void *at)
{
    return (const void *)((uintptr_t)at - (uintptr_t)at % HALF);
}

static uint32_t half_object(uintptr_t at)
{
    return machine_object(half_of((const void *)at), STEP_WRITE);
}

static void see_granule(const races_access *it)
{
    const yak_kind kind = it->is_write ? STEP_WRITE : STEP_READ;
    unsigned halves = (it->mask & 0x0f) != 0 ? 1 : 0;
    races_other other = {0};
    if (races_find(machine_number(), it, &other))
        end_by_race(it, &other);
    if (it->is_atomic)
        return;
    halves |= (it->mask & 0xf0) != 0 ? 2 : 0;
    halves = races_new_halves(it->granule, it->is_write, halves, the_machine.steps);
    for (unsigned i = 0; i < 2; ++i)
        if ((halves >> i & 1) != 0)
            machine_also(kind, half_object(it->granule + i * HALF));
}

static void see(bool is_write, bool is_atomic, const volatile void *at, size_t size,
                const void *code)
{
    const uintptr_t from = (uintptr_t)at, end = from + size;
    races_access it = {.is_write = is_write, .is_atomic = is_atomic, .code = code};
    if (!is_seen())
        return;
    for (it.granule = from - from % RACES_GRANULE; it.granule < end; it.granule += RACES_GRANULE) {
        it.mask = 0;
        for (unsigned i = 0; i < RACES_GRANULE; ++i)
            if (it.granule + i >= from && it.granule + i < end)
                it.mask |= (uint8_t)(1u << i);
        see_granule(&it);
    }
}

/* The turn of an atomic operation, which is one on each half that it touches. */
static void act(yak_kind kind, const volatile void *at, size_t size, const void *code)
{
    const uintptr_t from = (uintptr_t)half_of(at), end = (uintptr_t)at + size;
    if (is_seen())
        machine_acts(kind, (const void *)from, 0);
    for (uintptr_t half = from + HALF; half < end && is_seen(); half += HALF)
        machine_also(kind, machine_object((const void *)half, kind));
    see(kind == STEP_STORE, true, at, size, code);
}

#define CODE __builtin_return_address(0)

void __tsan_init(void)
{
    the_machine.sees_memory = true;
}

void __tsan_func_entry(void *of)
{
    (void)of;
}

void __tsan_func_exit(void)
{
}

#define LOOK(name, size, writes)            \
    void __tsan_##name##size(void *at)      \
    {                                       \
        see(writes, false, at, size, CODE); \
    }

#define ACCESS(size)                  \
    LOOK(read, size, false)           \
    LOOK(write, size, true)           \
    LOOK(unaligned_read, size, false) \
    LOOK(unaligned_write, size, true) \
    LOOK(volatile_read, size, false)  \
    LOOK(volatile_write, size, true)  \
    LOOK(read_write, size, true)

ACCESS(1)
ACCESS(2)
ACCESS(4)
ACCESS(8)
ACCESS(16)

void __tsan_read_range(void *at, size_t size)
{
    see(false, false, at, size, CODE);
}

void __tsan_write_range(void *at, size_t size)
{
    see(true, false, at, size, CODE);
}

void __tsan_vptr_read(void **at)
{
    see(false, false, at, sizeof *at, CODE);
}

void __tsan_vptr_update(void **at, void *with)
{
    if (*at != with)
        see(true, false, at, sizeof *at, CODE);
}

void *__tsan_memcpy(void *to, const void *from, size_t size)
{
    see(false, false, from, size, CODE);
    see(true, false, to, size, CODE);
    return memcpy(to, from, size);
}

void *__tsan_memmove(void *to, const void *from, size_t size)
{
    see(false, false, from, size, CODE);
    see(true, false, to, size, CODE);
    return memmove(to, from, size);
}

void *__tsan_memset(void *to, int with, size_t size)
{
    see(true, false, to, size, CODE);
    return memset(to, with, size);
}

/* ---- atomics, each of which is sequentially consistent ---- */

#define SEQ __ATOMIC_SEQ_CST
/* The turn of the operation of a function below. */
#define TURN(kind) ((void)order, act(kind, at, sizeof *at, CODE))

/* Whether a comparison let the value change: else the step was a poll in vain. */
static bool is_changed(bool it)
{
    if (!it)
        machine_was_vain();
    return it;
}

#define FETCH(bits, type, what)                                                      \
    type __tsan_atomic##bits##_fetch_##what(volatile type *at, type with, int order) \
    {                                                                                \
        TURN(STEP_STORE);                                                            \
        return __atomic_fetch_##what(at, with, SEQ);                                 \
    }

#define ATOMIC(bits, type)                                                                        \
    type __tsan_atomic##bits##_load(const volatile type *at, int order)                           \
    {                                                                                             \
        TURN(STEP_LOAD);                                                                          \
        return __atomic_load_n(at, SEQ);                                                          \
    }                                                                                             \
    void __tsan_atomic##bits##_store(volatile type *at, type with, int order)                     \
    {                                                                                             \
        TURN(STEP_STORE);                                                                         \
        __atomic_store_n(at, with, SEQ);                                                          \
    }                                                                                             \
    type __tsan_atomic##bits##_exchange(volatile type *at, type with, int order)                  \
    {                                                                                             \
        type before;                                                                              \
        TURN(STEP_STORE);                                                                         \
        before = __atomic_exchange_n(at, with, SEQ);                                              \
        if (before == with)                                                                       \
            machine_was_vain();                                                                   \
        return before;                                                                            \
    }                                                                                             \
    int __tsan_atomic##bits##_compare_exchange_strong(volatile type *at, type *expected,          \
                                                      type with, int order, int other)            \
    {                                                                                             \
        (void)other;                                                                              \
        TURN(STEP_STORE);                                                                         \
        return is_changed(__atomic_compare_exchange_n(at, expected, with, false, SEQ, SEQ));      \
    }                                                                                             \
    int __tsan_atomic##bits##_compare_exchange_weak(volatile type *at, type *expected, type with, \
                                                    int order, int other)                         \
    {                                                                                             \
        (void)other;                                                                              \
        TURN(STEP_STORE);                                                                         \
        return is_changed(__atomic_compare_exchange_n(at, expected, with, false, SEQ, SEQ));      \
    }                                                                                             \
    type __tsan_atomic##bits##_compare_exchange_val(volatile type *at, type expected, type with,  \
                                                    int order, int other)                         \
    {                                                                                             \
        (void)other;                                                                              \
        TURN(STEP_STORE);                                                                         \
        is_changed(__atomic_compare_exchange_n(at, &expected, with, false, SEQ, SEQ));            \
        return expected;                                                                          \
    }                                                                                             \
    FETCH(bits, type, add)                                                                        \
    FETCH(bits, type, sub)                                                                        \
    FETCH(bits, type, and)                                                                        \
    FETCH(bits, type, or)                                                                         \
    FETCH(bits, type, xor)

ATOMIC(8, uint8_t)
ATOMIC(16, uint16_t)
ATOMIC(32, uint32_t)
ATOMIC(64, uint64_t)

void __tsan_atomic_thread_fence(int order)
{
    (void)order;
    __atomic_thread_fence(SEQ);
}

void __tsan_atomic_signal_fence(int order)
{
    (void)order;
}

/* A variable of a function in C++ has begun, which other threads see by an atomic load of the
 * guard.
 */
void __cxa_guard_release(uint64_t *guard)
{
    if (is_seen())
        machine_also(STEP_STORE, half_object((uintptr_t)guard));
    YAK_REAL(__cxa_guard_release)(guard);
}

/* ---- memory that is used anew ---- */

void free(void *memory)
{
    if (the_machine.sees_memory && memory != 0 && is_seen())
        races_forget((uintptr_t)memory, malloc_usable_size(memory));
    YAK_REAL(free)(memory);
}

void *realloc(void *memory, size_t size)
{
    if (the_machine.sees_memory && memory != 0 && is_seen())
        races_forget((uintptr_t)memory, malloc_usable_size(memory));
    return YAK_REAL(realloc)(memory, size);
}
