/* The shared memory of the program, and the allocator of the proved library over it. All of this is
 * called only inside the lock of the program, so nothing else guards it. */
#define _GNU_SOURCE
#include "arena.h"
#include "memory.h"

#include <fcntl.h>
#include <stdatomic.h>
#include <string.h>
#include <sys/mman.h>
#include <sys/resource.h>
#include <unistd.h>

/* Blocks of a class have one size: steps of 16 bytes up to 1 KiB, powers of two up to 256 KiB, and
 * powers of eight above, because untouched pages cost nothing, and a growing vector is then seldom
 * copied. A head precedes each block. */
enum {
    STEP = 16,
    SMALL = 1024,
    SMALL_CLASSES = SMALL / STEP,
    MIDDLE = 1 << 18,
    MIDDLE_CLASSES = 8,
    LARGE_CLASS = SMALL_CLASSES + MIDDLE_CLASSES, /* the first of the large blocks */
    HEAD = 16,
    /* Kernels have pages of 4, 16 or 64 KiB: ranges begin and end at a multiple of the largest, and
     * a touch in each of the smallest touches all of them. */
    LARGEST_PAGE = 1 << 16,
    SMALLEST_PAGE = 1 << 12,
    /* A part is opened by at least this much, and by half of what is open, up to a limit. */
    LEAST_OPENED = 1 << 20,
    LEAST = 48 << 20, /* of an arena */
    MOST_OPENED = 64 << 20,
    /* A part whose contents are dropped keeps the pages of this many bytes. */
    KEPT_PAGES = 4 << 20,
    /* So many bytes of small blocks are touched at the first call. */
    TOUCHED = 1 << 17
};

/* What precedes a block. The others are only those of large blocks. */
typedef struct head {
    uint32_t class;
    uint32_t is_free;
    size_t size; /* as it was asked for: what follows is untouched */
} head;

arena *arena_here;
/* How much of each part this process can access. */
static size_t followed[ARENA_PARTS];

static size_t whole_pages(size_t size)
{
    return (size + LARGEST_PAGE - 1) & ~(size_t)(LARGEST_PAGE - 1);
}

static void begin_blocks(void)
{
    arena_blocks *it = &arena_here->blocks;
    memset(it, 0, sizeof *it);
    it->next[ARENA_SMALL] = arena_here->parts[ARENA_SMALL].from;
    it->next[ARENA_LARGE] = arena_here->parts[ARENA_LARGE].from;
}

void arena_follow(void)
{
    for (unsigned i = 0; i < ARENA_PARTS; ++i) {
        const arena_part *it = &arena_here->parts[i];
        if (followed[i] < it->open &&
            mprotect(it->from + followed[i], it->open - followed[i], PROT_READ | PROT_WRITE) == 0)
            followed[i] = it->open;
    }
}

static size_t least_of(size_t one, size_t other)
{
    return one < other ? one : other;
}

bool arena_open(unsigned part, size_t wanted)
{
    arena_part *it = &arena_here->parts[part];
    size_t more = it->open + least_of(it->open / 2, MOST_OPENED);
    if (wanted < more)
        wanted = more;
    wanted = (wanted + LEAST_OPENED - 1) & ~(size_t)(LEAST_OPENED - 1);
    if (wanted > it->room || followed[part] != it->open ||
        mprotect(it->from + it->open, wanted - it->open, PROT_READ | PROT_WRITE) != 0)
        return false;
    it->open = followed[part] = wanted;
    ++arena_here->openings;
    return true;
}

/* Lays out the parts after the tables. */
static void lay_out(char *at, size_t tables)
{
    const size_t kept = (size_t)4 << 20, fourth = (arena_here->size - tables - kept) / 4;
    char *next = at + tables;
    for (unsigned i = 0; i < ARENA_PARTS; ++i) {
        arena_part *it = &arena_here->parts[i];
        it->from = next;
        it->room = i == ARENA_KEPT ? kept : fourth;
        it->room &= ~(size_t)(LEAST_OPENED - 1);
        next += it->room;
    }
    begin_blocks();
}

/* Whether the system counts all mapped memory, used or not (vm.overcommit_memory). */
static bool is_counted(void)
{
    const int file = open("/proc/sys/vm/overcommit_memory", O_RDONLY | O_CLOEXEC);
    char mode = 0;
    if (file < 0)
        return false;
    if (read(file, &mode, 1) != 1)
        mode = 0;
    close(file);
    return mode == '2';
}

/* How many bytes of addresses to ask for: a sixteenth of what the process may have. */
static size_t wanted_size(void)
{
    const size_t most = is_counted() ? (size_t)768 << 20 : (size_t)96 << 30;
    struct rlimit limit;
    if (getrlimit(RLIMIT_AS, &limit) != 0 || limit.rlim_cur == RLIM_INFINITY)
        return most;
    limit.rlim_cur = limit.rlim_cur / 16 & ~(rlim_t)(LEAST_OPENED - 1);
    return limit.rlim_cur < LEAST ? LEAST : least_of(most, (size_t)limit.rlim_cur);
}

char *arena_map(size_t tables, size_t place, bool is_private)
{
    const int kind = is_private ? MAP_PRIVATE : MAP_SHARED;
    tables = whole_pages(tables);
    for (size_t size = wanted_size(); size >= LEAST; size = whole_pages(size / 2)) {
        char *at = mmap(0, size, PROT_NONE, kind | MAP_ANONYMOUS | MAP_NORESERVE, -1, 0);
        if (at == MAP_FAILED)
            continue;
        madvise(at, size, MADV_DONTDUMP);
        if (mprotect(at, tables, PROT_READ | PROT_WRITE) != 0) {
            munmap(at, size);
            return 0;
        }
        memset(followed, 0, sizeof followed);
        arena_here = (arena *)(at + place);
        arena_here->size = size;
        lay_out(at, tables);
        return at;
    }
    return 0;
}

void arena_unmap(char *at)
{
    munmap(at, arena_here->size);
    arena_here = 0;
}

char *arena_again(char *at)
{
    char *again = mremap(at, 0, arena_here->size, MREMAP_MAYMOVE);
    return again != MAP_FAILED ? again : 0;
}

bool arena_return(char *at, char *again, size_t tables)
{
    const size_t size = arena_here->size;
    if (mremap(again, size, size, MREMAP_MAYMOVE | MREMAP_FIXED, at) == MAP_FAILED)
        return false;
    tables = whole_pages(tables);
    memset(followed, 0, sizeof followed);
    return mprotect(at + tables, size - tables, PROT_NONE) == 0;
}

void arena_touch(void *from, size_t size)
{
    for (char *at = from; at < (char *)from + size; at += SMALLEST_PAGE)
        __atomic_fetch_or(at, 0, __ATOMIC_RELAXED);
}

void arena_touch_blocks(void)
{
    const arena_part *part = &arena_here->parts[ARENA_SMALL];
    char *from = arena_here->blocks.next[ARENA_SMALL];
    arena_touch(from, least_of(TOUCHED, (size_t)(part->from + part->open - from)));
}

void arena_drop(unsigned part, size_t kept, const char *to)
{
    char *const from = arena_here->parts[part].from + whole_pages(kept);
    if (to > from)
        madvise(from, whole_pages((size_t)(to - from)), MADV_REMOVE);
}

void arena_clear(void)
{
    const arena_blocks *it = &arena_here->blocks;
    for (unsigned part = ARENA_SMALL; part <= ARENA_LARGE; ++part)
        arena_drop(part, KEPT_PAGES, it->next[part]);
    begin_blocks();
}

/* ---- the allocator ---- */

static unsigned class_of(size_t size)
{
    unsigned class = SMALL_CLASSES + MIDDLE_CLASSES;
    if (size <= SMALL)
        return size == 0 ? 0 : (unsigned)((size - 1) / STEP);
    if (size <= MIDDLE)
        return SMALL_CLASSES + (unsigned)(64 - __builtin_clzll(size - 1)) - 11;
    for (size_t room = (size_t)MIDDLE * 8; room < size && class < ARENA_CLASSES; room *= 8)
        ++class;
    return class;
}

static size_t size_of(unsigned class)
{
    if (class < SMALL_CLASSES)
        return (size_t)(class + 1) * STEP;
    if (class < SMALL_CLASSES + MIDDLE_CLASSES)
        return (size_t)SMALL * 2 << (class - SMALL_CLASSES);
    return (size_t)MIDDLE * 8 << 3 * (class - SMALL_CLASSES - MIDDLE_CLASSES);
}

static head *head_of(void *block)
{
    return (head *)(void *)((char *)block - HEAD);
}

/* A new block of a class, after all others; null if its part can't be opened that far. */
static __attribute__((noinline)) void *take_new(unsigned class, size_t size)
{
    const unsigned part = class < LARGE_CLASS ? ARENA_SMALL : ARENA_LARGE;
    char **next = &arena_here->blocks.next[part], *block = *next + HEAD;
    if (!arena_reaches(part, (size_t)(block - arena_here->parts[part].from) + size_of(class)))
        return 0;
    *head_of(block) = (head){.class = class, .size = size};
    atomic_signal_fence(memory_order_seq_cst);
    *next = block + size_of(class);
    return block;
}

static __attribute__((noinline)) void *take_large(unsigned class, size_t size)
{
    void *block;
    if (class >= ARENA_CLASSES)
        return 0;
    block = arena_here->blocks.free[class];
    if (block == 0)
        return take_new(class, size);
    *head_of(block) = (head){.class = class, .size = size};
    atomic_signal_fence(memory_order_seq_cst);
    arena_here->blocks.free[class] = *(void **)block;
    return block;
}

static void *take(size_t size)
{
    const unsigned class = class_of(size);
    void *block;
    if (class >= LARGE_CLASS)
        return take_large(class, size);
    block = arena_here->blocks.free[class];
    if (block == 0)
        return take_new(class, size);
    arena_here->blocks.free[class] = *(void **)block;
    return block;
}

/* A large block returns its pages. */
static __attribute__((noinline)) void empty(char *block, size_t size)
{
    char *from = (char *)whole_pages((uintptr_t)block + sizeof(void *)),
         *to = (char *)(((uintptr_t)block + size) & ~(uintptr_t)(LARGEST_PAGE - 1));
    madvise(from, (size_t)(to - from), MADV_REMOVE);
    head_of(block)->is_free = true;
}

static void give(void *block)
{
    const unsigned class = head_of(block)->class;
    if (class >= LARGE_CLASS)
        empty(block, size_of(class));
    *(void **)block = arena_here->blocks.free[class];
    arena_here->blocks.free[class] = block;
}

rattle_tried rattle_alloc(size_t size, size_t align)
{
    return rattle_tried_with(take(size != 0 ? size : align));
}

rattle_tried rattle_realloc(void *p, size_t kept, size_t size, size_t align)
{
    const unsigned class = head_of(p)->class;
    void *new;
    size = size != 0 ? size : align;
    if (class_of(size) == class) {
        if (class >= LARGE_CLASS)
            head_of(p)->size = size;
        return rattle_tried_with(p);
    }
    new = take(size);
    if (new != 0) {
        memcpy(new, p, kept < size ? kept : size);
        give(p);
    }
    return rattle_tried_with(new);
}

void rattle_dealloc(void *p)
{
    give(p);
}

/* ---- images ---- */

/* Small blocks are copied as one piece. Of each large block its head, and of a free one the link to
 * the next. */
static size_t used_of(const head *it)
{
    return (it->is_free ? sizeof(void *) : it->size + 7) & ~(size_t)7;
}

size_t arena_image_size(void)
{
    const arena_blocks *it = &arena_here->blocks;
    size_t size =
        sizeof *it + (size_t)(it->next[ARENA_SMALL] - arena_here->parts[ARENA_SMALL].from);
    for (char *at = arena_here->parts[ARENA_LARGE].from; at != it->next[ARENA_LARGE];
         at += HEAD + size_of(((head *)(void *)at)->class))
        size += HEAD + used_of((head *)(void *)at);
    return size;
}

static char *put(char *to, const void *from, size_t size)
{
    memcpy(to, from, size);
    return to + size;
}

char *arena_save(char *to)
{
    const arena_blocks *it = &arena_here->blocks;
    const char *small = arena_here->parts[ARENA_SMALL].from;
    to = put(to, it, sizeof *it);
    to = put(to, small, (size_t)(it->next[ARENA_SMALL] - small));
    for (char *at = arena_here->parts[ARENA_LARGE].from; at != it->next[ARENA_LARGE];
         at += HEAD + size_of(((head *)(void *)at)->class))
        to = put(to, at, HEAD + used_of((head *)(void *)at));
    return to;
}

static const char *get(void *to, const char *from, size_t size)
{
    memcpy(to, from, size);
    return from + size;
}

const char *arena_load(const char *from)
{
    arena_blocks *it = &arena_here->blocks;
    char *small = arena_here->parts[ARENA_SMALL].from;
    from = get(it, from, sizeof *it);
    from = get(small, from, (size_t)(it->next[ARENA_SMALL] - small));
    for (char *at = arena_here->parts[ARENA_LARGE].from; at != it->next[ARENA_LARGE];
         at += HEAD + size_of(((head *)(void *)at)->class))
        from = get(at, from, HEAD + used_of((const head *)(const void *)from));
    return from;
}
