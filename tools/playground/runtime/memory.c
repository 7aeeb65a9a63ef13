/* The allocator of a module: free lists by size, over the memory that it grows. The functions
 * rattle_.. are those that proved code calls. */
#include "base.h"

/* A block's size, with the 16 bytes in front of it that have its class, is a multiple of 16: 32, 48
 * .. 128, and then four sizes for each power of two. */
enum {
    HEAD = 16,
    STEPS = 7,
    LEAST = 32,
    SMALL = 128,
    CLASSES = 128,
    PAGE_BITS = 16,
    MORE_PAGES = 64
};
static const size_t MOST = (size_t)1 << 36;

typedef struct block {
    struct block *next;
} block;

extern uint8_t __heap_base;
static uint8_t *top, *end;
static block *lists[CLASSES];

static size_t size_of(unsigned class)
{
    const unsigned power = (class - STEPS) / 4, quarters = (class - STEPS) % 4 + 1;
    if (class < STEPS)
        return LEAST + 16 * (size_t) class;
    return ((size_t)SMALL << power) + ((size_t)quarters << (power + 5));
}

static unsigned class_of(size_t size)
{
    unsigned power;
    if (size <= LEAST)
        return 0;
    if (size <= SMALL)
        return (unsigned)(size - LEAST + 15) / 16;
    power = 63 - (unsigned)__builtin_clzl(size - 1);
    return STEPS + 4 * (power - 7) + (unsigned)((size - 1 - ((size_t)1 << power)) >> (power - 2));
}

/* Whether the memory is larger by so many pages now. A refusal is -1, of 32 or 64 bits. */
static bool grow(size_t pages)
{
    if ((uint32_t)__builtin_wasm_memory_grow(0, pages) == ~(uint32_t)0)
        return false;
    end += pages << PAGE_BITS;
    return true;
}

static bool has_room(size_t size)
{
    size_t pages;
    if (top == 0) {
        top = (uint8_t *)(((uintptr_t)&__heap_base + 15) & ~(uintptr_t)15);
        end = (uint8_t *)(__builtin_wasm_memory_size(0) << PAGE_BITS);
    }
    if ((size_t)(end - top) >= size)
        return true;
    pages = (size - (size_t)(end - top) + (1 << PAGE_BITS) - 1) >> PAGE_BITS;
    return (pages < MORE_PAGES && grow(MORE_PAGES)) || grow(pages);
}

void *memory_take(size_t size)
{
    const unsigned class = size <= MOST ? class_of(size + HEAD) : CLASSES;
    block *it;
    if (class >= CLASSES)
        return 0;
    it = lists[class];
    if (it != 0) {
        lists[class] = it->next;
    } else {
        if (!has_room(size_of(class)))
            return 0;
        it = (block *)top;
        top += size_of(class);
    }
    *(size_t *)it = class;
    return (uint8_t *)it + HEAD;
}

static size_t class_at(void *at)
{
    return *(size_t *)((uint8_t *)at - HEAD);
}

void memory_give(void *at)
{
    block *it = (block *)((uint8_t *)at - HEAD);
    const size_t class = class_at(at);
    it->next = lists[class];
    lists[class] = it;
}

void *EXPORT(host_take)(size_t size)
{
    return memory_take(size);
}

/* ---- what proved code calls ---- */

typedef struct tried {
    size_t is_ok;
    void *at;
} tried;

static tried tried_with(void *at, void *otherwise)
{
    return (tried){at != 0, at != 0 ? at : otherwise};
}

tried rattle_alloc(size_t size, size_t align)
{
    return tried_with(memory_take(size != 0 ? size : align), (void *)HEAD);
}

tried rattle_realloc(void *at, size_t kept, size_t size, size_t align)
{
    void *to;
    if (size + HEAD <= size_of((unsigned)class_at(at)))
        return tried_with(at, at);
    to = memory_take(size != 0 ? size : align);
    if (to != 0) {
        memcpy(to, at, kept < size ? kept : size);
        memory_give(at);
    }
    return tried_with(to, at);
}

void rattle_dealloc(void *at)
{
    memory_give(at);
}

void *malloc(size_t size)
{
    return memory_take(size != 0 ? size : 1);
}

void free(void *at)
{
    if (at != 0)
        memory_give(at);
}
