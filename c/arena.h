/* arena.h: the memory that a program shares with its forked children, at one address in all of
 * them.
 *
 * It is one mapping, made before main: MAP_SHARED | MAP_ANONYMOUS | MAP_NORESERVE. It starts with
 * the tables of the program (the_program.h). These parts follow. Each is accessible only as far as
 * it is used, because mlockall allocates pages for all memory that can be read:
 *   - two parts for the allocations of the proved library: one for small blocks, one for large
 * ones;
 *   - two logs (log.h), one of which is in use;
 *   - the bytes of a message for each open wait of the library.
 * When a process acquires the lock of the program, it opens for itself what others have opened. */
#ifndef YAKYROMBE_ARENA_H
#define YAKYROMBE_ARENA_H

#include <stdbool.h>
#include <stddef.h>
#include <stdint.h>

enum {
    ARENA_SMALL = 0,
    ARENA_LARGE = 1,
    ARENA_LOG = 2, /* and 3 */
    ARENA_KEPT = 4,
    ARENA_PARTS = 5,
    ARENA_CLASSES = 96
};

typedef struct arena_part {
    char *from;
    size_t room; /* how far it can be opened */
    size_t open; /* how far it is open */
} arena_part;

/* The blocks of the allocator, in both parts. */
typedef struct arena_blocks {
    char *next[2];             /* the end of all blocks ever taken, by part */
    void *free[ARENA_CLASSES]; /* freed blocks, by class */
} arena_blocks;

typedef struct arena {
    size_t size;       /* of the mapping */
    unsigned openings; /* how often something was opened; each process has to follow */
    arena_part parts[ARENA_PARTS];
    arena_blocks blocks;
} arena;

#pragma GCC visibility push(hidden)

/* Maps an arena with `tables` bytes of tables, which contain the struct arena at this offset.
 * Returns its address, or null. A private arena is not shared: a fork copies it. */
char *arena_map(size_t tables, size_t place, bool is_private);
/* The arena that is in use; null before there is one. */
extern arena *arena_here;
/* Unmaps it. */
void arena_unmap(char *at);
/* Maps the same memory again, for a child that will return to it: null if that fails. */
char *arena_again(char *at);
/* Moves that mapping to the address of the arena, with `tables` bytes of tables. */
bool arena_return(char *at, char *again, size_t tables);

/* Opens in this process what others have opened. */
void arena_follow(void);
/* Opens a part up to `wanted` bytes; false if that fails. */
bool arena_open(unsigned part, size_t wanted);
static inline bool arena_reaches(unsigned part, size_t wanted)
{
    return wanted <= arena_here->parts[part].open || arena_open(part, wanted);
}

/* Touches pages, so that they are present, and changes nothing. */
void arena_touch(void *from, size_t size);
/* The same for the next 128 KiB of small blocks, as far as they are open. */
void arena_touch_blocks(void);
/* Gives back the pages of a part up to an address, but for so many bytes at its begin. */
void arena_drop(unsigned part, size_t kept, const char *to);

/* All blocks are lost. */
void arena_clear(void);
/* A copy of all blocks: its size; how it is made, up to the address that is returned; and how the
 * blocks become again what they were. A handler that interrupts the allocator may make one. */
size_t arena_image_size(void);
char *arena_save(char *to);
const char *arena_load(const char *from);

#pragma GCC visibility pop

#endif
