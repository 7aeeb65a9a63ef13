/* An image of the arena: blocks of all sizes are taken, resized and given back at random; then what
 * is loaded from an image is what was there when it was saved, and the allocator goes on. It is
 * linked with c/arena.c alone. */
#define _GNU_SOURCE
#include <stdio.h>
#include <stdlib.h>
#include <string.h>

#include "arena.h"
#include "memory.h"

enum { BLOCKS = 300, ROUNDS = 8 };

typedef struct block {
    unsigned char *at;
    size_t size;
    unsigned char *copy;
} block;

static block blocks[BLOCKS];
static unsigned state = 1;

static unsigned random_below(unsigned most)
{
    state = state * 1103515245u + 12345u;
    return (state >> 8) % most;
}

static void want(bool is_so, const char *what)
{
    if (!is_so) {
        printf("not so: %s\n", what);
        exit(1);
    }
}

static size_t random_size(void)
{
    const unsigned kind = random_below(20);
    return 1 + random_below(kind < 12 ? 2000 : kind < 18 ? 300000 : 4000000);
}

static void fill(block *it)
{
    for (size_t i = 0; i < it->size; i += 1 + it->size / 5000)
        it->at[i] = (unsigned char)(state + i);
}

static void change_one(void)
{
    block *it = &blocks[random_below(BLOCKS)];
    const size_t size = random_size();
    if (it->at == 0) {
        it->at = rattle_alloc(size, 16).p;
    } else if (random_below(3) == 0) {
        rattle_dealloc(it->at);
        it->at = 0;
        return;
    } else {
        it->at = rattle_realloc(it->at, it->size < size ? it->size : size, size, 16).p;
    }
    want(it->at != 0, "there is memory");
    it->size = size;
    fill(it);
}

static void copy_all(block *to)
{
    memcpy(to, blocks, sizeof blocks);
    for (int i = 0; i < BLOCKS; ++i) {
        if (to[i].at == 0)
            continue;
        to[i].copy = malloc(to[i].size);
        want(to[i].copy != 0, "there is memory for a copy");
        memcpy(to[i].copy, to[i].at, to[i].size);
    }
}

static void one_round(void)
{
    static block saved[BLOCKS];
    size_t size;
    char *image;
    for (int i = 0; i < 2 * BLOCKS; ++i)
        change_one();
    size = arena_image_size();
    image = malloc(size);
    want(image != 0 && arena_save(image) == image + size, "an image has its size");
    copy_all(saved);
    for (int i = 0; i < BLOCKS; ++i)
        change_one();
    want(arena_load(image) == image + size, "all of an image is loaded");
    want(arena_image_size() == size, "an image of the same has the same size");
    memcpy(blocks, saved, sizeof blocks);
    for (int i = 0; i < BLOCKS; ++i)
        if (saved[i].at != 0) {
            want(memcmp(saved[i].at, saved[i].copy, saved[i].size) == 0, "a block is as it was");
            free(saved[i].copy);
        }
    free(image);
}

int main(void)
{
    want(arena_map(sizeof(arena), 0, false) != 0, "there is an arena");
    for (int round = 0; round < ROUNDS; ++round) {
        one_round();
        if (round % 4 == 3) {
            arena_clear();
            memset(blocks, 0, sizeof blocks);
        }
    }
    puts("well");
    return 0;
}
