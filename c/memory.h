/* memory.h: the functions by which the proved library allocates and frees memory. */
#ifndef YAKYROMBE_MEMORY_H
#define YAKYROMBE_MEMORY_H

#include <stdbool.h>
#include <stddef.h>

/* The allocated block, if `ok`; the pointer is aligned even if the allocation failed. */
typedef struct rattle_tried {
    bool ok;
    void *p;
} rattle_tried;

rattle_tried rattle_alloc(size_t size, size_t align);
rattle_tried rattle_realloc(void *p, size_t kept, size_t size, size_t align);
void rattle_dealloc(void *p);

/* The result for this block, or for a failed allocation if it is null. */
static inline rattle_tried rattle_tried_with(void *p)
{
    static _Alignas(16) char nothing[16];
    const rattle_tried tried = {.ok = p != 0, .p = p != 0 ? p : nothing};
    return tried;
}

#endif
