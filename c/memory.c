/* The allocator of the proved library, which calls these three functions. A program that defines
 * its own links no part of this file. */
#include "memory.h"

#include <stdlib.h>

/* The library requests an alignment of at most 16. */
_Static_assert(_Alignof(max_align_t) >= 16, "malloc aligns by 16");

rattle_tried rattle_alloc(size_t size, size_t align)
{
    return rattle_tried_with(malloc(size != 0 ? size : align));
}

rattle_tried rattle_realloc(void *p, size_t kept, size_t size, size_t align)
{
    (void)kept;
    return rattle_tried_with(realloc(p, size != 0 ? size : align));
}

void rattle_dealloc(void *p)
{
    free(p);
}
