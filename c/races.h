/* races.h: which accesses to memory nothing orders. Private to libyakyrombe-explore. Its functions
 * are weak, since the machine is in other libraries too.
 *
 * A thread has a clock, which counts its steps, and knows of each other thread the steps that come
 * before its own. A step learns what all earlier steps on its object knew. */
#ifndef YAKYROMBE_RACES_H
#define YAKYROMBE_RACES_H

#include "explore.h"

#include <stddef.h>

enum { RACES_GRANULE = 8 };

/* An access to bytes of one granule, which are the bits of the mask. */
typedef struct races_access {
    uintptr_t granule;
    uint8_t mask;
    bool is_write, is_atomic;
    const void *code;
} races_access;

/* An access of another thread that conflicts. */
typedef struct races_other {
    unsigned thread;
    bool is_write;
    const void *code;
} races_other;

#pragma GCC visibility push(hidden)
#pragma weak races_step
#pragma weak races_create
#pragma weak races_join
#pragma weak races_forget

/* A thread makes a step on an object, creates a thread, and learns that one has ended. Threads have
 * their numbers from 1. */
void races_step(unsigned thread, uint32_t object);
void races_create(unsigned thread, unsigned created);
void races_join(unsigned thread, unsigned ended);
/* Whether another thread has made an access that conflicts with this one, and that nothing orders
 * before it. Keeps this one, unless it is atomic. */
bool races_find(unsigned thread, const races_access *it, races_other *other);
/* Which of these halves of a granule are new in this step, as read or as written, which is kept. A
 * half that was written is not new as read. */
unsigned races_new_halves(uintptr_t granule, bool is_write, unsigned halves, unsigned step);
/* Memory that is given back, or begins to be used anew. */
void races_forget(uintptr_t from, size_t size);

#pragma GCC visibility pop

#endif
