/* lives.h: who lives of the processes that share the queues. All inside the lock of the program. */
#ifndef YAKYROMBE_LIVES_H
#define YAKYROMBE_LIVES_H

#include "the_program.h"

#include <linux/futex.h>

#pragma GCC visibility push(hidden)

/* When the operating system started a process; 0 if /proc does not say. */
uint64_t lives_start(pid_t pid);
/* The milliseconds by which forks are dated. */
uint64_t lives_now(void);
/* The inode of the arena, by which it is known in the maps of other processes; 0 if /proc does not
 * say. */
unsigned long lives_inode(void);

/* Whether the kernel has marked a process: the thread that held its mutex has ended, or has called
 * exec. */
static inline bool lives_is_marked(const owner *it)
{
    return (__atomic_load_n(&it->alive.__data.__lock, __ATOMIC_RELAXED) & FUTEX_OWNER_DIED) != 0;
}

/* Whether a process that has come lives, and has not called exec. */
bool lives_still(const owner *it);
/* Whether a thread of a process lives. It can be known to have ended as soon as somebody can have
 * waited for its process. */
bool lives_thread(const owner *of, pid_t thread);

/* Looks for the children that have not come yet: for each only some time after its fork, or at
 * once. Then the last function says whether the child of a place may still come. */
void lives_look_for_children(bool looks_at_once);
bool lives_to_come(const owner *it);

#pragma GCC visibility pop

#endif
