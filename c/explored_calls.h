/* explored_calls.h: what calls on queues tell the machine of libyakyrombe-seed and
 * libyakyrombe-explore. In the other libraries it is nothing. */
#ifndef YAKYROMBE_EXPLORED_CALLS_H
#define YAKYROMBE_EXPLORED_CALLS_H

#include "explore.h"
#include "the_program.h"

#ifdef YAK_EXPLORED

#pragma GCC visibility push(hidden)

/* Before a call, outside the lock: parks in front of a call on a name, on a descriptor, or one that
 * sends or receives: false if a signal interrupts it. */
void explored_names(yak_kind kind);
void explored_call(yak_kind kind, int mqdes);
void explored_setattr(int mqdes, bool nonblock);
bool explored_transfer(bool is_send, int mqdes, size_t len, unsigned prio,
                       const struct timespec *until);
/* After it: 0 or its error, with a value that others can see. */
void explored_gave(int error, uint32_t value);
void explored_moved(bool is_send, uint32_t d, int error, const uint8_t *bytes, size_t len);
/* Inside the lock: a queue was created, and a descriptor was given. */
void explored_queue(unsigned slot, const uint8_t *name, size_t len, const yak_opening *opening);
void explored_number(unsigned number, uint32_t d);
/* Whether the machine decides who runs. */
bool explored_decides(void);
/* Whether the call has begun to wait, so that the flag of its description is not asked again. */
bool explored_has_begun(void);
/* A forked child makes a call. */
void explored_refuses(void);
/* Waits until the word changes, or the deadline, which may be null. */
void explored_await(const _Atomic uint32_t *word, uint32_t value, const struct timespec *until);
/* The program has a journal; a thread is cancelled; the program is sent a signal. */
void explored_journal(void);
void explored_cancels(pthread_t thread);
void explored_signals(void);

#pragma GCC visibility pop

#else

#define explored_names(kind) ((void)0)
#define explored_call(kind, mqdes) ((void)0)
#define explored_setattr(mqdes, nonblock) ((void)0)
#define explored_transfer(is_send, mqdes, len, prio, until) true
#define explored_gave(error, value) ((void)0)
#define explored_moved(is_send, d, error, bytes, len) ((void)0)
#define explored_queue(slot, name, len, opening) ((void)0)
#define explored_number(number, d) ((void)0)
#define explored_decides() false
#define explored_has_begun() false
#define explored_refuses() ((void)0)
#define explored_await(word, value, until) ((void)0)
#define explored_journal() ((void)0)
#define explored_cancels(thread) ((void)0)
#define explored_signals() ((void)0)

#endif

#endif
