/* proved.h: the exports of the proved libraries, which wait.c, journal.c and libyakyrombe-mqueue
 * call.
 *
 * Each makes one attempt of its call and never sleeps. It returns YAK_RETRY if the process did not
 * acquire the lock. Then the acquisition is in progress, and blocks others until a call on the
 * handle acquires the lock. The proved library exports yak_open and so on; c/Makefile renames its
 * symbols to the names declared here. So yak_open is the call that waits for the lock, from C and
 * from every other language that links the archive. */
#ifndef YAKYROMBE_PROVED_H
#define YAKYROMBE_PROVED_H

/* It declares two of them, yak_proved_start_send and yak_proved_start_receive. */
#include <yakyrombe/quick.h>

#pragma GCC visibility push(hidden)

uint32_t yak_proved_open(yak_process *process, const uint8_t *name, size_t len,
                         const yak_opening *opening, uint32_t *d);
uint32_t yak_proved_close(yak_process *process, uint32_t d);
uint32_t yak_proved_unlink(yak_process *process, const uint8_t *name, size_t len);
uint32_t yak_proved_notify(yak_process *process, uint32_t d, bool registers, uint64_t value);
uint32_t yak_proved_next_notice(yak_process *process, uint64_t *value);
uint32_t yak_proved_getattr(yak_process *process, uint32_t d, yak_attributes *attributes);
uint32_t yak_proved_setattr(yak_process *process, uint32_t d, bool nonblock,
                            yak_attributes *before);
uint32_t yak_proved_exit(yak_process *process);
uint32_t yak_proved_start_timed_send(yak_process *process, uint32_t d, const uint8_t *bytes,
                                     size_t len, uint32_t prio, const yak_moment *until,
                                     const yak_moment *now);
uint32_t yak_proved_start_timed_receive(yak_process *process, uint32_t d, uint8_t *buf, size_t len,
                                        yak_message *message, const yak_moment *until,
                                        const yak_moment *now);
uint32_t yak_proved_collect(yak_process *process, uint8_t *buf, size_t len, yak_message *message);
uint32_t yak_proved_end_wait(yak_process *process, uint8_t *buf, size_t len, yak_message *message,
                             const yak_moment *now);
uint32_t yak_proved_check(yak_process *process);
uint32_t yak_proved_room(yak_process *process, yak_room_left *room);
uint32_t yak_proved_nobody_can_call(yak_process *process);
/* Empties the handle, even if its process has an open wait. */
uint32_t yak_proved_free(yak_process *process);
/* Which futex word the process sleeps on (wait.h). */
uint32_t yak_proved_futex_word(yak_process *process, uint32_t *futex_word);

/* This one is of libyakyrombe-journal.a. */
uint32_t yak_proved_entry(yak_process *process, uint64_t place, uint8_t *text, size_t size,
                          size_t *len);

#pragma GCC visibility pop

#endif
