/* quick.h: the first attempt of yak_send and yak_receive, for yakyrombe.h, which declares the two.
 *
 * It is inline to save a function call: a send or a receive that finds the lock free, and that no
 * process waits for, returns at once. The rest of other calls, and all waiting, is in
 * libyakyrombe.a, which also has both functions in full. */
#ifndef YAKYROMBE_QUICK_H
#define YAKYROMBE_QUICK_H

#include "../yakyrombe.h"

#ifdef __cplusplus
extern "C" {
#endif

/* One attempt of the call, which does not wait: YAK_RETRY if its process did not acquire the lock;
 * then the rest of the call has to follow. */
uint32_t yak_proved_start_send(yak_process *process, uint32_t d, const uint8_t *bytes, size_t len,
                               uint32_t prio);
uint32_t yak_proved_start_receive(yak_process *process, uint32_t d, uint8_t *buf, size_t len,
                                  yak_message *message);

/* The rest of the call, after a first attempt that returned this answer. */
uint32_t yak_send_on_(yak_process *process, uint32_t d, const uint8_t *bytes, size_t len,
                      uint32_t prio, uint32_t answer);
uint32_t yak_receive_on_(yak_process *process, uint32_t d, uint8_t *buf, size_t len,
                         yak_message *message, uint32_t answer);

/* Inlined in each file that calls it, without an out-of-line copy. */
#define YAK_INLINE_ extern inline __attribute__((gnu_inline, always_inline))

/* The index of the word that says who starves; 0 there if nobody does. */
enum { YAK_STARVING_ = 104 };

/* Whether a call acquired the lock and is done, no thread can be asleep until the change that it
 * made, and nobody starves. A futex word is 0 or 1. */
YAK_INLINE_ bool yak_is_through_(const yak_process *process, uint32_t answer)
{
    const uint64_t *futex_words = process->futex_words;
    return __builtin_expect(
        answer == YAK_DONE &&
            ((uint32_t)(__atomic_load_n(&futex_words[0], __ATOMIC_SEQ_CST) |
                        __atomic_load_n(&futex_words[process->number], __ATOMIC_SEQ_CST) |
                        __atomic_load_n(&futex_words[YAK_STARVING_], __ATOMIC_RELAXED)) |
             process->answered) == 0,
        1);
}

YAK_INLINE_ uint32_t yak_quick_send_(yak_process *process, uint32_t d, const uint8_t *bytes,
                                     size_t len, uint32_t prio)
{
    const uint32_t answer = yak_proved_start_send(process, d, bytes, len, prio);
    return yak_is_through_(process, answer) ? (uint32_t)YAK_DONE
                                            : yak_send_on_(process, d, bytes, len, prio, answer);
}

YAK_INLINE_ uint32_t yak_quick_receive_(yak_process *process, uint32_t d, uint8_t *buf, size_t len,
                                        yak_message *message)
{
    const uint32_t answer = yak_proved_start_receive(process, d, buf, len, message);
    return yak_is_through_(process, answer)
               ? (uint32_t)YAK_DONE
               : yak_receive_on_(process, d, buf, len, message, answer);
}

/* The library has functions with these names too, which the compiler uses if it does not inline. */
#ifndef YAK_DEFINES_CALLS_
extern inline __attribute__((gnu_inline)) uint32_t
yak_send(yak_process *process, uint32_t d, const uint8_t *bytes, size_t len, uint32_t prio)
{
    return yak_quick_send_(process, d, bytes, len, prio);
}

extern inline __attribute__((gnu_inline)) uint32_t
yak_receive(yak_process *process, uint32_t d, uint8_t *buf, size_t len, yak_message *message)
{
    return yak_quick_receive_(process, d, buf, len, message);
}
#endif

#ifdef __cplusplus
}
#endif

#endif
