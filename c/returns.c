/* The way of a message back to its queue, when the thread that it was handed to has died. It goes
 * in front of those of its priority: all messages of the queue are received, laid aside in the log
 * that is not in use, and sent again in their order. */
#define _GNU_SOURCE
#include "log.h"

/* A message that waits for its way back, in the log that is not in use. Its bytes follow. */
typedef struct kept_back {
    uint32_t prio;
    uint32_t len;
} kept_back;

static uint32_t send_by(unsigned process, uint32_t d, const void *bytes, size_t len, uint32_t prio)
{
    uint32_t answer;
    MADE(answer, yak_proved_start_send(&the_program.processes[process], d, bytes, len, prio));
    program_count(answer == YAK_DONE ? len : 0);
    return answer;
}

/* Receives all messages of a queue: the end of where they are, in order. */
static char *take_all(unsigned process, uint32_t d, int64_t count, char *to)
{
    for (; count > 0; --count) {
        kept_back *it = (kept_back *)(void *)to;
        yak_message message = {0};
        uint32_t answer;
        MADE(answer, yak_proved_start_receive(&the_program.processes[process], d,
                                              (uint8_t *)(it + 1), (size_t)MOST_BYTES, &message));
        if (answer != YAK_DONE)
            return 0;
        *it = (kept_back){.prio = message.prio, .len = (uint32_t)message.len};
        to += (sizeof *it + message.len + 7) & ~(size_t)7;
        the_program.aside = to;
    }
    return to;
}

/* Sends a message in front of those of its priority: all others are received before and sent again,
 * in their order. There is room for one more, and for all of them in the other log. */
static uint32_t send_in_front(unsigned process, uint32_t d, const void *bytes, size_t len,
                              uint32_t prio, int64_t count)
{
    char *const from = the_program.arena.parts[ARENA_LOG + (the_program.log ^ 1)].from,
                *const end = take_all(process, d, count, from);
    uint32_t answer = end != 0 ? YAK_DONE : YAK_NOMEMORY;
    bool is_sent = false;
    for (char *it = from; answer == YAK_DONE && (it != end || !is_sent);) {
        const kept_back *next = (const kept_back *)(void *)it;
        if (!is_sent && (it == end || next->prio <= prio)) {
            answer = send_by(process, d, bytes, len, prio);
            is_sent = true;
        } else {
            answer = send_by(process, d, next + 1, next->len, next->prio);
            it += (sizeof *next + next->len + 7) & ~(size_t)7;
        }
    }
    the_program.aside = 0;
    return answer;
}

/* Whether the messages of a queue can be received and sent again: a process that is registered
 * there would be told, though the queue was not empty. */
static bool has_registration(unsigned slot)
{
    for (uint32_t d = 0; d < DESCRIPTIONS && the_program.tables.registered != 0; ++d)
        if (the_program.tables.registrations[d].is_set &&
            the_program.tables.descriptions[d].queue == slot)
            return true;
    return false;
}

bool log_has_room(unsigned process, bool *is_in_front)
{
    const pending *it = &the_program.tables.waits[process];
    yak_attributes now = {0};
    uint32_t answer;
    READ(answer, yak_proved_getattr(&the_program.processes[process], it->d, &now));
    *is_in_front =
        !has_registration(it->queue) &&
        arena_reaches(ARENA_LOG + (the_program.log ^ 1),
                      (size_t)now.curmsgs * ((size_t)now.msgsize + 2 * sizeof(kept_back)));
    return answer == YAK_DONE && now.curmsgs < now.maxmsg;
}

uint32_t log_send_back(unsigned process, bool is_in_front)
{
    const pending *it = &the_program.tables.waits[process];
    const uint8_t *bytes = program_kept_from(process);
    yak_attributes now = {0};
    uint32_t answer = YAK_DONE;
    if (!is_in_front)
        return send_by(process, it->d, bytes, it->message.len, it->message.prio);
    READ(answer, yak_proved_getattr(&the_program.processes[process], it->d, &now));
    return answer == YAK_DONE ? send_in_front(process, it->d, bytes, it->message.len,
                                              it->message.prio, now.curmsgs)
                              : answer;
}
