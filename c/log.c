/* The calls that change the state, their log, and how the system is rebuilt from it. */
#define _GNU_SOURCE
#include "log.h"
#include "explored_calls.h"

#include <string.h>

static yak_process *at(unsigned process)
{
    return &the_program.processes[process];
}

/* ---- records ---- */

/* Writes a record into a log without committing it. Returns the address of the next one, or null if
 * the log has no room. */
static char *write_record(unsigned log, char *to, record it, const void *own, size_t own_size,
                          const void *bytes)
{
    const size_t size = bytes != 0 ? it.len : 0,
                 whole = (sizeof it + own_size + size + 7) & ~(size_t)7;
    const char *from = the_program.arena.parts[ARENA_LOG + log].from;
    if (!arena_reaches(ARENA_LOG + log, (size_t)(to - from) + whole))
        return 0;
    it.size = (uint32_t)whole;
    memcpy(to, &it, sizeof it);
    if (own_size != 0)
        memcpy(to + sizeof it, own, own_size);
    if (size != 0)
        memcpy(to + sizeof it + own_size, bytes, size);
    return to + whole;
}

/* Commits the call whose record ends here. */
static inline void commit(unsigned log, char *next)
{
    __atomic_store_n(&the_program.log_next[log], next, __ATOMIC_RELEASE);
    if (__builtin_expect((size_t)(next - the_program.arena.parts[ARENA_LOG + log].from) >
                             the_program.log_limit,
                         false) &&
        !the_program.is_stored) {
        the_program.log_limit = SIZE_MAX;
        ++the_program.arena.openings; /* so that the next call makes a checkpoint */
    }
}

/* The log has no room: logging ends, and begins again if the next call can make a checkpoint. Until
 * then the system can't recover from a death inside the lock. */
static __attribute__((noinline)) void end_log(void)
{
    the_program.is_logged = false;
    ++the_program.arena.openings;
}

/* Appends and commits the record of a call. */
static __attribute__((noinline)) void append(record it, const void *own, size_t own_size,
                                             const void *bytes)
{
    const unsigned log = the_program.log;
    char *next = write_record(log, the_program.log_next[log], it, own, own_size, bytes);
    if (next != 0)
        commit(log, next);
    else
        end_log();
}

/* The same if calls are logged. */
static inline void note(record it, const void *own, size_t own_size, const void *bytes)
{
    if (__builtin_expect(the_program.is_logged, false))
        append(it, own, own_size, bytes);
}

void log_message(bool is_send, uint32_t d, const uint8_t *bytes, size_t len, uint32_t prio)
{
    const unsigned log = the_program.log;
    const arena_part *part = &the_program.arena.parts[ARENA_LOG + log];
    char *const at = the_program.log_next[log];
    const size_t whole = (sizeof(record) + (is_send ? len : 0) + 7) & ~(size_t)7;
    record *const it = (record *)(void *)at;
    if (__builtin_expect(!arena_reaches(ARENA_LOG + log, (size_t)(at - part->from) + whole),
                         false)) {
        end_log();
        return;
    }
    it->size = (uint32_t)whole;
    it->what = is_send ? DID_SEND : DID_RECEIVE;
    it->process = (uint8_t)program_dispatcher_of(d);
    it->d = (uint8_t)program_there(d);
    it->is_on = false;
    it->prio = prio;
    it->len = (uint32_t)len;
    if (is_send)
        memcpy(it + 1, bytes, len);
    commit(log, at + whole);
}

/* ---- what a call does to the tables ---- */

bool log_is_named(const queue *it, const uint8_t *name, size_t len)
{
    return it->is_there && it->is_bound && it->len == len && memcmp(it->name, name, len) == 0;
}

unsigned log_queue(const uint8_t *name, size_t len)
{
    const queue *all = the_program.tables.queues;
    unsigned room = 0;
    for (unsigned i = 0; i < QUEUES; ++i) {
        if (log_is_named(&all[i], name, len))
            return i;
        if (!all[i].is_there && all[room].is_there)
            room = i;
    }
    return room;
}

/* An unlinked queue exists as long as a process has it open. */
static void settle(unsigned slot)
{
    const tables *all = &the_program.tables;
    bool is_held = all->queues[slot].is_bound;
    for (uint32_t d = 0; d < DESCRIPTIONS && !is_held; ++d)
        is_held = all->descriptions[d].made != 0 && all->descriptions[d].queue == slot;
    the_program.tables.queues[slot].is_there = is_held || all->holders[slot] != 0;
}

static void apply_open(unsigned process, uint32_t d, const opened *it, const uint8_t *name,
                       size_t len)
{
    queue *of = &the_program.tables.queues[it->queue];
    description *to;
    if (!of->is_there) {
        of->is_there = of->is_bound = true;
        of->maxmsg = it->maxmsg;
        of->msgsize = it->msgsize;
        of->len = len;
        memcpy(of->name, name, len);
    }
    if (it->whose == FOR_REPLICA) {
        the_program.tables.replicas[process][d] = (uint8_t)(it->queue + 1);
        the_program.tables.holders[it->queue] |= 1u << process;
    }
    if (it->whose == FOR_REPLICA)
        return;
    to = &the_program.tables.descriptions[program_description(process, d)];
    to->made = it->made;
    to->queue = it->queue;
    to->access = (uint8_t)it->opening.access;
    to->msgsize = of->msgsize;
    the_program.tables.waiters &= ~(1u << process);
    the_program.tables.idle &= ~(1u << process);
}

/* A dispatcher whose last description is closed becomes a waiter again. */
static void apply_close(unsigned process, uint32_t d)
{
    tables *all = &the_program.tables;
    uint32_t index = program_description(process, d);
    unsigned slot;
    if (program_is_waiter(process)) {
        if ((slot = all->replicas[process][d]) == 0)
            return;
        all->replicas[process][d] = 0;
        all->holders[slot - 1] &= ~(1u << process);
        settle(slot - 1);
        return;
    }
    if (index >= DESCRIPTIONS || all->descriptions[index].made == 0)
        return;
    all->descriptions[index].made = 0;
    all->registered -= all->registrations[index].is_set;
    all->registrations[index].is_set = false;
    settle(all->descriptions[index].queue);
    if (process == DISPATCHER)
        return;
    for (index = program_description(process, 0); index % PER_DISPATCHER != PER_DISPATCHER - 1;
         ++index)
        if (all->descriptions[index].made != 0)
            return;
    if (all->descriptions[index].made == 0) {
        all->waiters |= 1u << process;
        all->idle |= 1u << process;
    }
}

static void apply_unlink(const uint8_t *name, size_t len)
{
    const unsigned slot = log_queue(name, len);
    queue *it = &the_program.tables.queues[slot];
    if (!log_is_named(it, name, len))
        return;
    it->is_bound = false;
    settle(slot);
}

static void apply_registration(uint32_t d, const registration *with)
{
    tables *all = &the_program.tables;
    all->registered -= all->registrations[d].is_set;
    all->registrations[d].is_set = false;
    if (with == 0)
        return;
    all->registrations[d] = *with;
    ++all->registered;
}

static void apply_end(unsigned process)
{
    tables *all = &the_program.tables;
    all->waits[process].is_open = false;
    all->waits[process].has_ended = false;
    all->waits_on[all->waits[process].queue] &= ~(1u << process);
    all->idle |= 1u << process;
    all->alone &= ~(1u << process);
    all->ended &= ~(1u << process);
}

YAK_HOT static void apply_start(unsigned process, const pending *it)
{
    tables *all = &the_program.tables;
    all->waits[process] = *it;
    if (!it->is_open)
        return;
    all->idle &= ~(1u << process);
    all->waits_on[it->queue] |= 1u << process;
}

static void apply_alone(unsigned process, const pending *it)
{
    apply_start(process, it);
    the_program.tables.alone |= 1u << process;
}

/* A wait has ended before its thread knows, with this message if it is a receive. */
static void apply_keep(unsigned process, const yak_message *message)
{
    pending *it = &the_program.tables.waits[process];
    it->has_ended = true;
    it->message = *message;
    the_program.tables.waits_on[it->queue] &= ~(1u << process);
    the_program.tables.alone &= ~(1u << process);
    the_program.tables.ended |= 1u << process;
}

/* The library has begun a receive that waited alone. */
static void apply_enter(unsigned process, uint32_t answer, const yak_message *message)
{
    the_program.tables.alone &= ~(1u << process);
    if (answer == YAK_DONE)
        apply_keep(process, message);
}

/* ---- the calls ---- */

uint32_t did_open(unsigned process, opened *it, const uint8_t *name, size_t len, uint32_t *d)
{
    record head = {.what = DID_OPEN, .process = (uint8_t)process, .len = (uint32_t)len};
    yak_attributes now = {0};
    uint32_t answer, answer_of_read;
    MADE(answer, yak_proved_open(at(process), name, len, &it->opening, d));
    program_count(len + (it->opening.limited ? MORE_BYTES : 0));
    if (answer != YAK_DONE)
        return answer;
    it->queue = (uint8_t)log_queue(name, len);
    if (!the_program.tables.queues[it->queue].is_there) {
        /* A stored journal has no entry for this, and its log is never shortened. */
        if (!the_program.is_stored)
            READ(answer_of_read, yak_proved_getattr(at(process), *d, &now));
        else
            answer_of_read = YAK_DONE;
        (void)answer_of_read;
        it->maxmsg = now.maxmsg;
        it->msgsize = now.msgsize;
        the_program.lens[it->queue] = len;
        memcpy(the_program.names[it->queue], name, len);
        explored_queue(it->queue, name, len, &it->opening);
    }
    head.d = (uint8_t)*d;
    note(head, it, sizeof *it, name);
    apply_open(process, *d, it, name, len);
    return answer;
}

uint32_t did_close(unsigned process, uint32_t d)
{
    const record head = {.what = DID_CLOSE, .process = (uint8_t)process, .d = (uint8_t)d};
    uint32_t answer;
    MADE(answer, yak_proved_close(at(process), d));
    if (answer == YAK_DONE) {
        note(head, 0, 0, 0);
        apply_close(process, d);
    }
    return answer;
}

uint32_t did_unlink(unsigned process, const uint8_t *name, size_t len)
{
    const record head = {.what = DID_UNLINK, .process = (uint8_t)process, .len = (uint32_t)len};
    uint32_t answer;
    MADE(answer, yak_proved_unlink(at(process), name, len));
    program_count(len);
    if (answer == YAK_DONE) {
        note(head, 0, 0, name);
        apply_unlink(name, len);
    }
    return answer;
}

uint32_t did_notify(unsigned process, uint32_t d, bool registers, uint64_t value,
                    const registration *with)
{
    static const registration none;
    const record head = {.what = DID_NOTIFY,
                         .process = (uint8_t)process,
                         .d = (uint8_t)d,
                         .is_on = registers,
                         .len = (uint32_t)value};
    uint32_t answer;
    MADE(answer, yak_proved_notify(at(process), d, registers, value));
    program_count(registers ? MORE_BYTES : 0);
    if (answer == YAK_DONE) {
        note(head, registers ? with : &none, sizeof none, 0);
        apply_registration(program_description(process, d), registers ? with : 0);
    }
    return answer;
}

uint32_t did_next_notice(unsigned process, uint64_t *value)
{
    uint32_t answer;
    MADE(answer, yak_proved_next_notice(at(process), value));
    return answer;
}

void log_take_notice(unsigned process, uint32_t d)
{
    const record head = {
        .what = DID_NEXT_NOTICE, .process = (uint8_t)process, .d = (uint8_t)program_there(d)};
    note(head, 0, 0, 0);
    apply_registration(d, 0);
}

static uint32_t start(unsigned process, const pending *it, uint8_t *bytes, size_t len,
                      yak_message *message)
{
    uint32_t answer;
    if (it->is_send)
        MADE(answer, yak_proved_start_timed_send(at(process), it->d, bytes, len, it->prio,
                                                 &it->until, &it->now));
    else
        MADE(answer, yak_proved_start_timed_receive(at(process), it->d, bytes, len, message,
                                                    &it->until, &it->now));
    return answer;
}

uint32_t did_start(unsigned process, pending *it, const request *asked, yak_message *message)
{
    const record head = {
        .what = DID_START,
        .process = (uint8_t)process,
        .d = (uint8_t)it->d,
        .len = (uint32_t)asked->len,
    };
    uint32_t answer;
    if (it->is_send)
        the_program.is_empty[it->queue] = false;
    answer = start(process, it, asked->bytes, asked->len, message);
    if (answer != YAK_DONE && answer != YAK_WAITS)
        return answer;
    it->is_open = answer == YAK_WAITS;
    program_count(MORE_BYTES + (it->is_send ? asked->len : 0));
    note(head, it, sizeof *it, it->is_send ? asked->bytes : 0);
    apply_start(process, it);
    return answer;
}

/* ---- receives that wait alone ---- */

static bool is_alone(unsigned process)
{
    return (the_program.tables.alone & 1u << process) != 0;
}

/* The waiter with the receive that waits alone on a queue; DISPATCHER if there is none. */
static unsigned lone_waiter(unsigned slot)
{
    const uint32_t lone = the_program.tables.alone & the_program.tables.waits_on[slot];
    return lone != 0 ? (unsigned)__builtin_ctz(lone) : (unsigned)DISPATCHER;
}

static bool is_in_state(unsigned process, unsigned state)
{
    return atomic_load(&the_program.hands[process].state) ==
           program_hand_state(the_program.tables.waits[process].order, state);
}

/* The thread of a wait that has ended may take the message from now on. */
static void show_hand(unsigned process)
{
    const pending *it = &the_program.tables.waits[process];
    hand *to = &the_program.hands[process];
    to->message = it->message;
    atomic_store_explicit(&to->state, program_hand_state(it->order, HAND_FULL),
                          memory_order_release);
}

YAK_HOT uint32_t did_wait_alone(unsigned process, pending *it)
{
    const record head = {.what = DID_ALONE, .process = (uint8_t)process};
    if (program_kept(process) == 0)
        return YAK_NOMEMORY;
    it->is_open = true;
    atomic_store_explicit(&the_program.hands[process].state,
                          program_hand_state(it->order, HAND_EMPTY), memory_order_relaxed);
    note(head, it, sizeof *it, 0);
    apply_alone(process, it);
    return YAK_WAITS;
}

/* Begins in the library what waits alone: YAK_WAITS, YAK_DONE if a message is there, or an error.
 */
static uint32_t enter(unsigned process)
{
    const record head = {.what = DID_ENTER, .process = (uint8_t)process};
    const pending *it = &the_program.tables.waits[process];
    yak_message message = {0};
    const uint32_t answer = start(process, it, program_kept(process), it->len, &message);
    if (answer == YAK_DONE || answer == YAK_WAITS) {
        note(head, 0, 0, 0);
        apply_enter(process, answer, &message);
    }
    return answer;
}

YAK_HOT uint32_t did_enter(unsigned slot)
{
    const unsigned process = lone_waiter(slot);
    const uint32_t answer = process != DISPATCHER ? enter(process) : (uint32_t)YAK_WAITS;
    return answer == YAK_WAITS ? (uint32_t)YAK_DONE : answer;
}

YAK_HOT unsigned did_hand(uint32_t d, const uint8_t *bytes, size_t len, uint32_t prio)
{
    const unsigned waiter = lone_waiter(the_program.tables.descriptions[d].queue);
    const pending *it = &the_program.tables.waits[waiter];
    const record head = {
        .what = DID_HAND,
        .process = (uint8_t)program_dispatcher_of(d),
        .d = (uint8_t)program_there(d),
        .prio = prio,
        .len = (uint32_t)len,
    };
    yak_message message = {0};
    uint32_t answer;
    if (waiter == DISPATCHER)
        return DISPATCHER;
    MADE(answer,
         yak_proved_start_receive(at(waiter), it->d, program_kept(waiter), it->len, &message));
    if (answer == YAK_DONE) {
        note(head, &waiter, sizeof waiter, bytes);
        apply_keep(waiter, &message);
        show_hand(waiter);
    } else {
        /* The message stays in the queue, where the receiver finds it when it wakes. */
        the_program.is_empty[it->queue] = false;
        if (the_program.is_logged)
            log_message(true, d, bytes, len, prio);
    }
    atomic_fetch_add(&the_program.news[waiter], 1);
    return waiter;
}

YAK_HOT bool did_take(unsigned process)
{
    const record head = {.what = DID_COLLECT, .process = (uint8_t)process};
    if (!is_in_state(process, HAND_TAKEN))
        return false;
    note(head, 0, 0, 0);
    apply_end(process);
    return true;
}

/* What its thread finds when it wakes for another reason: a message is there only if an allocation
 * failed in did_hand. If one fails here too, the wait ends with that. */
static uint32_t look_alone(unsigned process)
{
    const record head = {.what = DID_END, .process = (uint8_t)process};
    yak_attributes now = {0};
    uint32_t answer;
    READ(answer, yak_proved_getattr(at(process), the_program.tables.waits[process].d, &now));
    if (answer != YAK_DONE || now.curmsgs == 0)
        return YAK_WAITS;
    answer = enter(process);
    if (answer != YAK_DONE && answer != YAK_WAITS) {
        note(head, &program_never, sizeof program_never, 0);
        apply_end(process);
    }
    return answer;
}

/* Withdraws it at this time, as the library would. */
static uint32_t end_alone(unsigned process, const yak_moment *now)
{
    const record head = {.what = DID_END, .process = (uint8_t)process};
    if (program_is_before(now, &the_program.tables.waits[process].until))
        return YAK_EARLY;
    note(head, now, sizeof *now, 0);
    apply_end(process);
    return YAK_TIMEDOUT;
}

/* ---- the end of a wait ---- */

/* Takes the kept result of a wait that has already ended. */
static uint32_t take_kept(unsigned process, uint8_t *buf, size_t len, yak_message *message)
{
    const pending *it = &the_program.tables.waits[process];
    const record head = {.what = DID_COLLECT, .process = (uint8_t)process};
    if (!it->is_send) {
        if (len < it->message.len)
            return YAK_SHORT;
        memcpy(buf, program_kept(process), it->message.len);
        *message = it->message;
    }
    atomic_store(&the_program.hands[process].state, 0);
    note(head, 0, 0, 0);
    apply_end(process);
    return YAK_DONE;
}

uint32_t did_collect(unsigned process, uint8_t *buf, size_t len, yak_message *message)
{
    const record head = {.what = DID_COLLECT, .process = (uint8_t)process};
    uint32_t answer = YAK_DONE;
    if (is_alone(process))
        answer = look_alone(process);
    if (answer == YAK_DONE && the_program.tables.waits[process].has_ended)
        return take_kept(process, buf, len, message);
    if (answer != YAK_DONE)
        return answer;
    MADE(answer, yak_proved_collect(at(process), buf, len, message));
    if (answer == YAK_DONE) {
        note(head, 0, 0, 0);
        apply_end(process);
    }
    return answer;
}

uint32_t did_end(unsigned process, uint8_t *buf, size_t len, yak_message *message,
                 const yak_moment *now)
{
    const record head = {.what = DID_END, .process = (uint8_t)process};
    uint32_t answer;
    if (the_program.tables.waits[process].has_ended)
        return take_kept(process, buf, len, message);
    if (is_alone(process))
        return end_alone(process, now);
    MADE(answer, yak_proved_end_wait(at(process), buf, len, message, now));
    program_count(answer == YAK_TIMEDOUT ? MORE_BYTES : 0);
    if (answer == YAK_DONE || answer == YAK_TIMEDOUT) {
        note(head, now, sizeof *now, 0);
        apply_end(process);
    }
    return answer;
}

/* ---- messages that go back ---- */

static uint8_t room[MOST_BYTES];

/* Keeps the message of a wait that the library has answered: false if memory is refused. */
static bool keep(unsigned process, uint8_t *kept)
{
    yak_message message = {0};
    uint32_t answer = YAK_NOMEMORY;
    if (kept != 0)
        MADE(answer, yak_proved_collect(at(process), kept, (size_t)MOST_BYTES, &message));
    if (answer == YAK_DONE)
        apply_keep(process, &message);
    return answer == YAK_DONE;
}

/* Sends the message that a waiter keeps back to its queue, and ends its wait. */
static uint32_t go_back(unsigned process, bool is_in_front)
{
    const pending *it = &the_program.tables.waits[process];
    const uint32_t answer = log_send_back(process, is_in_front);
    the_program.is_empty[it->queue] = false;
    apply_end(process);
    return answer;
}

bool did_return(unsigned process, bool *is_returned)
{
    const pending *it = &the_program.tables.waits[process];
    record head = {.what = DID_KEEP, .process = (uint8_t)process};
    yak_message message;
    uint32_t answer;
    if (!it->has_ended && !is_alone(process) && !it->is_send &&
        yak_answered(at(process)) == YAK_DONE) {
        if (!keep(process, program_kept(process)))
            return false;
        note(head, 0, 0, 0);
    }
    if (!it->has_ended || is_in_state(process, HAND_TAKEN)) {
        answer = did_end(process, room, it->is_send ? 0 : sizeof room, &message, &program_never);
        return answer == YAK_DONE || answer == YAK_TIMEDOUT;
    }
    /* One that waits alone for a message is to find it. */
    if (!log_has_room(process, &head.is_on) || did_enter(it->queue) != YAK_DONE)
        return false;
    atomic_store(&the_program.hands[process].state, 0);
    if (go_back(process, head.is_on) != YAK_DONE) {
        log_replay();
        return false;
    }
    head.what = DID_RETURN;
    note(head, 0, 0, 0);
    *is_returned = true;
    return true;
}

/* ---- rebuilding the system ---- */

uint8_t *log_kept_again(unsigned process)
{
    return atomic_load(&the_program.hands[process].state) % HAND_STATES == HAND_FULL
               ? room
               : program_kept(process);
}

static uint32_t open_again(const record *it, const uint8_t *own)
{
    const uint8_t *name = own + sizeof(opened);
    opened with;
    uint32_t answer, d = 0;
    memcpy(&with, own, sizeof with);
    MADE(answer, yak_proved_open(at(it->process), name, it->len, &with.opening, &d));
    if (answer == YAK_DONE && d != it->d)
        return YAK_INVAL;
    apply_open(it->process, d, &with, name, it->len);
    return answer;
}

static uint32_t notify_again(const record *it, const uint8_t *own)
{
    registration with;
    uint32_t answer;
    memcpy(&with, own, sizeof with);
    MADE(answer, yak_proved_notify(at(it->process), it->d, it->is_on, it->len));
    apply_registration(program_description(it->process, it->d), it->is_on ? &with : 0);
    return answer;
}

static uint32_t start_again(const record *it, const uint8_t *own)
{
    pending with;
    yak_message message;
    uint32_t answer;
    memcpy(&with, own, sizeof with);
    if (with.is_send)
        memcpy(room, own + sizeof with, it->len);
    answer = start(it->process, &with, room, it->len < MOST_BYTES ? it->len : (size_t)MOST_BYTES,
                   &message);
    apply_start(it->process, &with);
    return answer == YAK_WAITS ? (uint32_t)YAK_DONE : answer;
}

static uint32_t end_again(const record *it, const uint8_t *own)
{
    yak_message message;
    yak_moment now;
    uint32_t answer = YAK_DONE;
    if (!the_program.tables.waits[it->process].has_ended && !is_alone(it->process)) {
        if (it->what == DID_COLLECT) {
            MADE(answer, yak_proved_collect(at(it->process), room, sizeof room, &message));
        } else {
            memcpy(&now, own, sizeof now);
            MADE(answer, yak_proved_end_wait(at(it->process), room, sizeof room, &message, &now));
        }
    }
    apply_end(it->process);
    return answer == YAK_TIMEDOUT ? (uint32_t)YAK_DONE : answer;
}

static uint32_t wait_alone_again(const record *it, const uint8_t *own)
{
    pending with;
    memcpy(&with, own, sizeof with);
    apply_alone(it->process, &with);
    return YAK_DONE;
}

static uint32_t enter_again(const record *it)
{
    const pending *of = &the_program.tables.waits[it->process];
    yak_message message = {0};
    const uint32_t answer = start(it->process, of, log_kept_again(it->process), of->len, &message);
    apply_enter(it->process, answer, &message);
    return answer == YAK_WAITS ? (uint32_t)YAK_DONE : answer;
}

static uint32_t hand_again(const record *it, const uint8_t *own)
{
    yak_message message = {0};
    unsigned waiter;
    const pending *of;
    uint32_t answer;
    memcpy(&waiter, own, sizeof waiter);
    of = &the_program.tables.waits[waiter];
    MADE(answer,
         yak_proved_start_send(at(it->process), it->d, own + sizeof waiter, it->len, it->prio));
    if (answer == YAK_DONE)
        MADE(answer, yak_proved_start_receive(at(waiter), of->d, log_kept_again(waiter), of->len,
                                              &message));
    apply_keep(waiter, &message);
    return answer;
}

/* Makes the call of a record again: YAK_DONE, unless an allocation fails. */
static uint32_t do_again(const record *it)
{
    const uint8_t *own = (const uint8_t *)(it + 1);
    yak_message message;
    uint64_t value;
    uint32_t answer;
    switch (it->what) {
    case DID_OPEN:
        return open_again(it, own);
    case DID_CLOSE:
        MADE(answer, yak_proved_close(at(it->process), it->d));
        apply_close(it->process, it->d);
        return answer;
    case DID_UNLINK:
        MADE(answer, yak_proved_unlink(at(it->process), own, it->len));
        apply_unlink(own, it->len);
        return answer;
    case DID_NOTIFY:
        return notify_again(it, own);
    case DID_NEXT_NOTICE:
        MADE(answer, yak_proved_next_notice(at(it->process), &value));
        apply_registration(program_description(it->process, it->d), 0);
        return answer;
    case DID_SEND:
        MADE(answer, yak_proved_start_send(at(it->process), it->d, own, it->len, it->prio));
        return answer;
    case DID_RECEIVE:
        MADE(answer, yak_proved_start_receive(at(it->process), it->d, room,
                                              it->len < MOST_BYTES ? it->len : (size_t)MOST_BYTES,
                                              &message));
        return answer;
    case DID_START:
        return start_again(it, own);
    case DID_ALONE:
        return wait_alone_again(it, own);
    case DID_ENTER:
        return enter_again(it);
    case DID_HAND:
        return hand_again(it, own);
    case DID_KEEP:
        return keep(it->process, log_kept_again(it->process)) ? YAK_DONE : YAK_NOMEMORY;
    case DID_RETURN:
        return go_back(it->process, it->is_on);
    default:
        return end_again(it, own);
    }
}

/* A process may have died between a record and the hand that it fills. */
static void show_hands(void)
{
    for (uint32_t left = the_program.tables.ended; left != 0; left &= left - 1)
        if (is_in_state((unsigned)__builtin_ctz(left), HAND_EMPTY))
            show_hand((unsigned)__builtin_ctz(left));
}

bool log_replay(void)
{
    const unsigned log = the_program.log;
    const char *const end = the_program.log_next[log];
    const int64_t until_large = the_program.until_large;
    uint32_t answer = YAK_DONE;
    the_program.is_torn = true;
    the_program.aside = 0;
    memset(the_program.is_empty, 0, sizeof the_program.is_empty);
    if (!log_load_image() && !log_begin_anew())
        return false;
    for (const char *it = the_program.log_from[log]; it != end && answer == YAK_DONE;
         it += ((const record *)it)->size)
        answer = do_again((const record *)it);
    the_program.until_large = until_large;
    the_program.is_torn = answer != YAK_DONE;
    if (answer == YAK_DONE)
        show_hands();
    return answer == YAK_DONE;
}
