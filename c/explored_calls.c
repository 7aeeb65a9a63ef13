/* The calls on queues as steps. */
#define _GNU_SOURCE
#include "explored_calls.h"
#include "machine.h"

#include <string.h>

enum { MOST_MADE = 1024 };

static machine_queue queues[QUEUES];
/* The queue that a descriptor had at last. */
static uint32_t number_queue[NUMBERS];
/* Queues that were created. */
static unsigned made;
static uint32_t made_queue[MOST_MADE];

/* The names of queues are one object. */
static const char names;

static uint32_t names_object(void)
{
    return machine_object(&names, STEP_OPEN);
}

/* Whether this call is one of a thread that the machine knows, and not one in a handler that has
 * interrupted another call. */
static bool is_step(void)
{
    return machine_decides() && program_thread.place == OUTSIDE && program_here->me != 0;
}

static const machine_queue *queue_of(uint32_t d)
{
    return &queues[the_program.tables.descriptions[d].queue];
}

/* A number that stands for no description has the queue of its last one. */
static uint32_t object_of(int mqdes)
{
    const uint32_t d = program_number(mqdes), number = (uint32_t)mqdes - FIRST;
    uint32_t object = 0;
    if (d < DESCRIPTIONS)
        object = queue_of(d)->object;
    else if (number < NUMBERS)
        object = number_queue[number];
    return object != 0 ? object : names_object();
}

void explored_names(yak_kind kind)
{
    if (is_step())
        machine_acts(kind, &names, 0);
}

void explored_call(yak_kind kind, int mqdes)
{
    machine_op op;
    if (!is_step())
        return;
    op = machine_op_on(kind, 0, 0);
    op.object = object_of(mqdes);
    machine_act(&op);
}

/* A change of the flag of a description matters to the calls that are about to be made on it. */
void explored_setattr(int mqdes, bool nonblock)
{
    const uint32_t d = program_number(mqdes);
    if (!is_step())
        return;
    if (nonblock && d < DESCRIPTIONS && !the_program.nonblock[d] && the_machine.chooses &&
        machine_has_others())
        the_machine.shared->sets_flags = true;
    explored_call(STEP_SETATTR, mqdes);
}

/* Whether this thread's call has begun to wait by a step of its own. */
static __thread bool has_begun;

bool explored_has_begun(void)
{
    return has_begun;
}

/* Begins a call by a step of its own, which reads the flag of the description. Whether it waits
 * then. */
static bool begins_to_wait(machine_op *op)
{
    machine_op begin = *op;
    begin.flags |= YAK_TRY;
    begin.nonblock = 0;
    machine_act(&begin);
    if (*op->nonblock || machine_can_move(op))
        return false;
    machine_gave(EAGAIN, 0);
    op->nonblock = 0;
    return true;
}

static bool is_wrong(bool is_send, uint32_t d, size_t len, unsigned prio)
{
    const int64_t msgsize = queue_of(d)->msgsize;
    if (the_program.tables.descriptions[d].access == (is_send ? 0 : 1))
        return true;
    return is_send ? (int64_t)len > msgsize || prio > 32767 : (int64_t)len < msgsize;
}

bool explored_transfer(bool is_send, int mqdes, size_t len, unsigned prio,
                       const struct timespec *until)
{
    machine_op op;
    uint32_t d;
    has_begun = false;
    if (!is_step())
        return true;
    op = machine_op_on(is_send ? STEP_SEND : STEP_RECEIVE, 0, until);
    op.object = object_of(mqdes);
    op.arg = is_send ? prio : 0;
    d = program_number(mqdes);
    if (d >= DESCRIPTIONS || is_wrong(is_send, d, len, prio)) {
        op.flags |= YAK_NEVER_BLOCKS;
    } else if (queue_of(d)->object != 0 && the_machine.seed == 0) {
        op.with = (void *)(uintptr_t)queue_of(d);
        op.odd = ODD_SIGNAL;
        op.nonblock = &the_program.nonblock[d];
        if (!is_send && the_program.tables.registered != 0 && !*op.nonblock &&
            !machine_can_move(&op))
            machine_misses(UNSEEN_NOTICES);
        if (the_machine.shared->is_begun && (has_begun = begins_to_wait(&op)) == false)
            return true;
    } else if (the_program.nonblock[d]) {
        /* By a seed the call waits in the library, where reports and notices see it. */
        op.flags |= YAK_TRY;
    }
    machine_act(&op);
    if (!machine_was_odd())
        return true;
    machine_gave(EINTR, 0);
    return false;
}

void explored_gave(int error, uint32_t value)
{
    if (program_thread.place == OUTSIDE)
        machine_gave(error, value);
}

static uint32_t hash_of(const uint8_t *bytes, size_t len)
{
    uint32_t it = 2166136261u;
    for (size_t i = 0; i < len; ++i)
        it = (it ^ bytes[i]) * 16777619u;
    return it;
}

void explored_moved(bool is_send, uint32_t d, int error, const uint8_t *bytes, size_t len)
{
    if (!machine_decides())
        return;
    if (error == 0 && d < DESCRIPTIONS)
        queues[the_program.tables.descriptions[d].queue].current += is_send ? 1 : -1;
    explored_gave(error, error == 0 ? hash_of(bytes, len) : 0);
}

/* How often the name was given in this run. */
static uint32_t given_before(const char *name)
{
    uint32_t count = 0;
    for (unsigned i = 0; i < made; ++i)
        count += strcmp(the_machine.shared->object[made_queue[i] - 1].name, name) == 0;
    return count;
}

/* The number of a queue. Of queues of one name each has its own. */
static uint32_t queue_object(const char *name, uint32_t room)
{
    yak_explored *all = the_machine.shared;
    const uint32_t given = given_before(name);
    yak_object *it;
    for (uint32_t i = 0; i < all->objects; ++i)
        if (strcmp(all->object[i].name, name) == 0 && all->object[i].given == given &&
            all->object[i].room == room)
            return i + 1;
    if (all->objects == YAK_MOST_OBJECTS)
        return YAK_MOST_OBJECTS;
    it = &all->object[all->objects];
    it->given = given;
    it->room = room;
    it->kind = STEP_OPEN;
    strcpy(it->name, name);
    return ++all->objects;
}

static void meet_queue(machine_queue *it, const uint8_t *name, size_t len, int64_t room)
{
    char text[YAK_OBJECT_NAME] = {0};
    memcpy(text, name, len < sizeof text ? len : sizeof text - 1);
    it->room = room;
    it->current = 0;
    it->object = queue_object(text, (uint32_t)room);
    if (made < MOST_MADE)
        made_queue[made++] = it->object;
}

void explored_queue(unsigned slot, const uint8_t *name, size_t len, const yak_opening *opening)
{
    machine_queue *it = &queues[slot];
    if (!machine_decides())
        return;
    /* Without limits a queue has those of Linux's. */
    it->msgsize = opening->limited ? opening->msgsize : 8192;
    meet_queue(it, name, len, opening->limited ? opening->maxmsg : 10);
}

void explored_number(unsigned number, uint32_t d)
{
    uint32_t before = number_queue[number];
    if (!machine_decides())
        return;
    number_queue[number] = queue_of(d)->object;
    /* A call on the number that came before would have failed. */
    if (before != 0)
        machine_also(STEP_OPEN, before);
}

/* Whether the journal has an entry at a place. */
static bool has_entry(uint64_t place)
{
    uint8_t none = 0;
    uint32_t answer;
    size_t len;
    int at;
    if (program_enter_aside(&at) != 0)
        return false;
    READ(answer, yak_proved_entry(&the_program.processes[DISPATCHER], place, &none, 0, &len));
    program_unlock(at);
    return answer == YAK_SHORT;
}

uint64_t machine_entries(uint64_t before)
{
    if (program_at == 0 || !the_program.is_ready || !the_program.is_stored)
        return before;
    while (has_entry(before))
        ++before;
    return before;
}

/* ---- what the library asks, and the machine asks of it ---- */

bool explored_decides(void)
{
    return the_machine.is_on;
}

typedef struct looked {
    const _Atomic uint32_t *word;
    uint32_t value;
} looked;

static bool has_changed(void *of)
{
    const looked *it = of;
    return atomic_load(it->word) != it->value;
}

void explored_await(const _Atomic uint32_t *word, uint32_t value, const struct timespec *until)
{
    const waiting *here = &program_own_wait;
    looked with = {.word = word, .value = value};
    char what[LONGEST_NAME + 64];
    snprintf(what, sizeof what, "%s on %.*s", here->asked.call, (int)here->len,
             (const char *)here->name);
    machine_waits(has_changed, &with, until, what);
}

void explored_refuses(void)
{
    if (the_machine.shared != 0)
        the_machine.shared->child_calls = true;
}

void explored_journal(void)
{
    the_machine.write = program_write_journal;
}

void explored_cancels(pthread_t thread)
{
    machine_misses(UNSEEN_CANCELS);
    machine_cancels(thread);
}

void explored_signals(void)
{
    the_machine.signals = true;
}

void machine_meet_child(void)
{
    program_meet_thread();
}

static struct timespec now(void)
{
    return the_machine.now;
}

/* A call on queues has parked before. */
static void take_turn(void)
{
}

const yak_turns_ machine_turns = {.turn = take_turn, .now = now};

/* ---- calls by handles ----
 *
 * The crate for Rust tells of its calls by these (bindings/rust/src/explored.rs), and keeps what
 * the machine knows of a queue. */

bool yak_explored_decides(void)
{
    return machine_decides();
}

static yak_kind kind_of(const char *word)
{
    unsigned kind = 0;
    while (kind < STEP_KINDS && strcmp(yak_kind_word(kind), word) != 0)
        ++kind;
    return (yak_kind)(kind % STEP_KINDS);
}

/* A queue was created. */
void yak_explored_queue(machine_queue *it, const uint8_t *name, size_t len, int64_t room)
{
    if (machine_decides())
        meet_queue(it, name, len, room);
}

/* Parks in front of a call on a queue, or on a name if there is none. */
void yak_explored_call(const char *word, const machine_queue *queue)
{
    machine_op op;
    if (!machine_decides())
        return;
    op = machine_op_on(kind_of(word), 0, 0);
    op.object = queue != 0 ? queue->object : names_object();
    machine_act(&op);
}

/* Parks in front of a send or a receive until it can be made, or its deadline passes; `flags` are
 * those of a step. */
void yak_explored_transfer(bool is_send, machine_queue *queue, uint32_t prio, uint32_t flags,
                           const struct timespec *until)
{
    machine_op op;
    if (!machine_decides())
        return;
    op = machine_op_on(is_send ? STEP_SEND : STEP_RECEIVE, 0, until);
    op.object = queue->object;
    op.arg = is_send ? prio : 0;
    op.flags |= flags;
    op.with = flags == 0 ? queue : 0;
    machine_act(&op);
}

/* The step that runs did something to another queue too. */
void yak_explored_also(const char *word, const machine_queue *queue)
{
    machine_also(kind_of(word), queue->object);
}

/* What a call returned: 0 or an error, and a value that others can see. */
void yak_explored_gave(int error, uint32_t value)
{
    machine_gave(error, value);
}

void yak_explored_moved(bool is_send, machine_queue *queue, int error, const uint8_t *bytes,
                        size_t len)
{
    if (!machine_decides())
        return;
    if (error == 0)
        queue->current += is_send ? 1 : -1;
    machine_gave(error, error == 0 ? hash_of(bytes, len) : 0);
}
