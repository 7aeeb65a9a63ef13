/* The machine: who may go on, and who does: by the choices that are asked for, by a rule, or at
 * random. */
#define _GNU_SOURCE
#include "machine.h"

#include <string.h>

/* ---- who may be chosen ---- */

/* What no other thread can see is done at once, and is no choice. By a seed it is one, since
 * threads may share memory unseen. */
bool machine_is_local(yak_kind kind)
{
    return the_machine.seed == 0 &&
           (kind == STEP_START || kind == STEP_JOIN || kind == STEP_COLLECT);
}

static void keep_only(uint8_t *able, unsigned chosen)
{
    for (unsigned i = 0; i < the_machine.used; ++i)
        able[i] = i == chosen ? able[i] : (uint8_t)YAK_CANNOT;
}

unsigned machine_count(const uint8_t *able, unsigned ability)
{
    unsigned count = 0;
    for (unsigned i = 0; i < the_machine.used; ++i)
        count += able[i] == ability;
    return count;
}

/* The parked thread whose deadline comes first. */
static unsigned first_late(const uint8_t *able)
{
    unsigned first = MACHINE_NONE;
    for (unsigned i = 0; i < the_machine.used; ++i)
        if (able[i] == YAK_LATE &&
            (first == MACHINE_NONE || simulation_is_before(&the_machine.seats[i].op.until,
                                                           &the_machine.seats[first].op.until)))
            first = i;
    return first;
}

/* A thread that has polled in vain often enough gives way until another has gone on. */
static void hold_back_polls(uint8_t *able)
{
    const unsigned most = the_machine.shared->most_polls;
    bool others = false;
    for (unsigned i = 0; most != 0 && i < the_machine.used; ++i)
        others = others || (able[i] != YAK_CANNOT && the_machine.seats[i].vain < most);
    for (unsigned i = 0; others && i < the_machine.used; ++i)
        if (the_machine.seats[i].vain >= most && able[i] != YAK_CANNOT) {
            able[i] = YAK_CANNOT;
            the_machine.shared->gives_way = true;
        }
}

/* With `--time last` a deadline passes only if no thread can run, the first one. */
static void hold_back_deadlines(uint8_t *able)
{
    if (!the_machine.shared->is_last)
        return;
    if (machine_count(able, YAK_CAN) == 0)
        keep_only(able, first_late(able));
    else
        for (unsigned i = 0; i < the_machine.used; ++i)
            able[i] = able[i] == YAK_CAN ? (uint8_t)YAK_CAN : (uint8_t)YAK_CANNOT;
}

/* Who can go on, by seats. If one has a step to make at once, it is that one alone, which is
 * returned; else MACHINE_NONE. */
unsigned machine_look(uint8_t *able)
{
    for (unsigned i = 0; i < the_machine.used; ++i) {
        able[i] = (uint8_t)machine_ability(&the_machine.seats[i]);
        if (able[i] == YAK_CAN && machine_is_local(the_machine.seats[i].op.kind)) {
            memset(able, YAK_CANNOT, the_machine.used);
            able[i] = YAK_CAN;
            return i;
        }
    }
    hold_back_deadlines(able);
    hold_back_polls(able);
    return MACHINE_NONE;
}

/* ---- the choice ---- */

bool machine_waits_for(const seat *it, const void *at)
{
    return it->state == SEAT_PARKED && it->op.kind == STEP_WAKE && it->op.at == at && it->told == 0;
}

/* In how many ways a thread can make its step: a wake of one can wake any of those that wait. */
unsigned machine_variants(const seat *of)
{
    unsigned count = 0;
    if (of->op.kind == STEP_ALLOCATE)
        return 2;
    /* At a deadline it can also end by itself. */
    if (of->op.odd != ODD_NONE)
        return (of->op.flags & YAK_TIMED) != 0 && machine_may_be_odd(of) &&
                       machine_ability(of) == YAK_LATE
                   ? 2
                   : 1;
    if (of->op.kind != STEP_SIGNAL && (of->op.kind != STEP_FUTEXWAKE || of->op.arg != 1))
        return 1;
    for (unsigned i = 0; i < the_machine.used; ++i)
        count += machine_waits_for(&the_machine.seats[i], of->op.at);
    return count == 0 ? 1 : count;
}

static bool is_woken(const seat *it)
{
    const bool is_of_names =
        it->op.kind == STEP_OPEN || it->op.kind == STEP_CLOSE || it->op.kind == STEP_UNLINK;
    if (the_machine.touches_all || (the_machine.touches_names && is_of_names))
        return true;
    for (unsigned i = 0; i < it->asleep; ++i) {
        if (it->wakes[i] == 0)
            return true;
        for (unsigned j = 0; j < the_machine.touches; ++j)
            if (it->wakes[i] == the_machine.touched[j])
                return true;
    }
    return false;
}

/* Wakes sleepers by what the step before has touched. They sleep from the last choice on. */
void machine_wake_sleepers(void)
{
    const bool has_run = the_machine.steps != 0;
    for (unsigned i = 0; i < the_machine.used; ++i)
        if (has_run && the_machine.steps >= the_machine.shared->choices &&
            is_woken(&the_machine.seats[i]))
            the_machine.seats[i].asleep = 0;
    the_machine.touches = 0;
    the_machine.touches_all = the_machine.touches_names = false;
}

static bool is_awake(const uint8_t *able, unsigned i)
{
    return i < the_machine.used && able[i] != YAK_CANNOT && the_machine.seats[i].asleep == 0;
}

/* The rank of a new thread in a run at random: those that come later stand anywhere between the
 * others, below all that a change of priorities gives. */
uint32_t machine_new_rank(void)
{
    if (the_machine.shared->changes == 0)
        return 0;
    return (uint32_t)(simulation_number(&the_machine.random) >> 33) + YAK_MOST_STEPS;
}

/* Whether the priorities change at this step: each place is as likely as any other. */
static bool is_change(void)
{
    const yak_explored *all = the_machine.shared;
    return all->changes > 1 && all->length != 0 &&
           simulation_number(&the_machine.random) % all->length < all->changes - 1;
}

/* Of those that can go on the one of the highest rank, as PCT has it: of depth 1 the ranks stay,
 * and of greater depth the one that would go on sometimes falls behind all others. */
static unsigned by_rank(const uint8_t *able)
{
    unsigned best = MACHINE_NONE;
    for (unsigned tries = 0; tries < 2; ++tries) {
        best = MACHINE_NONE;
        for (unsigned i = 0; i < the_machine.used; ++i)
            if (is_awake(able, i) &&
                (best == MACHINE_NONE || the_machine.seats[i].rank > the_machine.seats[best].rank))
                best = i;
        if (tries != 0 || !is_change())
            break;
        the_machine.seats[best].rank = YAK_MOST_STEPS - 1 - the_machine.ranks++ % YAK_MOST_STEPS;
    }
    return best;
}

static unsigned at_random(const uint8_t *able, unsigned awake, unsigned *variant)
{
    unsigned left, i = 0;
    if (the_machine.shared->changes != 0) {
        i = by_rank(able);
        *variant = (unsigned)(simulation_number(&the_machine.random) %
                              machine_variants(&the_machine.seats[i]));
        return i;
    }
    left = (unsigned)(simulation_number(&the_machine.random) % awake);
    while (!is_awake(able, i) || left-- != 0)
        ++i;
    *variant = (unsigned)(simulation_number(&the_machine.random) %
                          machine_variants(&the_machine.seats[i]));
    return i;
}

/* On with the thread that ran last, else the lowest that can run, else the lowest whose deadline
 * may pass. */
static unsigned by_rule(const uint8_t *able)
{
    const yak_explored *all = the_machine.shared;
    if (the_machine.leads < all->leads) {
        const unsigned next = all->lead[the_machine.leads++] - 1u;
        if (is_awake(able, next))
            return next;
        the_machine.leads = all->leads;
    }
    if (is_awake(able, the_machine.last) && able[the_machine.last] == YAK_CAN)
        return the_machine.last;
    for (unsigned i = 0; i < the_machine.used; ++i)
        if (is_awake(able, i) && able[i] == YAK_CAN)
            return i;
    for (unsigned i = 0; i < the_machine.used; ++i)
        if (is_awake(able, i))
            return i;
    return MACHINE_NONE;
}

/* The seat that goes on, and the variant of its step. */
unsigned machine_decide(const uint8_t *able, unsigned local, unsigned *variant)
{
    const yak_explored *all = the_machine.shared;
    unsigned awake = 0, chosen;
    *variant = 0;
    if (the_machine.steps < all->choices && all->choice[the_machine.steps] != 0) {
        chosen = (all->choice[the_machine.steps] & 0xffu) - 1;
        *variant = all->choice[the_machine.steps] >> 8;
        if (chosen >= the_machine.used || able[chosen] == YAK_CANNOT ||
            *variant >= machine_variants(&the_machine.seats[chosen]))
            machine_end_run(YAK_END_UNFIT, 7);
        return chosen;
    }
    if (local != MACHINE_NONE)
        return local;
    for (unsigned i = 0; i < the_machine.used; ++i)
        awake += is_awake(able, i);
    if (awake == 0)
        machine_end_run(YAK_END_SLEPT, 8);
    return all->is_random ? at_random(able, awake, variant) : by_rule(able);
}
