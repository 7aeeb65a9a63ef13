/* The calls by handles for the machine, in libyakyrombe-journal.a: a call on queues is a step. */
#define _GNU_SOURCE
#include "machine.h"

/* A program that includes seed.h wants this, and with it the machine. */
const char yak_seed_machine;

/* All queues are one object. */
static void take_turn(void)
{
    static const char queues;
    if (machine_decides())
        machine_acts(STEP_HANDLE, &queues, 0);
}

static bool is_answered(void *of)
{
    return yak_answered(of) != YAK_WAITS;
}

static void write_journal(void *of, FILE *to)
{
    yak_write_journal(of, to);
}

static void await_answer(yak_process *process, const yak_moment *until, const char *call,
                         uint32_t d)
{
    struct timespec end = {0};
    char what[96];
    if (!machine_decides())
        return;
    if (until != 0) {
        end.tv_sec = (time_t)until->sec;
        end.tv_nsec = (long)until->nsec;
    }
    snprintf(what, sizeof what, "%s on descriptor %u, as process %u", call, (unsigned)d,
             (unsigned)process->number);
    the_machine.write = write_journal;
    the_machine.with = process;
    machine_waits(is_answered, process, until != 0 ? &end : 0, what);
}

const yak_turns_ machine_turns = {
    .turn = take_turn, .await_answer = await_answer, .now = yak_seed_now};

uint64_t machine_entries(uint64_t before)
{
    return before;
}

void machine_meet_child(void)
{
}

int pthread_cancel(pthread_t thread)
{
    machine_cancels(thread);
    return YAK_REAL(pthread_cancel)(thread);
}

/* ---- for programs ---- */

bool yak_seed_decides(void)
{
    return the_machine.is_on;
}

void yak_seed_turn(void)
{
    take_turn();
}

bool yak_seed_wait(bool (*goes_on)(void *with), void *with, const struct timespec *until,
                   const char *what)
{
    return machine_decides() && machine_waits(goes_on, with, until, what);
}

struct timespec yak_seed_now(void)
{
    struct timespec now;
    clock_gettime(CLOCK_REALTIME, &now);
    return now;
}
