/* What runs came to. Of all runs with one outcome the shortest schedule is kept: the one with the
 * fewest preemptions, and of these the one that names the fewest steps. */
#define _GNU_SOURCE
#include "explorer.h"

#include <signal.h>
#include <stdlib.h>
#include <string.h>
#include <sys/wait.h>

const char *call_name(const yak_record *of)
{
    return yak_call_name(of->kind, of->flags, of->arg);
}

/* What an object is called that has no name. */
static const char *noun_of(const yak_object *it)
{
    static const char *const nouns[STEP_KINDS] = {
        [STEP_LOCK] = "mutex",
        [STEP_TRYLOCK] = "mutex",
        [STEP_UNLOCK] = "mutex",
        [STEP_REGISTER] = "condition",
        [STEP_SIGNAL] = "condition",
        [STEP_BROADCAST] = "condition",
        [STEP_SPINLOCK] = "spinlock",
        [STEP_SPINTRY] = "spinlock",
        [STEP_SPINUNLOCK] = "spinlock",
        [STEP_SEMWAIT] = "semaphore",
        [STEP_SEMTRY] = "semaphore",
        [STEP_SEMVALUE] = "semaphore",
        [STEP_POST] = "semaphore",
        [STEP_RDLOCK] = "rwlock",
        [STEP_WRLOCK] = "rwlock",
        [STEP_RWUNLOCK] = "rwlock",
        [STEP_BARRIER] = "barrier",
        [STEP_ONCE] = "once",
        [STEP_FUTEXWAIT] = "futex",
        [STEP_FUTEXWAKE] = "futex",
        [STEP_CLOCK] = "the clock",
        [STEP_LOAD] = "memory",
        [STEP_STORE] = "memory",
        [STEP_WRITE] = "memory",
        [STEP_OPEN] = "the names of queues",
        [STEP_UNLINK] = "the names of queues",
        [STEP_HANDLE] = "the queues",
    };
    const char *noun = nouns[it->kind % STEP_KINDS];
    return noun != 0 ? noun : "object";
}

const char *object_name(const yak_explored *of, uint32_t object, char *text, size_t size)
{
    const yak_object *it;
    unsigned number = 1;
    if (object == 0 || object > of->objects)
        return "";
    it = &of->object[object - 1];
    if (it->name[0] != 0)
        return it->name;
    for (const yak_object *other = of->object; other != it; ++other)
        number += other->name[0] == 0 && strcmp(noun_of(other), noun_of(it)) == 0;
    if (strncmp(noun_of(it), "the ", 4) == 0)
        return noun_of(it);
    snprintf(text, size, "%s %u", noun_of(it), number);
    return text;
}

/* ---- steps ---- */

steps steps_of(const yak_explored *of)
{
    return (steps){.of = of, .next = of->record, .last = 1};
}

static const yak_record *record_of(const step *it, uint8_t thread)
{
    for (unsigned i = 0; i < it->parked; ++i)
        if (it->at[i].thread == thread)
            return &it->at[i];
    return 0;
}

/* The thread that the rule would let go on: the last one, else the lowest that can, else the lowest
 * whose deadline may pass. */
static uint8_t rule_of(const step *it, uint8_t last)
{
    const yak_record *here = record_of(it, last);
    if (here != 0 && here->able == YAK_CAN)
        return last;
    for (unsigned able = YAK_CAN; able <= YAK_LATE; ++able)
        for (unsigned i = 0; i < it->parked; ++i)
            if (it->at[i].able == able)
                return it->at[i].thread;
    return 0;
}

static bool can_go_on(const step *it, uint8_t thread)
{
    const yak_record *at = record_of(it, thread);
    return at != 0 && at->able == YAK_CAN;
}

/* A deadline that passes while somebody can go on is a preemption too. */
static bool is_preemption(const step *it, uint8_t last)
{
    bool others = false;
    if (it->chosen->thread != last && can_go_on(it, last))
        return true;
    for (unsigned i = 0; i < it->parked; ++i)
        others = others || it->at[i].able == YAK_CAN;
    return it->chosen->able == YAK_LATE && others;
}

bool next_step(steps *all, step *it)
{
    const yak_record *end = all->of->record + all->of->records;
    memset(it, 0, sizeof *it);
    while (all->next != end && all->next->what != YAK_AT)
        ++all->next;
    for (it->at = all->next; all->next != end && all->next->what == YAK_AT; ++all->next)
        ++it->parked;
    if (all->next == end || all->next->what != YAK_CHOSE)
        return false;
    it->choice = all->next++;
    if ((it->chosen = record_of(it, it->choice->thread)) == 0)
        return false;
    for (it->follows = all->next; all->next != end && all->next->what != YAK_AT; ++all->next)
        ;
    it->end = all->next;
    it->is_local = it->chosen->able == YAK_CAN &&
                   (it->chosen->kind == STEP_START || it->chosen->kind == STEP_JOIN ||
                    it->chosen->kind == STEP_COLLECT);
    if (it->is_local) {
        it->is_by_rule = true;
        return true;
    }
    it->preempts = is_preemption(it, all->last);
    it->is_by_rule = it->choice->thread == rule_of(it, all->last) && it->choice->variants == 0;
    all->last = it->choice->thread;
    return true;
}

/* ---- how a run ended ---- */

static const yak_record *last_of(const yak_explored *of, unsigned what)
{
    for (uint32_t i = of->records; i != 0; --i)
        if (of->record[i - 1].what == what)
            return &of->record[i - 1];
    return 0;
}

void write_wait(FILE *to, const yak_explored *of, const yak_record *it)
{
    char text[64];
    const char *name = object_name(of, it->object, text, sizeof text);
    const bool is_barrier = it->kind == STEP_COLLECT && it->object != 0 &&
                            of->object[it->object - 1].kind == STEP_BARRIER;
    if (is_barrier)
        fprintf(to, "thread %u waits at %s", it->thread, name);
    else if (it->kind == STEP_JOIN)
        fprintf(to, "thread %u waits in %s for thread %u", it->thread, call_name(it), it->arg);
    else
        fprintf(to, "thread %u waits in %s%s%s", it->thread, call_name(it),
                *name != 0 ? " on " : "", name);
}

static void write_waits(FILE *to, const yak_explored *of)
{
    char text[64];
    for (uint32_t i = 0; i < of->records; ++i) {
        const yak_record *it = &of->record[i], *holds = it + 1;
        if (it->what != YAK_LEFT)
            continue;
        write_wait(to, of, it);
        if (it->kind == STEP_SEND || it->kind == STEP_RECEIVE)
            fprintf(to, ", which is %s", it->kind == STEP_SEND ? "full" : "empty");
        if (i + 1 < of->records && holds->what == YAK_HOLDS)
            fprintf(to, ", and thread %u holds %s", holds->thread,
                    object_name(of, holds->object, text, sizeof text));
        fputc('\n', to);
    }
}

static void write_last_step(FILE *to, const yak_explored *of)
{
    const yak_record *choice = last_of(of, YAK_CHOSE);
    char text[64];
    for (uint32_t i = 0; choice != 0 && i < of->records; ++i) {
        const yak_record *it = &of->record[i];
        if (it->what == YAK_AT && it->step == choice->step && it->thread == choice->thread)
            fprintf(to, "thread %u made no step after %s %s\n", it->thread, call_name(it),
                    object_name(of, it->object, text, sizeof text));
    }
}

static bool is_failure(const run *of)
{
    if (of->end == YAK_END_DOUBT)
        return false;
    return of->is_hung || of->end == YAK_END_DEADLOCK || of->end == YAK_END_STEPS ||
           of->status != 0;
}

/* Says how a run ended, in lines. What was printed counts, but not if the run had no end. */
static char *describe(const yak_explored *of, const run *result)
{
    char *text = 0;
    size_t size = 0;
    FILE *to = need(open_memstream(&text, &size));
    if (result->is_hung) {
        fprintf(to, "hang\n");
        write_last_step(to, of);
    } else if (result->end == YAK_END_DOUBT) {
        fprintf(to, "%s\n", of->doubt);
        write_waits(to, of);
    } else if (result->end == YAK_END_DEADLOCK) {
        fprintf(to, "deadlock\n");
        write_waits(to, of);
    } else if (result->end == YAK_END_STEPS) {
        fprintf(to, "more than %u steps\n", of->most_steps);
    } else if (result->end == YAK_END_RACE) {
        fprintf(to, "data race\n%s", result->printed);
    } else if (WIFSIGNALED(result->status)) {
        fprintf(to, "signal %d (%s)\n%s", WTERMSIG(result->status),
                strsignal(WTERMSIG(result->status)), result->printed);
    } else {
        fprintf(to, "status %d\n%s", WEXITSTATUS(result->status), result->printed);
    }
    fclose(to);
    return need(text);
}

/* ---- what is kept ---- */

static unsigned count_choices(const yak_explored *of, unsigned *preemptions)
{
    steps all = steps_of(of);
    unsigned count = 0;
    *preemptions = 0;
    for (step it; next_step(&all, &it);) {
        count += !it.is_by_rule;
        *preemptions += it.preempts;
    }
    return count;
}

static void keep_choices(outcome *to, const yak_explored *of)
{
    steps all = steps_of(of);
    unsigned count = 0;
    free(to->choices);
    to->choices = need(calloc(to->length + 1, sizeof *to->choices));
    to->is_each = of->is_each;
    to->is_begun = of->is_begun;
    for (step it; next_step(&all, &it);)
        if (!it.is_by_rule)
            to->choices[count++] = (choice){.step = it.choice->step,
                                            .thread = it.choice->thread,
                                            .variant = it.choice->variants};
}

/* The outcome with this text, which is taken; perhaps a new one. */
static outcome *find_outcome(outcomes *all, char *what, bool fails, unsigned long number)
{
    for (unsigned i = 0; i < all->count; ++i)
        if (strcmp(all->them[i].what, what) == 0) {
            free(what);
            return &all->them[i];
        }
    all->them = need(realloc(all->them, (all->count + 1) * sizeof *all->them));
    all->failing += fails;
    all->them[all->count] =
        (outcome){.what = what, .fails = fails, .first = number, .preemptions = UINT32_MAX};
    return &all->them[all->count++];
}

bool outcomes_keep(outcomes *all, const yak_explored *of, const run *result, unsigned long number)
{
    const bool fails = is_failure(result);
    unsigned preemptions, length = count_choices(of, &preemptions);
    outcome *it;
    if (result->end == YAK_END_UNFIT || result->end == YAK_END_SLEPT)
        return false;
    it = find_outcome(all, describe(of, result), fails, number);
    ++it->runs;
    it->searched += !of->is_random;
    it->is_open = result->end == YAK_END_DOUBT;
    if (preemptions < it->preemptions || (preemptions == it->preemptions && length < it->length)) {
        it->preemptions = preemptions;
        it->length = length;
        keep_choices(it, of);
    }
    return fails;
}

const outcome *outcome_not_searched(const outcomes *all)
{
    for (unsigned i = 0; i < all->count; ++i)
        if (all->them[i].searched == 0)
            return &all->them[i];
    return 0;
}

char *schedule_of(const outcome *it, const options *options)
{
    char *text = 0;
    size_t size = 0;
    FILE *to = need(open_memstream(&text, &size));
    fprintf(to, "%s%s%s", options->is_last ? "last " : "", it->is_each ? "each " : "",
            it->is_begun ? "begun " : "");
    if (options->polls != YAK_POLLS)
        fprintf(to, "polls:%lu ", options->polls);
    if (options->spurious != 0)
        fprintf(to, "spurious:%lu ", options->spurious);
    if (options->signals != 0)
        fprintf(to, "signals:%lu ", options->signals);
    if (options->refusals != 0)
        fprintf(to, "refuse:%lu ", options->refusals);
    for (unsigned i = 0; i < it->length; ++i) {
        fprintf(to, "%u:%u", it->choices[i].step, it->choices[i].thread);
        if (it->choices[i].variant != 0)
            fprintf(to, ".%u", it->choices[i].variant);
        fputc(' ', to);
    }
    fclose(to);
    text = need(text);
    if (size != 0)
        text[size - 1] = 0;
    return text;
}

void ask_for(const outcome *it, yak_explored *to)
{
    to->choices = to->leads = to->sleepers = 0;
    to->is_random = false;
    to->is_each = it->is_each;
    to->is_begun = it->is_begun;
    for (unsigned i = 0; i < it->length; ++i) {
        while (to->choices < it->choices[i].step)
            to->choice[to->choices++] = 0;
        to->choice[it->choices[i].step - 1] =
            (uint16_t)(it->choices[i].thread | it->choices[i].variant << 8);
    }
}
