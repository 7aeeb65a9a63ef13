/* Random calls of five processes return and write the same on a system that stores its journal, on
 * an unstored one, and on a prepaid one, on which only an open allocates; and, after the first
 * calls, on two systems that continue from that journal and from its short equivalent. usage: alike
 * RUNS, each of 110 calls. */
#include <yakyrombe.h>

#include "../memory.h"

#include <stdio.h>
#include <stdlib.h>
#include <string.h>

enum { PROCESSES = 5, CALLS = 110, FIRST_CALLS = 60, NAMES = 3, MOST_BYTES = 40 };

enum { STORED, UNSTORED, PREPAID, RESUMED, SHORT, SYSTEMS };

typedef enum call {
    OPEN,
    CLOSE,
    UNLINK,
    SEND,
    RECEIVE,
    TIMED_SEND,
    TIMED_RECEIVE,
    GETATTR,
    SETATTR,
    NOTIFY,
    NEXT_NOTICE,
    EXIT,
    ANSWERED,
    COLLECT,
    END_WAIT,
    KINDS
} call;

/* One call, with the arguments of every kind of call. */
typedef struct asked {
    call call;
    unsigned process;
    const char *name;
    yak_opening opening;
    uint32_t d, prio;
    size_t len;
    uint64_t value;
    bool set;
    yak_moment until, now;
    uint8_t bytes[MOST_BYTES];
} asked;

/* What a call returned and wrote. */
typedef struct outcome {
    uint32_t answer, d, prio;
    size_t len;
    yak_attributes attributes;
    uint64_t notice;
    uint8_t buf[MOST_BYTES];
} outcome;

/* How many allocations the library made. */
static unsigned long requests;

rattle_tried rattle_alloc(size_t size, size_t align)
{
    ++requests;
    return rattle_tried_with(malloc(size != 0 ? size : align));
}

rattle_tried rattle_realloc(void *p, size_t kept, size_t size, size_t align)
{
    (void)kept;
    ++requests;
    return rattle_tried_with(realloc(p, size != 0 ? size : align));
}

void rattle_dealloc(void *p)
{
    free(p);
}

static uint64_t state = 88172645463325252u;

static unsigned below(unsigned bound)
{
    state ^= state << 13;
    state ^= state >> 7;
    state ^= state << 17;
    return (unsigned)(state >> 33) % bound;
}

/* A random call at a moment; the first ones are opens for both directions. Most are sends, receives
 * and ends of waits. */
static asked any_call(int64_t moment, bool opens)
{
    static const char *const names[NAMES] = {"/a", "/jobs", "/a-longer-name"};
    static const call often[] = {SEND,    RECEIVE, SEND,    RECEIVE,  TIMED_SEND, TIMED_RECEIVE,
                                 COLLECT, COLLECT, COLLECT, END_WAIT, ANSWERED};
    asked a;
    memset(&a, 0, sizeof a);
    a.call = below(5) ? often[below(sizeof often / sizeof often[0])] : (call)below(KINDS);
    if (opens)
        a.call = OPEN;
    a.process = below(PROCESSES);
    a.name = names[below(NAMES)];
    a.opening = (yak_opening){.maxmsg = 1 + below(3),
                              .msgsize = 1 + below(MOST_BYTES),
                              .access = opens || below(4) ? 2 : below(2),
                              .create = opens || below(4) != 0,
                              .exclusive = !below(8),
                              .nonblock = !below(5),
                              .limited = true};
    a.d = below(8) ? below(2) : below(17);
    a.prio = below(4);
    a.len = below(4) ? below(8) : below(MOST_BYTES + 1);
    a.value = below(1000);
    a.set = below(2);
    a.now = (yak_moment){.sec = moment, .nsec = 0};
    a.until = (yak_moment){.sec = moment - 1 + below(5), .nsec = below(50) ? 0 : -1};
    for (size_t i = 0; i < a.len; ++i)
        a.bytes[i] = (uint8_t)below(256);
    return a;
}

static uint32_t answer_to(yak_process *process, const asked *a, outcome *o, yak_message *message)
{
    const uint8_t *name = (const uint8_t *)a->name;
    switch (a->call) {
    case OPEN:
        return yak_open(process, name, strlen(a->name), &a->opening, &o->d);
    case CLOSE:
        return yak_close(process, a->d);
    case UNLINK:
        return yak_unlink(process, name, strlen(a->name));
    case SEND:
        return yak_start_send(process, a->d, a->bytes, a->len, a->prio);
    case RECEIVE:
        return yak_start_receive(process, a->d, o->buf, sizeof o->buf, message);
    case TIMED_SEND:
        return yak_start_timed_send(process, a->d, a->bytes, a->len, a->prio, &a->until, &a->now);
    case TIMED_RECEIVE:
        return yak_start_timed_receive(process, a->d, o->buf, sizeof o->buf, message, &a->until,
                                       &a->now);
    case GETATTR:
        return yak_getattr(process, a->d, &o->attributes);
    case SETATTR:
        return yak_setattr(process, a->d, a->set, &o->attributes);
    case NOTIFY:
        return yak_notify(process, a->d, a->set, a->value);
    case NEXT_NOTICE:
        return yak_next_notice(process, &o->notice);
    case EXIT:
        return yak_exit(process);
    case ANSWERED:
        return yak_answered(process);
    case COLLECT:
        return yak_collect(process, o->buf, sizeof o->buf, message);
    default:
        return yak_end_wait(process, o->buf, sizeof o->buf, message, &a->now);
    }
}

static outcome make(yak_process *processes, const asked *a)
{
    yak_process *process = &processes[a->process];
    yak_message message = {0, 0};
    outcome o;
    memset(&o, 0, sizeof o);
    o.answer = answer_to(process, a, &o, &message);
    o.len = message.len;
    o.prio = message.prio;
    return o;
}

static bool same(const outcome *x, const outcome *y)
{
    return x->answer == y->answer && x->d == y->d && x->prio == y->prio && x->len == y->len &&
           x->attributes.maxmsg == y->attributes.maxmsg &&
           x->attributes.msgsize == y->attributes.msgsize &&
           x->attributes.curmsgs == y->attributes.curmsgs &&
           x->attributes.nonblock == y->attributes.nonblock && x->notice == y->notice &&
           !memcmp(x->buf, y->buf, sizeof x->buf);
}

/* Two other systems continue from the stored one. */
static bool resume(yak_process (*systems)[PROCESSES], unsigned long *shortened)
{
    char *text = 0;
    size_t len = 0;
    uint64_t line;
    FILE *to = open_memstream(&text, &len);
    const bool is_written = to != 0 && yak_write_journal(systems[STORED], to) == YAK_DONE;
    const uint8_t *journal = (const uint8_t *)text;
    const bool resumed =
        is_written && yak_resume(systems[RESUMED], PROCESSES, journal, len, &line) == YAK_DONE &&
        yak_resume_short(systems[SHORT], PROCESSES, journal, len, &line) == YAK_DONE;
    if (to != 0)
        fclose(to);
    free(text);
    if (resumed) {
        uint8_t none[1];
        *shortened += yak_entry(systems[SHORT], FIRST_CALLS / 2, none, 0, &len) == YAK_NO_ENTRY;
    }
    return resumed;
}

/* Makes one call on each of `count` systems. Counts the calls that were done, waited and were
 * served. */
static bool make_all(yak_process (*systems)[PROCESSES], int count, const asked *a,
                     unsigned long *counts)
{
    const outcome first = make(systems[STORED], a);
    bool alike = true;
    for (int i = 1; i < count; ++i) {
        const unsigned long before = requests;
        const outcome other = make(systems[i], a);
        if (i == PREPAID && a->call != OPEN && requests != before) {
            printf("kind %d takes memory, prepaid\n", (int)a->call);
            alike = false;
        }
        if (!same(&first, &other)) {
            printf("kind %d on system %d: %u and %u\n", (int)a->call, i, (unsigned)first.answer,
                   (unsigned)other.answer);
            alike = false;
        }
    }
    counts[0] += first.answer == YAK_DONE;
    counts[1] += first.answer == YAK_WAITS && a->call != COLLECT && a->call != ANSWERED;
    counts[2] += first.answer == YAK_DONE && a->call == COLLECT;
    return alike;
}

/* One run. The last count is that of journals that became shorter by half. */
static bool run(unsigned long *counts)
{
    static const yak_process empty = YAK_PROCESS_EMPTY;
    yak_process systems[SYSTEMS][PROCESSES];
    bool alike = true;
    for (unsigned i = 0; i < SYSTEMS * PROCESSES; ++i)
        systems[i / PROCESSES][i % PROCESSES] = empty;
    if (yak_new(systems[STORED], PROCESSES) != YAK_DONE ||
        yak_unstored(systems[UNSTORED], PROCESSES) != YAK_DONE ||
        yak_prepaid(systems[PREPAID], PROCESSES) != YAK_DONE)
        return false;
    for (int64_t i = 0; i < CALLS && alike; ++i) {
        const asked a = any_call(i / 4, i < 2 * PROCESSES);
        if (i == FIRST_CALLS && !resume(systems, &counts[3]))
            return false;
        alike = make_all(systems, i < FIRST_CALLS ? RESUMED : SYSTEMS, &a, counts);
    }
    /* Open waits too. */
    for (int i = 0; i < SYSTEMS && alike; ++i)
        alike = yak_finish(systems[i], PROCESSES) == YAK_DONE;
    return alike;
}

int main(int count, char **words)
{
    const unsigned long runs = count > 1 ? strtoul(words[1], 0, 10) : 1000;
    unsigned long counts[4] = {0, 0, 0, 0};
    for (unsigned long i = 0; i < runs; ++i)
        if (!run(counts)) {
            printf("run %lu: not alike\n", i);
            return 1;
        }
    if (counts[0] < 10 * runs || counts[1] < runs || counts[2] < runs / 2 || counts[3] < runs / 4) {
        printf("too little happened: %lu done, %lu waited, %lu collected, %lu shorter\n", counts[0],
               counts[1], counts[2], counts[3]);
        return 1;
    }
    puts("all alike");
    return 0;
}
