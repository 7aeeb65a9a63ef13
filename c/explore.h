/* explore.h: what the machine in a program and yak-explore share.
 *
 * yak-explore makes this memory, and the program maps it (machine.c). Before a run yak-explore
 * writes what is asked for; the machine writes the trace of the run. One byte each way over a
 * socket says whose turn it is. docs/explore.md says what a step is. */
#ifndef YAKYROMBE_EXPLORE_H
#define YAKYROMBE_EXPLORE_H

#include <stdbool.h>
#include <stdint.h>
#include <sys/types.h>

enum {
    YAK_SEATS = 64, /* threads of a run */
    YAK_MOST_STEPS = 1 << 14,
    YAK_MOST_OBJECTS = 1 << 12,
    YAK_MOST_RECORDS = 1 << 20,
    YAK_MOST_SLEEPS = 1 << 10,
    YAK_OBJECT_NAME = 256,
    YAK_DOUBT = 256,
    YAK_FRAMES = 6,
    YAK_THREAD_NAME = 16,
    YAK_POLLS = 20, /* in a row and in vain, if nothing else is asked for */
    YAK_EXPLORE_VERSION = 2
};

/* What a program can do that is not seen, for the last line of a report. */
#define YAK_UNSEEN(X)                       \
    X(HANDLERS, "handlers of signals")      \
    X(TIMERS, "timers")                     \
    X(CHILDREN, "forked children")          \
    X(PIPES, "pipes and sockets")           \
    X(FUTEXES, "futexes of some kinds")     \
    X(CANCELS, "when a cancellation comes") \
    X(NOTICES, "that a receiver keeps a notice back")

enum {
#define YAK_UNSEEN_BIT(name, words) UNSEEN_##name##_PLACE,
    YAK_UNSEEN(YAK_UNSEEN_BIT)
#undef YAK_UNSEEN_BIT
        UNSEEN_KINDS,
#define YAK_UNSEEN_BIT(name, words) UNSEEN_##name = 1 << UNSEEN_##name##_PLACE,
    YAK_UNSEEN(YAK_UNSEEN_BIT)
#undef YAK_UNSEEN_BIT
};

/* The kinds of steps: the word of the protocol with the engine, and the call that a report names,
 * without and with a deadline. For the engine a look at memory is one at the attributes of a queue:
 * two looks commute, and nothing else on one object does. A yield and an allocation are sleeps, on
 * which nothing depends. */
#define YAK_KINDS(X)                                                              \
    X(NONE, "none", "nothing", "nothing")                                         \
    X(START, "start", "its start", "its start")                                   \
    X(JOIN, "join", "pthread_join", "pthread_join")                               \
    X(LOCK, "lock", "pthread_mutex_lock", "pthread_mutex_timedlock")              \
    X(TRYLOCK, "trylock", "pthread_mutex_trylock", "pthread_mutex_trylock")       \
    X(UNLOCK, "unlock", "pthread_mutex_unlock", "pthread_mutex_unlock")           \
    X(REGISTER, "register", "pthread_cond_wait", "pthread_cond_timedwait")        \
    X(WAKE, "wake", "pthread_cond_wait", "pthread_cond_timedwait")                \
    X(SIGNAL, "signal", "pthread_cond_signal", "pthread_cond_signal")             \
    X(BROADCAST, "broadcast", "pthread_cond_broadcast", "pthread_cond_broadcast") \
    X(SEMWAIT, "semwait", "sem_wait", "sem_timedwait")                            \
    X(SEMTRY, "semtry", "sem_trywait", "sem_trywait")                             \
    X(POST, "post", "sem_post", "sem_post")                                       \
    X(SLEEP, "sleep", "a sleep", "a sleep")                                       \
    X(YIELD, "sleep", "sched_yield", "sched_yield")                               \
    X(EXIT, "exit", "exit", "exit")                                               \
    X(OPEN, "open", "mq_open", "mq_open")                                         \
    X(CLOSE, "close", "mq_close", "mq_close")                                     \
    X(UNLINK, "unlink", "mq_unlink", "mq_unlink")                                 \
    X(SEND, "send", "mq_send", "mq_timedsend")                                    \
    X(RECEIVE, "receive", "mq_receive", "mq_timedreceive")                        \
    X(GETATTR, "getattr", "mq_getattr", "mq_getattr")                             \
    X(SETATTR, "setattr", "mq_setattr", "mq_setattr")                             \
    X(NOTIFY, "notify", "mq_notify", "mq_notify")                                 \
    X(COLLECT, "collect", "a wait that has begun", "a wait that has begun")       \
    X(CLOCK, "clock", "clock_gettime", "clock_gettime")                           \
    X(CREATE, "create", "pthread_create", "pthread_create")                       \
    X(RDLOCK, "rdlock", "pthread_rwlock_rdlock", "pthread_rwlock_timedrdlock")    \
    X(WRLOCK, "wrlock", "pthread_rwlock_wrlock", "pthread_rwlock_timedwrlock")    \
    X(RWUNLOCK, "rwunlock", "pthread_rwlock_unlock", "pthread_rwlock_unlock")     \
    X(BARRIER, "barrier", "pthread_barrier_wait", "pthread_barrier_wait")         \
    X(ONCE, "once", "pthread_once", "pthread_once")                               \
    X(FUTEXWAIT, "futexwait", "FUTEX_WAIT", "FUTEX_WAIT")                         \
    X(FUTEXWAKE, "futexwake", "FUTEX_WAKE", "FUTEX_WAKE")                         \
    X(LOAD, "getattr", "an atomic load", "an atomic load")                        \
    X(STORE, "write", "an atomic store", "an atomic store")                       \
    X(READ, "getattr", "a read", "a read")                                        \
    X(WRITE, "write", "a write", "a write")                                       \
    X(HANDLE, "setattr", "a call on", "a call on")                                \
    X(ALLOCATE, "sleep", "an allocation", "an allocation")                        \
    X(SEMVALUE, "getattr", "sem_getvalue", "sem_getvalue")                        \
    X(SPINLOCK, "lock", "pthread_spin_lock", "pthread_spin_lock")                 \
    X(SPINTRY, "trylock", "pthread_spin_trylock", "pthread_spin_trylock")         \
    X(SPINUNLOCK, "unlock", "pthread_spin_unlock", "pthread_spin_unlock")

typedef enum yak_kind {
#define YAK_KIND(name, word, call, timed_call) STEP_##name,
    YAK_KINDS(YAK_KIND)
#undef YAK_KIND
        STEP_KINDS
} yak_kind;

/* Of a step: it has a deadline; it is a try, or its description does not block; it never blocks,
 * since its arguments are wrong; its wait may end by itself, which is a deadline for the engine. */
enum { YAK_TIMED = 1, YAK_TRY = 2, YAK_NEVER_BLOCKS = 4, YAK_ODD = 8 };

/* The word of a kind of steps. */
static inline const char *yak_kind_word(unsigned kind)
{
    static const char *const words[] = {
#define YAK_KIND(name, word, call, timed_call) word,
        YAK_KINDS(YAK_KIND)
#undef YAK_KIND
    };
    return words[kind % STEP_KINDS];
}

/* The call of a step. A wait for a condition has a mutex in `arg`, and one by futex has none. */
static inline const char *yak_call_name(unsigned kind, unsigned flags, uint32_t arg)
{
    static const char *const calls[][2] = {
#define YAK_KIND(name, word, call, timed_call) {call, timed_call},
        YAK_KINDS(YAK_KIND)
#undef YAK_KIND
    };
    if (kind == STEP_WAKE && arg == 0)
        kind = STEP_FUTEXWAIT;
    return calls[kind % STEP_KINDS][(flags & YAK_TIMED) != 0];
}

/* Whether a parked thread can go on: not, or because of what it waits for, or since its deadline
 * may pass. */
enum { YAK_CANNOT, YAK_CAN, YAK_LATE };

/* The parts of a trace. */
typedef enum yak_what {
    YAK_AT,    /* before a step: a parked thread with its next operation */
    YAK_CHOSE, /* the step: the thread, and the variant in `variants` */
    YAK_ALSO,  /* what else the step did: kind and object */
    YAK_GAVE,  /* what came of it: the error in `object`, the value in `arg` */
    YAK_HOLDS, /* at the end: who holds the mutex that a thread waits for */
    YAK_LEFT,  /* at the end: a parked thread, as in YAK_AT */
    YAK_END    /* why the run ended, in `kind` */
} yak_what;

typedef enum yak_end {
    YAK_END_NONE,
    YAK_END_DONE,
    YAK_END_DEADLOCK,
    YAK_END_STEPS, /* too many */
    YAK_END_UNFIT, /* a thread that was to go on could not */
    YAK_END_SLEPT, /* all that can go on are asleep */
    YAK_END_RACE,  /* two accesses to memory that nothing orders */
    YAK_END_DOUBT  /* it can't be decided, as `doubt` says */
} yak_end;

typedef struct yak_record {
    uint8_t what, thread, kind, flags, able, variants;
    uint16_t step; /* of YAK_AT and YAK_CHOSE, counted from 1 */
    uint32_t object;
    uint32_t arg;
} yak_record;

/* What steps touch, by its number from 1. An object has an address, or, if it is a queue, a name
 * and how often the name was given before. */
typedef struct yak_object {
    uint64_t at;
    uint32_t given;
    uint32_t room; /* of a queue: its maxmsg */
    uint8_t kind;  /* of the first step that touched it */
    char name[YAK_OBJECT_NAME];
} yak_object;

/* A thread that the rule avoids until a step touches an object; 0 is any. */
typedef struct yak_sleeper {
    uint32_t thread;
    uint32_t object;
} yak_sleeper;

typedef struct yak_explored {
    /* What is asked for. */
    uint32_t most_steps;
    bool is_last;  /* a deadline passes only if nobody else can go on */
    bool is_each;  /* an unlock and a post are steps of their own */
    bool is_begun; /* a call that waits on a queue begins by a step of its own */
    bool is_random;
    uint64_t seed;
    uint32_t
        changes; /* of priorities in a run at random, as PCT makes; 0 for any thread at any step */
    uint32_t length;     /* of a run, for the places of these changes */
    uint32_t most_polls; /* in a row and in vain before others go on */
    uint32_t spurious;   /* the most spurious wake-ups of a thread */
    uint32_t signals;    /* the most waits of a thread that a signal interrupts */
    uint32_t refusals;   /* the most allocations of a thread that are refused */
    uint32_t choices;    /* the thread, and the variant times 256; 0 leaves the step to the rule */
    uint32_t leads;
    uint32_t sleepers;
    uint16_t choice[YAK_MOST_STEPS];
    uint8_t lead[YAK_MOST_STEPS];
    yak_sleeper sleeper[YAK_MOST_SLEEPS];
    /* What the machine answers. */
    uint32_t version; /* it is there */
    pid_t child;      /* that makes the run */
    int status;       /* of the child, as waitpid has it */
    pid_t running;    /* the kernel's number of the thread that goes on */
    uint32_t unseen;  /* what the program did that is not seen */
    bool sees_memory; /* the program tells of its accesses to memory */
    bool sets_flags;  /* it made a description not block while other threads were there */
    bool gives_way;   /* a thread polled in vain, until others went on */
    bool child_calls; /* a forked child made calls on queues */
    char doubt[YAK_DOUBT];
    /* Where in the program each step of a run was asked for, and the last one of each thread, as
     * addresses to which calls return; and the names of threads. */
    bool wants_places;
    uint64_t place[YAK_MOST_STEPS][YAK_FRAMES];
    uint64_t last_place[YAK_SEATS][YAK_FRAMES];
    char thread_name[YAK_SEATS][YAK_THREAD_NAME];
    uint64_t race[2]; /* the code of the last data race: this access, and the one before */
    uint8_t race_thread[2];
    uint32_t objects;
    yak_object object[YAK_MOST_OBJECTS];
    uint32_t records;
    yak_record record[YAK_MOST_RECORDS];
} yak_explored;

#endif
