/* machine.h: the machine, which runs the threads of a program one at a time: by a seed, or by a
 * schedule that yak-explore asks for.
 *
 * A thread that comes to an operation that others can see parks in front of it. The thread that
 * parks chooses who goes on: by the choices that are asked for, and then by a rule, or at random.
 * What was chosen, what all parked threads were about to do, and what the step did, is the trace
 * (explore.h). Up to the first pthread_create a thread is alone; of what it does until then only
 * the calls on queues are steps, since the trace is to show what the queues hold.
 *
 * libyakyrombe-seed and libyakyrombe-explore have the machine with the calls of <mqueue.h>
 * (explored_calls.c), and libyakyrombe-journal.a has it with those by handles (seed_handles.c). */
#ifndef YAKYROMBE_MACHINE_H
#define YAKYROMBE_MACHINE_H

#include "explore.h"
#include "real.h"
#include "simulation.h"
#include "wait.h"

#include <errno.h>
#include <pthread.h>
#include <semaphore.h>
#include <stdio.h>
#include <sys/types.h>
#include <time.h>

enum {
    MACHINE_SEATS = 1024, /* of threads that have not ended, by a seed; by a schedule YAK_SEATS */
    MACHINE_NONE = MACHINE_SEATS, /* no seat */
    MACHINE_TOUCHED = 64,
    MACHINE_ASLEEP = 8
};

/* How a wait may end by itself, if that is asked for: a spurious wake-up, or a signal. */
typedef enum yak_odd { ODD_NONE, ODD_SPURIOUS, ODD_SIGNAL } yak_odd;

/* What a thread is about to do. */
typedef struct machine_op {
    yak_kind kind;
    unsigned flags;
    uint32_t object;
    uint32_t arg;
    struct timespec until;
    const void *at;         /* the mutex, semaphore or other object */
    pthread_mutex_t *mutex; /* of a wait for a condition */
    bool (*goes_on)(void *with);
    void *with;
    yak_odd odd;          /* how it may end though what it waits for has not come */
    const bool *nonblock; /* the flag of the description of a send or a receive; null if none */
    const char *what;     /* what a run by a seed says of it; null for the name of its kind */
} machine_op;

typedef enum seat_state { SEAT_FREE, SEAT_PARKED, SEAT_RUNS, SEAT_OUT } seat_state;

/* A thread; its number is that of its seat, from 1. By a seed the seat of one that has ended is
 * given to another. */
typedef struct seat {
    seat_state state;
    pthread_t thread;
    pid_t tid;
    bool is_joined;
    bool is_cancelled;
    bool is_late;                  /* its deadline has passed */
    bool is_odd;                   /* its wait has ended by itself */
    unsigned told;                 /* by which step its wait was ended; 0 if none has */
    unsigned variant;              /* of its step */
    unsigned ran;                  /* at which step it ran last */
    unsigned reads;                /* of the clock */
    uint32_t odds[ODD_SIGNAL + 1]; /* how often its waits have ended by themselves */
    unsigned refused;              /* how many of its allocations were */
    unsigned vain;                 /* how often it polled in vain since another thread went on */
    unsigned before;               /* the same before its last step */
    uint32_t rank;                 /* by which a run at random prefers it */
    uint64_t frames[YAK_FRAMES];   /* where its operation was asked for */
    unsigned asleep;               /* how many objects wake it, if it sleeps */
    uint32_t wakes[MACHINE_ASLEEP];
    machine_op op;
    uint32_t go; /* a futex word */
} seat;

/* A queue, by its place in the program's tables. */
typedef struct machine_queue {
    uint32_t object;
    int64_t room, msgsize, current;
} machine_queue;

typedef struct machine {
    bool is_on;       /* it decides, and time is simulated */
    const char *seed; /* YAK_SEED, by which it decides, or null */
    bool is_inner;    /* a part of the program is explored, and its other threads are not known */
    bool sees_memory; /* the program tells of its accesses to memory (explored_memory.c) */
    bool chooses;     /* there has been a second thread */
    bool is_noted;    /* the step that runs is in the trace */
    bool is_direct;
    bool signals; /* the program has sent itself a signal */
    pid_t process;
    int link; /* to yak-explore */
    yak_explored *shared;
    unsigned used, last, leads;
    unsigned steps, first; /* and those before there was a choice */
    unsigned ranks;        /* that were given to threads */
    uint64_t random;
    struct timespec now;
    unsigned touches; /* by the step that runs */
    uint32_t touched[MACHINE_TOUCHED];
    bool touches_all, touches_names;
    void (*write)(void *with, FILE *to);
    void *with;
    int threads; /* the file for the threads of the journal's entries, or 0 */
    uint64_t entries;
    pthread_key_t key;
    seat seats[MACHINE_SEATS];
} machine;

#pragma GCC visibility push(hidden)

extern machine the_machine;

/* ---- what the names of the system do (explored_threads.c, explored_time.c) ---- */

/* Whether the machine decides about this thread. */
bool machine_decides(void);
/* The seat of this thread, and its number. */
seat *machine_seat(void);
unsigned machine_number(void);
/* The number of an object at an address; 0 if no trace is kept. */
uint32_t machine_object(const void *at, yak_kind kind);
/* An operation on an object. A deadline may be null. */
machine_op machine_op_on(yak_kind kind, const void *at, const struct timespec *until);
/* Parks in front of an operation until it is chosen: false if its deadline has passed. */
bool machine_act(const machine_op *op);
/* Whether the wait that this thread made last has ended by itself. */
bool machine_was_odd(void);
/* Parks, and says what the program is told of a deadline that has passed: 0, or an error. */
int machine_acts(yak_kind kind, const void *at, const struct timespec *until);
/* Parks until `goes_on` is true: false if its deadline, which may be null, came first. `what` says
 * it in words, or is null. */
bool machine_waits(bool (*goes_on)(void *with), void *with, const struct timespec *until,
                   const char *what);
/* What the step that runs did too, and what came of it. */
void machine_also(yak_kind kind, uint32_t object);
void machine_gave(int error, uint32_t value);
/* Ends waits of threads for an object: of so many at the most, of one by the variant of the step.
 * How many. */
unsigned machine_tell(const void *at, unsigned most);
/* The number of the clock. */
uint32_t machine_clock_object(void);

/* A new thread takes a seat, null if there is none, and waits there for its turn. The first thread
 * does not wait. */
seat *machine_add_seat(void);
void machine_drop_seat(seat *it);
void machine_sit_down(seat *it, bool is_first);
/* A thread has ended. */
void machine_leave(void);
/* A thread is cancelled: it goes on. */
void machine_cancels(pthread_t thread);
/* The program ends by this step. */
void machine_exits(int status);
/* The step changed nothing, though one of its kind can. */
void machine_was_vain(void);
/* The program does what is not seen. */
void machine_misses(unsigned what);
/* The simulated time, and a moment so much later. */
struct timespec machine_later(const struct timespec *time);
/* Begins the choices. If yak-explore asks for runs, this returns in a child for each. */
void machine_begin_choices(void);
void machine_quit(int status) __attribute__((noreturn));

/* What a call that fails with this error returns. */
static inline int machine_fails(int error)
{
    errno = error;
    return -1;
}

/* ---- what the machine wants of the calls on queues (explored_calls.c, seed_handles.c) ---- */

extern const yak_turns_ machine_turns;
/* How many entries the stored journal has, of which so many were there before. */
uint64_t machine_entries(uint64_t before);
/* This is a child that makes a run. */
void machine_meet_child(void);
/* Allocations of the program may be refused from now on; only libyakyrombe-explore has this. */
#pragma weak machine_begin_refusals
void machine_begin_refusals(void);

/* ---- for the crate for Rust, which is another library (machine_server.c, explored_calls.c) ----
 */

#pragma GCC visibility push(default)

/* The calling thread is the first of each run. If yak-explore asks for runs, this returns in a
 * child for each. False if the machine was not to wait for this. */
bool yak_explored_begin(void);
bool yak_explored_decides(void);
void yak_explored_queue(machine_queue *it, const uint8_t *name, size_t len, int64_t room);
void yak_explored_call(const char *word, const machine_queue *queue);
void yak_explored_transfer(bool is_send, machine_queue *queue, uint32_t prio, uint32_t flags,
                           const struct timespec *until);
void yak_explored_also(const char *word, const machine_queue *queue);
void yak_explored_gave(int error, uint32_t value);
void yak_explored_moved(bool is_send, machine_queue *queue, int error, const uint8_t *bytes,
                        size_t len);

#pragma GCC visibility pop

/* ---- between the files of the machine ---- */

/* Writes the journal where the environment asks for it. Nobody else runs any more. */
void machine_keep_journal(void);
/* Writes which entries this thread has made since somebody did this, by its last step. */
void machine_note_entries(void);

/* ---- the choice (machine_choice.c) ---- */

/* What no other thread can see is done at once, and is no choice. */
bool machine_is_local(yak_kind kind);
/* Whether a parked thread waits to be woken at an object. */
bool machine_waits_for(const seat *it, const void *at);
/* In how many ways a thread can make its step. */
unsigned machine_variants(const seat *of);
/* The rank of a new thread in a run at random. */
uint32_t machine_new_rank(void);
/* Wakes sleepers by what the step before has touched. */
void machine_wake_sleepers(void);
/* Who can go on, by seats. If one has a step to make at once, it is that one alone, which is
 * returned; else MACHINE_NONE. */
unsigned machine_look(uint8_t *able);
/* How many seats have this ability. */
unsigned machine_count(const uint8_t *able, unsigned ability);
/* The seat that goes on, and the variant of its step. */
unsigned machine_decide(const uint8_t *able, unsigned local, unsigned *variant);

/* ---- the ability of threads, and the end of a run ---- */

/* Whether a parked thread can go on, as YAK_CANNOT and its kin say (machine_able.c); whether a
 * cancellation lets it; and the kernel's number of the thread that holds a mutex, 0 if none does.
 */
unsigned machine_ability(const seat *it);
bool machine_is_cancelled_in(const seat *it);
pid_t machine_holder(const pthread_mutex_t *mutex);

/* Why it is not certain that no thread can go on, or null if it is (doubt.c). */
const char *machine_doubt(void);

/* Whether the wait of a thread may end by itself, now. */
bool machine_may_be_odd(const seat *it);
/* Whether there is what a send or a receive waits for. */
bool machine_can_move(const machine_op *op);
/* Whether there are other threads that have not ended. */
bool machine_has_others(void);
/* Whether what a parked thread is about to do does not block. */
bool machine_is_try(const seat *it);

/* Ends the run, which can't be decided. */
void machine_stop(const char *why) __attribute__((noreturn));
void machine_end_run(yak_end why, int status) __attribute__((noreturn));

#pragma GCC visibility pop

#endif
