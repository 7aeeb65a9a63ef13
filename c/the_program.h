/* the_program.h: the state and the functions behind the exported calls of libyakyrombe-mqueue.
 *
 * One system of the library serves the whole program, with its forked children. Its process 1 is a
 * dispatcher: it holds a descriptor for each open description of the program, always nonblocking,
 * and makes each call on it. If a send or a receive fails with YAK_AGAIN, and the description is
 * blocking, a waiter makes it again: of the processes that are not dispatchers and have no open
 * wait, the lowest that has the queue open, or if none does, the lowest with a free descriptor,
 * which opens it. The waiter keeps the call until its wait ends. So the library decides the order
 * of messages, which wait is served, and every error. If the program has more than 16 open
 * descriptions, waiters become dispatchers, from process 32 down.
 *
 * While a queue is known to be empty, a receive is not tried by the dispatcher before it waits: the
 * library would only say that it would wait (program_finds_empty).
 *
 * A receive that waits alone is one that nobody else could be served before or behind: no other
 * call waits on its queue, and no notification is registered. Its waiter does not begin the call in
 * the library yet. The next send to the queue makes both calls, first its own and then the receive
 * of the waiter, which finds the message; and it hands the message over, so that the receiver needs
 * no lock when it wakes. Before another call waits on the queue, or somebody registers there, the
 * waiter begins the call (did_enter).
 *
 * All of this is in memory that parent and forked children share (arena.h). One lock guards it; it
 * is held during a call and never while a call waits. If a process dies inside it, the next one
 * rebuilds the system from the log (log.h).
 *
 * The rule for code under the lock:
 *   - It is no cancellation point, or cancellation is disabled. It waits for nothing that another
 *     process or thread does. checks/under_the_lock compares the functions that it calls with the
 *     list of under_the_lock.txt. That list does not know which system calls are made by syscall().
 *   - Each table has a bound, and what finds no room stays where it is: nothing is dropped.
 *   - It signals no process, and hands nothing to a thread, that it has not found alive in this
 * stay. It writes to no place of a process that the process may not have any more: who takes a
 * place does so by a compare-exchange, before it writes there.
 *   - Each instruction may be the last of its process. One store commits what a call changes, and a
 *     change of the system that no log has is made only if no other process lives.
 */
#ifndef YAKYROMBE_THE_PROGRAM_H
#define YAKYROMBE_THE_PROGRAM_H

#ifdef YAK_EXPLORED
#include "real.h"
#define REAL(name) YAK_REAL(name)
#else
#define REAL(name) name
#endif

#include "arena.h"
#include "proved.h"
#include "wait.h"

#include <errno.h>
#include <pthread.h>
#include <signal.h>
#include <stdatomic.h>
#include <stdint.h>
#include <stdio.h>
#include <sys/types.h>

enum {
    PROCESSES = 32,
    DISPATCHER = 0, /* the first dispatcher; as a waiter it means none, and overflow calls sleep
                       on its word */
    HOMES = 8,      /* the most dispatchers */
    PER_DISPATCHER = 16, /* descriptors that a process of the library holds */
    DESCRIPTIONS = HOMES * PER_DISPATCHER,
    NUMBERS = 128, /* descriptors of one operating-system process */
    OWNERS = 1024, /* operating-system processes that share the arena */
    QUEUES = 64,   /* as in the library */
    NOTICES = 16,  /* the most that a call delivers */
    LONGEST_NAME = 256,
    MOST_BYTES = 65536, /* of a message */
    /* The number of the first descriptor: far above file descriptors, so that calls on files fail
       with it. */
    FIRST = 1000,
    /* The bytes of an entry in a stored journal, without its name or message, and the additional
       bytes of one with a deadline, limits or the value of a registration. */
    ENTRY_BYTES = 64,
    MORE_BYTES = 56,
    /* The error stream says when a stored journal has taken this much: 1 GB. */
    LARGE = 1000000000
};

/* ---- the tables that the log determines: they are rebuilt with the system ---- */

typedef struct queue {
    bool is_there; /* it has its name, or a process of the library holds it */
    bool is_bound; /* it has its name */
    int64_t maxmsg;
    int64_t msgsize;
    size_t len;
    uint8_t name[LONGEST_NAME];
} queue;

/* An open description: number i is descriptor i % 16 of dispatcher i / 16. */
typedef struct description {
    unsigned made; /* the open of the program that made it, counted from 1; 0 if it is unused */
    uint8_t queue;
    uint8_t access;
    int64_t msgsize; /* of the queue */
} description;

/* A registration, indexed by the description that it was made with. Its function and its attributes
 * are in the process that made it (notices.c). */
typedef struct registration {
    bool is_set;
    uint16_t owner;
    unsigned life; /* of the owner */
    int how;
    int signo;
    union sigval value;
    uint64_t serial;
} registration;

/* The open wait of a waiter. The bytes of a send, or those of a receive that has ended, are kept in
 * ARENA_KEPT. */
typedef struct pending {
    bool is_open;
    bool is_send;
    bool is_timed;
    bool has_ended; /* the library does not have the wait any more, and its result is kept here */
    uint8_t queue;
    uint16_t owner;
    uint32_t d;     /* the waiter's descriptor */
    uint64_t order; /* its number in the order in which waits began */
    uint32_t prio;
    size_t len;
    yak_moment until, now;
    yak_moment since; /* for reports: when it began, in which thread, on which descriptor */
    pid_t tid;
    int number;
    yak_message message;
} pending;

/* What each call needs stands together, before the rest. */
typedef struct tables {
    uint32_t waiters; /* the processes that are not dispatchers, by bits */
    uint32_t idle;    /* the waiters without an open wait */
    uint32_t alone;   /* those with a receive that waits alone */
    uint32_t ended;   /* those with an open wait that has ended */
    uint32_t registered;
    uint32_t holders[QUEUES];  /* the waiters that have a queue open, by bits */
    uint32_t waits_on[QUEUES]; /* those with an open wait on it that has not ended */
    uint8_t replicas[PROCESSES]
                    [PER_DISPATCHER]; /* by a waiter's descriptor: its queue plus 1, or 0 */
    description descriptions[DESCRIPTIONS];
    pending waits[PROCESSES];
    queue queues[QUEUES];
    registration registrations[DESCRIPTIONS];
} tables;

/* ---- messages that are handed over ---- */

enum { HAND_EMPTY, HAND_FULL, HAND_TAKEN, HAND_STATES };

/* How the thread of a wait that has ended takes the message without the lock: the bytes are in
 * ARENA_KEPT. The state is one of those, with the order of the wait. Only that thread changes it
 * from full to taken; what the others change they change inside the lock. */
typedef struct hand {
    _Alignas(64) _Atomic uint64_t state;
    yak_message message;
} hand;

static inline uint64_t program_hand_state(uint64_t order, unsigned state)
{
    return order * HAND_STATES + state;
}

/* ---- operating-system processes ---- */

/* A place is taken for a child before its fork. The child then joins. What is gone is dead, and may
 * still hold something. */
enum { OWNER_FREE, OWNER_COMING, OWNER_JOINING, OWNER_LIVE, OWNER_GONE };

typedef struct owner {
    _Atomic uint32_t state;
    unsigned life;  /* how often the slot was taken */
    pid_t pid;      /* while it is coming, that of its parent */
    pid_t holder;   /* the thread that holds `alive` */
    uint64_t start; /* when the operating system started the process with that pid */
    /* For a child that is coming: when its parent forked, in milliseconds; and twice the time at
       which the fork was over, so that the child exists or never will. Before that an odd number
       which no other fork has. */
    uint64_t forked;
    _Atomic uint64_t is_made;
    /* Held by a thread of the process, mostly its first. The kernel marks it when that thread ends,
       and at exec. */
    pthread_mutex_t alive;
    uint8_t numbers[NUMBERS]; /* a description plus 1, or 0 */
    uint32_t overflow;
    uint32_t own_threads;        /* threads of the library */
    _Atomic uint32_t futex_word; /* on which its notifier sleeps */
    uint32_t polls;              /* how many descriptors for poll it has */
    /* The descriptions with a notice that its notifier thread has to take, by bits. */
    uint64_t due[DESCRIPTIONS / 64];
} owner;

/* A send or a receive. */
typedef struct request {
    const char *call;
    int number; /* the descriptor that the program passed */
    bool is_send;
    bool is_timed;
    bool is_reply;    /* it is a receive, and the thread's last send or receive was a send */
    unsigned cancels; /* program_cancels before the call tested for a cancellation */
    yak_moment until; /* program_never if it is not timed */
    uint8_t *bytes;
    size_t len;
    uint32_t prio;
} request;

/* The result of a wait that another call of its thread has ended. It is kept for the call that
 * waited, unless a jump is known to have left that call. */
typedef struct ending {
    unsigned number; /* of the wait; 0 if there is no such result */
    uint32_t answer; /* YAK_TIMEDOUT if the wait was withdrawn */
    yak_message message;
    uint8_t *bytes;    /* what a receive got */
    const void *frame; /* a stack address inside the call */
    int cancelling;    /* the cancelability state of the thread outside the call */
} ending;

/* The wait of a thread, which has at most one. It is thread-local, because on the stack it would be
 * lost if a handler jumped out of the call. */
typedef struct waiting {
    /* Of the wait, counted from 1 in the whole program; 0 if none is open. One that took its
       message without the lock is still in the list then. */
    _Atomic unsigned number;
    bool is_listed;
    bool ends_with_thread; /* a destructor is set for it */
    request asked;
    pthread_t thread;
    pid_t tid; /* the kernel's id of its thread */
    uint32_t d;
    yak_moment since;
    bool is_cancelled;
    unsigned process; /* DISPATCHER if no waiter was left */
    const void *frame;
    int cancelling;             /* as in an ending */
    uint8_t name[LONGEST_NAME]; /* of its queue, if no waiter has it */
    size_t len;
    ending ended;
    struct waiting *next;
} waiting;

/* What all operating-system processes of the program share. */
typedef struct program {
    pthread_mutex_t lock; /* only its memory is used: lock.c */
    int starving;         /* the number of a thread that has waited for the lock for long, or 0 */
    arena arena;
    unsigned long inode; /* of the arena, from the first fork on; 0 if it is not known */
    bool is_ready;
    bool is_stored;         /* the journal is stored */
    bool is_logged;         /* calls are logged */
    _Atomic bool is_shared; /* other processes may sleep on the words of the waits */
    bool is_torn;           /* the system has to be rebuilt before the next call */
    bool is_lost;           /* the system can't be rebuilt */
    int64_t until_large; /* how many bytes the journal may still take; below 0 the error stream has
                            to say that it is large. A journal that is not stored never is */
    unsigned opens;
    unsigned waited; /* how many waits were started */
    unsigned closes; /* how often a description was closed */
    uint64_t serials;
    uint32_t overflow; /* how many calls wait without a waiter */
    uint32_t polls;    /* how many descriptors for poll there are, of all processes */
    /* The system is at rest: who dies inside the lock now has changed nothing of it. */
    bool is_at_rest;
    unsigned log;      /* which of the two logs is in use */
    char *log_from[2]; /* its first record, which an image may precede */
    char *log_next[2];
    char *aside;      /* the end of what is laid aside in the other log; null if nothing is */
    size_t log_limit; /* in bytes: at this size a checkpoint is made */
    _Atomic uint32_t news[PROCESSES]; /* how often there was news for the wait of a waiter; that of
                                         the dispatcher is for overflow calls */
    unsigned seen_closes[PROCESSES];  /* `closes` when a waiter last released what nobody holds */
    /* Whether the library has said that a queue is empty, and no message has entered it since.
       Never if the journal is stored, since that has an entry for each call. */
    bool is_empty[QUEUES];
    bool nonblock[DESCRIPTIONS];
    yak_process processes[PROCESSES];
    hand hands[PROCESSES];
    tables tables;
    unsigned owners_used; /* slots from here on are free */
    owner owners[OWNERS];
    /* The names of the queues for the reports, also of unlinked ones. */
    size_t lens[QUEUES];
    uint8_t names[QUEUES][LONGEST_NAME];
} program;

/* What this process knows about itself, in a page that a fork wipes. program_after_fork writes it
 * again; a child of _Fork or clone, which do not call that, can't use the queues. */
typedef struct here {
    owner *me;     /* null if it can't use the queues */
    unsigned seen; /* the openings of the arena that it has followed; 0 before its first call */
} here;

/* Visible only inside the library, so that no GOT is needed to reach them. */
#pragma GCC visibility push(hidden)

/* Where a thread is, for a handler that interrupts it. */
enum { OUTSIDE, INSIDE, WAITING };

/* What a thread knows of itself. */
typedef struct own_thread {
    volatile int place;
    /* Its number, 0 before its first call; and the place where the kernel finds, if the thread
       dies, which lock it held or was acquiring. */
    volatile int number;
    void *volatile *pending;
    bool has_sent; /* its last send or receive was a send */
} own_thread;

extern program *program_at;
#define the_program (*program_at)
extern here *program_here;
/* Whether to tell ThreadSanitizer about the lock. */
extern bool program_is_watched;
extern _Thread_local own_thread program_thread;
/* The wait of this thread, and those of this process. */
extern _Thread_local waiting program_own_wait;
extern waiting *program_waits;
/* How often this process has called pthread_cancel. */
extern _Atomic unsigned program_cancels;

/* The word on which the wait of a process of the library sleeps. Until the first fork it is private
 * to the operating-system process, which is faster in the kernel. */
static inline yak_word_ program_news(unsigned process)
{
    const yak_word_ news = {
        .at = (uint32_t *)&the_program.news[process],
        .is_shared = atomic_load_explicit(&the_program.is_shared, memory_order_relaxed),
    };
    return news;
}

static inline unsigned program_owner_number(void)
{
    return (unsigned)(program_here->me - the_program.owners);
}

/* The last moment, used as the deadline of a call without one. */
static const yak_moment program_never = {.sec = INT64_MAX, .nsec = 999999999};

static inline bool program_is_before(const yak_moment *one, const yak_moment *other)
{
    return one->sec != other->sec ? one->sec < other->sec : one->nsec < other->nsec;
}

/* The part of a registration that only its process can use. */
typedef struct own_part {
    uint64_t serial; /* of the registration; 0 if there is none */
    union sigval value;
    void (*call)(union sigval value); /* of SIGEV_THREAD */
    bool has_attributes;
    pthread_attr_t attributes;
} own_part;

/* The notices that a call has caused, to be delivered. */
typedef struct notice {
    registration it;
    own_part part;
} notice;

typedef struct notices {
    unsigned count;
    notice them[NOTICES];
} notices;

/* ---- the lock (lock.c) ---- */

/* Finds the thread's number, and the place for the kernel. */
void program_meet_thread(void);
/* Acquires the lock after the first attempt failed: 0, or ENOTRECOVERABLE or ENOMEM without the
 * lock. */
int program_lock_slowly(void);
/* The rest of program_unlock, if other threads sleep. */
void program_wake_next(void);
/* Releases the lock and wakes the threads whose waits were answered. If the process is killed in
 * this, it has woken them, or is known to have died inside the lock. */
void program_leave_waking(uint32_t answered);
/* Whether this thread holds the lock. */
bool program_holds_lock(void);
void program_tell_locked(void);
/* Sets the lock's word free, and wakes a thread that sleeps for it. ThreadSanitizer is told. */
void program_unlock_watched(void);
void program_tell_forked(bool is_inside);
/* Makes the system, at the first call: 0, or ENOMEM with the lock released. */
int program_first(void);

#define PROGRAM_WORD (&the_program.lock.__data.__lock)
#define PROGRAM_NODE ((void *)&the_program.lock.__data.__list.__next)

static inline int program_lock(void)
{
    int nobody = 0;
    program_thread.place = INSIDE;
    if (__builtin_expect(program_thread.number == 0, 0))
        program_meet_thread();
    *program_thread.pending = PROGRAM_NODE;
    if (__builtin_expect(!__atomic_compare_exchange_n(PROGRAM_WORD, &nobody, program_thread.number,
                                                      false, __ATOMIC_ACQUIRE, __ATOMIC_RELAXED),
                         0))
        return program_lock_slowly();
    if (__builtin_expect(program_is_watched, 0))
        program_tell_locked();
    return 0;
}

static inline void program_unlock(int place)
{
    if (__builtin_expect(program_is_watched, 0))
        program_unlock_watched();
    else if (__builtin_expect(__atomic_exchange_n(PROGRAM_WORD, 0, __ATOMIC_RELEASE) < 0, 0))
        program_wake_next();
    *program_thread.pending = 0;
    program_thread.place = place;
}

static inline void program_leave(void)
{
    program_unlock(OUTSIDE);
}

/* Acquires the lock in a process that can't use the queues, in a handler, or after a jump out of a
 * wait. Returns 0; or ENOSYS if the process can't use the queues, which the error stream says once;
 * EDEADLK in a handler that interrupted another call inside the lock; or ENOMEM. A wait of this
 * thread is ended first: the call that began it finds the result, unless a handler has jumped out
 * of that call. */
int program_enter_apart(void);
/* The work before a call, inside the lock: makes the system at the first call, opens the memory
 * that others have opened, and makes checkpoints. 0, or ENOMEM or ENOTRECOVERABLE with the lock
 * released.
 */
int program_attend(void);

/* Acquires the lock, and does that work if there is some. */
static inline int program_come_in(void)
{
    const int error = program_lock();
    if (error != 0)
        return error;
    return __builtin_expect(program_here->seen != the_program.arena.openings, 0) ? program_attend()
                                                                                 : 0;
}

/* Acquires the program's lock: 0, or one of those errors. From here to program_leave, no call is a
 * cancellation point, or cancellation is disabled. */
static inline int program_enter(void)
{
    if (program_thread.place != OUTSIDE || program_here->me == 0)
        return program_enter_apart();
    return program_come_in();
}

/* The same for a call that is not on queues: a wait that its handler has interrupted stays open.
 * The place has to be passed to program_unlock. */
int program_enter_aside(int *place);

/* Writes a line to the error stream, outside the lock; the thread can't be cancelled there. */
void program_say(const char *line);
/* Writes what this process does, if YAK_VERBOSE is 1. */
void program_tell(const char *what);

/* ---- calls of the library ---- */

/* Makes a call of a process that leaves no entry. Inside the program's lock, nothing blocks it. */
#define READ(answer, call) \
    do                     \
        (answer) = (call); \
    while ((answer) == YAK_RETRY)

/* Counts the bytes that a call adds to the journal; inside the lock. */
static inline void program_count(size_t bytes)
{
    the_program.until_large -= (int64_t)bytes;
}

/* Makes a call of a process, which leaves an entry. */
#define MADE(answer, call)          \
    do {                            \
        READ(answer, call);         \
        program_count(ENTRY_BYTES); \
    } while (0)

/* The description that this process has under a number; DESCRIPTIONS or more if it has none. */
static inline uint32_t program_number(int mqdes)
{
    const uint32_t number = (uint32_t)mqdes - FIRST;
    return number < NUMBERS ? program_here->me->numbers[number] - 1u : (uint32_t)DESCRIPTIONS;
}

/* The dispatcher that holds a description, and its descriptor there; if there is no such
 * description, the first dispatcher and a descriptor that it does not have. */
static inline unsigned program_dispatcher_of(uint32_t d)
{
    return d < PER_DISPATCHER || d >= DESCRIPTIONS ? (unsigned)DISPATCHER
                                                   : PROCESSES - d / PER_DISPATCHER;
}

static inline uint32_t program_there(uint32_t d)
{
    return d < DESCRIPTIONS ? d % PER_DISPATCHER : (uint32_t)PER_DISPATCHER;
}

/* The description that a dispatcher holds by a descriptor. */
static inline uint32_t program_description(unsigned dispatcher, uint32_t d)
{
    return (dispatcher == DISPATCHER ? 0 : PROCESSES - dispatcher) * PER_DISPATCHER + d;
}

static inline bool program_is_waiter(unsigned process)
{
    return (the_program.tables.waiters & 1u << process) != 0;
}

/* Whether two descriptions refer to the same queue. */
static inline bool program_is_same_queue(uint32_t one, uint32_t other)
{
    const description *first = &the_program.tables.descriptions[one],
                      *second = &the_program.tables.descriptions[other];
    return first->made != 0 && second->made != 0 && first->queue == second->queue;
}

/* Whether the library is sure to answer YAK_AGAIN to a receive of a dispatcher: the queue is empty,
 * the access is right, and the buffer is long enough. */
static inline bool program_finds_empty(uint32_t d, size_t len)
{
    const description *by;
    if (d >= DESCRIPTIONS)
        return false;
    by = &the_program.tables.descriptions[d];
    return the_program.is_empty[by->queue] && by->access != 1 && len >= (size_t)by->msgsize;
}

/* A send or a receive by a dispatcher, which never waits: YAK_AGAIN if it would. */
static inline __attribute__((always_inline)) uint32_t program_try(bool is_send, uint32_t d,
                                                                  uint8_t *bytes, size_t len,
                                                                  uint32_t prio,
                                                                  yak_message *message)
{
    yak_process *dispatcher = &the_program.processes[program_dispatcher_of(d)];
    const uint32_t there = program_there(d);
    uint32_t answer;
    if (is_send)
        MADE(answer, yak_proved_start_send(dispatcher, there, bytes, len, prio));
    else if (program_finds_empty(d, len))
        return YAK_AGAIN;
    else
        MADE(answer, yak_proved_start_receive(dispatcher, there, bytes, len, message));
    program_count(is_send && answer == YAK_DONE ? len : 0);
    return answer;
}

/* Records a send or a receive that the dispatcher has done. If a receive waits alone for what was
 * sent, that is done too; then it returns the waiter, as a bit, which is to be woken; else 0. */
uint32_t program_record(uint32_t d, const request *asked);
/* An idle waiter that has the queue of this description open too, and its descriptor there; or
 * DISPATCHER if there is none. */
unsigned program_choose(uint32_t d, uint32_t *there);
/* Makes a waiter whose wait has ended close the queues that nobody has open any more. */
void program_release(unsigned process);
/* Closes the waits of these waiters whose threads have taken their messages without the lock. */
void program_close_taken(uint32_t among);
/* Makes all idle waiters open the queue with this name, before it is unlinked. */
void program_replicate_all(const uint8_t *name, size_t len);
/* Makes a waiter a dispatcher: false if it has an open wait, or keeps a descriptor. */
bool program_take_dispatcher(unsigned process);
/* Closes a description that nobody holds any more, and the descriptors of waiters for it. */
uint32_t program_close_description(uint32_t d);
/* The kept bytes of the open wait of a waiter; null if an allocation failed. The second does not
 * allocate. */
uint8_t *program_kept(unsigned process);
static inline uint8_t *program_kept_from(unsigned process)
{
    return (uint8_t *)the_program.arena.parts[ARENA_KEPT].from + (size_t)process * MOST_BYTES;
}

/* program_note_answers records, inside the lock, whose waits the last call of a process has
 * answered; after the lock is released, the next function wakes them. */
uint32_t program_note_answers(unsigned process);
void program_wake_them(uint32_t answered);

/* How a send or a receive ended. */
typedef enum fate {
    ANSWERED,    /* the library has answered it */
    INTERRUPTED, /* a handler interrupted its wait: EINTR */
    CANCELLED,
    WITHDRAWN, /* a call of a handler withdrew its wait: it starts again */
    /* With these the lock is not held: */
    LOST,    /* its thread is now in a child, which a handler forked: EINTR there */
    ANEW,    /* the same if the handler restarts calls: the call starts again there */
    REFUSED, /* `error` says why */
    HANDED   /* it has its message */
} fate;

typedef struct outcome {
    fate fate;
    union {
        uint32_t answer; /* of the library, if ANSWERED */
        int error;       /* if REFUSED */
    };
} outcome;

/* Makes a call that would make the dispatcher wait, by a waiter, which it writes to `process`, and
 * waits until it is answered. The lock is held before it, not while it sleeps, and after it except
 * as `fate` says. After a wait cancellation is disabled, and its earlier state is written. */
outcome program_wait(unsigned *process, uint32_t d, const request *asked, yak_message *message,
                     int *cancelling);
/* Ends the open wait of this thread, so that the thread can make another call; inside the lock.
 * ENOMEM if it stays open. */
int program_end_own_wait(void);
/* Where a cancellation may act that leaves frames of the library: AddressSanitizer is told. */
void program_test_cancel(void);
/* Ends the open wait of a thread that ends. */
void program_end_with_thread(void *unused);

/* The registration of mq_notify on a description. A notice of an earlier one that this process has
 * not taken yet is added to those that are to be delivered. */
int program_register(uint32_t d, const struct sigevent *event, uint32_t *answer, notices *found);
/* Ends the registration that a process made by a description that it closes. */
void program_unregister(uint32_t d, unsigned owner);
/* Takes the notices of the queue of a description, or with DESCRIPTIONS of all queues. Those for
 * other processes are delivered inside the lock, so that the death of this process loses none;
 * those for this one by program_deliver, outside the lock. */
void program_collect_notices(uint32_t d, notices *found);
void program_deliver(notices *found);
/* Starts the thread of the library that waits for what other processes send. */
void program_begin_notifier(void);
/* Whether this process has registrations with SIGEV_THREAD. */
bool program_has_thread_notices(void);
/* Forgets all of that, in a child. */
void program_forget_notices(void);
/* Wakes the thread of the library in another process. */
void program_ring(owner *to);

/* ---- descriptors for poll (polls.c), all inside the lock ---- */

/* Raises or lowers those of the queue of a description, or with DESCRIPTIONS of all queues: first
 * those of this process, then those of all processes. */
void program_renew_polls(uint32_t d);
void program_tell_polls(uint32_t d);
/* Whether this process has one. A child has none at first. */
bool program_has_polls(void);
void program_forget_polls(void);
/* Closes that of a description, if there is one. */
void program_drop_poll(uint32_t d);

/* ---- operating-system processes (family.c) ---- */

/* Releases what dead processes held; inside the lock. A child that has not come yet is looked for
 * only some time after its fork, or with program_sweep_at_once now. */
void program_sweep(void);
void program_sweep_at_once(void);
/* Ends the waits of threads that have died, and returns the messages that were handed to them to
 * their queues. Inside the lock, before a call; one load for each open wait if nobody died. */
void program_end_dead_waits(void);
/* Whether no other process shares the queues; and whether the others are dead, which are not
 * released yet. */
bool program_is_alone(void);
bool program_is_left_alone(void);
/* Whether the processes of this program share their queues: no seed decides, and YAK_FORK is not
 * new. */
bool program_shares(void);
/* If YAK_FORK is neither new nor shared, says so on the error stream. */
void program_read_fork_word(void);
/* Whether a process holds this description. */
bool program_is_held(uint32_t d);
/* Completes what a process that died inside the lock may have left undone. */
void program_mend(void);
/* How many forks lead from the first process of the program to this one. */
unsigned program_forks(void);
/* The rest of releasing the lock in a child that a handler forked inside a call: it returns to the
 * shared memory. */
extern bool program_is_apart;
void program_come_to_family(void);
/* Whether this process writes the journal at its end: the first one, and the last. */
bool program_keeps_journal(void);

/* The file that the environment asks to write the journal to, or null. */
const char *program_journal_path(void);
/* Writes the journal to a file; inside the lock. */
void program_write_journal(void *with, FILE *to);
/* The first function returns, inside the lock, whether to say now that the journal is large; the
 * second says so on the error stream, outside the lock. */
bool program_is_to_warn(void);
void program_warn(void);
/* Starts the reports that the environment asks for. */
void program_begin_reports(void);

#pragma GCC visibility pop

#endif
