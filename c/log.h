/* log.h: the log of the calls that changed the state of the library, in order.
 *
 * One store commits the record of a call; if its process dies before that, the call was never made.
 * The system is rebuilt from the log by the same calls in the same order, and so are the tables
 * that the log determines. The log is kept from the first fork on, and from the first call on if
 * the journal is stored. If the journal is not stored, a checkpoint begins the other log with an
 * image of the live state (checkpoint.c), so the size of the log is bounded. */
#ifndef YAKYROMBE_LOG_H
#define YAKYROMBE_LOG_H

#include "the_program.h"

#pragma GCC visibility push(hidden)

enum {
    DID_OPEN = 1,
    DID_CLOSE,
    DID_UNLINK,
    DID_NOTIFY,
    DID_NEXT_NOTICE,
    DID_SEND,
    DID_RECEIVE,
    DID_START,
    DID_COLLECT,
    DID_END,
    DID_ALONE,  /* a receive begins to wait alone */
    DID_ENTER,  /* the library begins such a wait */
    DID_KEEP,   /* a wait of a dead thread has ended, and its message is kept */
    DID_RETURN, /* it goes back to its queue */
    DID_HAND    /* a send, and the receive that waited alone; behind the record is its waiter */
};

/* The data of its kind follow, and the bytes of a name or a message. */
typedef struct record {
    uint32_t size; /* with what follows, a multiple of 8 */
    uint8_t what;
    uint8_t process;
    uint8_t d;
    bool is_on;
    uint32_t prio;
    uint32_t len; /* of the bytes; for a receive, of its buffer */
} record;

/* What a descriptor is opened for. */
enum { FOR_DESCRIPTION, FOR_REPLICA };

/* The data of an open. */
typedef struct opened {
    yak_opening opening;
    int64_t maxmsg, msgsize; /* of the queue, if it creates one */
    unsigned made;
    uint8_t queue;
    uint8_t whose;
} opened;

/* The calls that change the state. `process` is the index of a process of the library. */
uint32_t did_open(unsigned process, opened *it, const uint8_t *name, size_t len, uint32_t *d);
uint32_t did_close(unsigned process, uint32_t d);
uint32_t did_unlink(unsigned process, const uint8_t *name, size_t len);
uint32_t did_notify(unsigned process, uint32_t d, bool registers, uint64_t value,
                    const registration *with);
uint32_t did_start(unsigned process, pending *it, const request *asked, yak_message *message);
uint32_t did_collect(unsigned process, uint8_t *buf, size_t len, yak_message *message);
uint32_t did_end(unsigned process, uint8_t *buf, size_t len, yak_message *message,
                 const yak_moment *now);
/* Begins a receive that waits alone: YAK_WAITS, or YAK_NOMEMORY. */
uint32_t did_wait_alone(unsigned process, pending *it);
/* Lets the library begin the receive that waits alone on a queue, if there is one: YAK_DONE, or an
 * error, and then the receive stays alone. */
uint32_t did_enter(unsigned slot);
/* Hands the message that a dispatcher has just sent to the receive that waits alone on its queue,
 * and records both calls. Returns the waiter, which has to be woken; or DISPATCHER if no receive
 * waits so. */
unsigned did_hand(uint32_t d, const uint8_t *bytes, size_t len, uint32_t prio);
/* Closes the wait of a waiter if its thread has taken the message that was handed to it. */
bool did_take(unsigned process);
/* Ends the wait of a dead thread. If it was answered with a message that the thread has not taken,
 * this goes back to its place in the queue, and `is_returned` is set. False, and nothing is
 * changed, if the queue has no room for it, or memory is refused. */
bool did_return(unsigned process, bool *is_returned);
/* Whether the queue of a wait has room for a message that goes back (returns.c), and whether it can
 * go in front of those of its priority. Then how it is sent. */
bool log_has_room(unsigned process, bool *is_in_front);
uint32_t log_send_back(unsigned process, bool is_in_front);
/* Takes the next notice of a dispatcher. log_take_notice commits it. */
uint32_t did_next_notice(unsigned process, uint64_t *value);
void log_take_notice(unsigned process, uint32_t d);

/* Records a send or a receive of a dispatcher that is done. */
void log_message(bool is_send, uint32_t d, const uint8_t *bytes, size_t len, uint32_t prio);

/* Whether a queue exists and has this name. */
bool log_is_named(const queue *it, const uint8_t *name, size_t len);
/* The slot for a queue with this name: that of the bound one, or a free one. */
unsigned log_queue(const uint8_t *name, size_t len);

/* Rebuilds the system and its tables from the log: false if an allocation fails. */
bool log_replay(void);
/* Begins a new log with an image of the current state: false if there is no memory for that. It
 * changes nothing of the state. */
bool log_checkpoint(void);
/* Restores the state of the image with which a log begins: false if it has none. */
bool log_load_image(void);
/* Makes a new system in its place: false if an allocation fails. */
bool log_begin_anew(void);
/* Where the bytes that a waiter keeps are restored. A thread may be taking them just now: then they
 * are whole, and are written elsewhere. Null if an allocation fails. */
uint8_t *log_kept_again(unsigned process);
/* A checkpoint is made when the records have this many bytes. */
enum { LOG_LIMIT = 1 << 18 };

#pragma GCC visibility pop

#endif
