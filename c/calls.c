/* The calls of POSIX's <mqueue.h>, as exported symbols. */
#define _GNU_SOURCE
#include "explored_calls.h"
#include "log.h"

#include <errno.h>
#include <fcntl.h>
#include <stdarg.h>
#include <string.h>
#include <sys/syscall.h>
#include <unistd.h>

/* As the system's <mqueue.h> has them; its declarations say that pointers are not null, which the
 * compiler would believe here. */
typedef int mqd_t;

struct mq_attr {
    long mq_flags;
    long mq_maxmsg;
    long mq_msgsize;
    long mq_curmsgs;
    long unused[4];
};

mqd_t mq_open(const char *name, int oflag, ...);
mqd_t __mq_open_2(const char *name, int oflag);
int mq_close(mqd_t mqdes);
int mq_unlink(const char *name);
int mq_getattr(mqd_t mqdes, struct mq_attr *attr);
int mq_setattr(mqd_t mqdes, const struct mq_attr *set, struct mq_attr *before);
int mq_notify(mqd_t mqdes, const struct sigevent *event);
int mq_send(mqd_t mqdes, const char *bytes, size_t len, unsigned prio);
int mq_timedsend(mqd_t mqdes, const char *bytes, size_t len, unsigned prio,
                 const struct timespec *until);
ssize_t mq_receive(mqd_t mqdes, char *buf, size_t len, unsigned *prio);
ssize_t mq_timedreceive(mqd_t mqdes, char *buf, size_t len, unsigned *prio,
                        const struct timespec *until);

static int fails(int error)
{
    errno = error;
    return -1;
}

static int result(uint32_t answer)
{
    return answer == YAK_DONE ? 0 : fails(yak_errno(answer));
}

/* Whether the program can read the 8 bytes at an address, or write them. The kernel looks, by a
 * call that fails or asks for the signal mask, and so changes nothing else. */
static bool is_good_word(void *word, bool is_written)
{
    const int error = errno;
    const long failed = is_written ? syscall(SYS_rt_sigprocmask, SIG_BLOCK, 0, word, 8)
                                   : syscall(SYS_rt_sigprocmask, -1, word, 0, 8);
    const bool is_good = failed == 0 || errno != EFAULT;
    errno = error;
    return is_good;
}

/* The same for attributes, which two pages have at the most. They may be at any address. */
static bool is_good(const struct mq_attr *attr, bool is_written)
{
    char *const first = (char *)(uintptr_t)attr;
    return is_good_word(first, is_written) && is_good_word(first + sizeof *attr - 8, is_written);
}

/* A dispatcher with room for another description; PROCESSES if there is none. */
static unsigned roomy_dispatcher(void)
{
    program_close_taken(UINT32_MAX);
    for (unsigned round = 0; round < 2; ++round) {
        for (uint32_t d = 0; d < DESCRIPTIONS; ++d)
            if (the_program.tables.descriptions[d].made == 0 &&
                program_take_dispatcher(program_dispatcher_of(d)))
                return program_dispatcher_of(d);
        program_sweep_at_once();
    }
    return PROCESSES;
}

/* Opens a description, and writes which: an error of the machine's processes, or 0 and the answer
 * of the library. */
static int open_description(const yak_opening *opening, bool nonblock, const char *name, size_t len,
                            uint32_t *answer, uint32_t *d)
{
    opened with = {.opening = *opening, .whose = FOR_DESCRIPTION};
    const unsigned dispatcher = roomy_dispatcher();
    if (dispatcher == PROCESSES)
        return ENFILE;
    with.made = ++the_program.opens != 0 ? the_program.opens : ++the_program.opens;
    *answer = did_open(dispatcher, &with, (const uint8_t *)name, len, d);
    /* The dead may hold queues that have lost their names. */
    if (*answer == YAK_NOSPC && the_program.is_logged) {
        program_sweep_at_once();
        *answer = did_open(dispatcher, &with, (const uint8_t *)name, len, d);
    }
    *d = program_description(dispatcher, *d);
    if (*answer == YAK_DONE)
        the_program.nonblock[*d] = nonblock;
    return 0;
}

/* The lowest number that this process does not hold; NUMBERS if it holds all. */
static unsigned free_number(void)
{
    unsigned number = 0;
    while (number < NUMBERS && program_here->me->numbers[number] != 0)
        ++number;
    return number;
}

/* Who looks for a queue of another program is told once that there is none. */
static void tell_missing(void)
{
    static atomic_bool has_told;
    if (!atomic_exchange(&has_told, true))
        program_tell("mq_open found no queue of that name: other programs have queues of their "
                     "own, and these are those of one program and its forked children, here of");
}

static mqd_t open_queue(const char *name, int oflag, const struct mq_attr *attr)
{
    yak_opening opening = {
        .access = (uint32_t)(oflag & O_ACCMODE),
        .create = (oflag & O_CREAT) != 0,
        .exclusive = (oflag & O_EXCL) != 0,
        .nonblock = true,
    };
    uint32_t answer = YAK_DONE, d = 0;
    unsigned number;
    size_t len;
    int error;
    if (name == 0 || (attr != 0 && !is_good(attr, false)))
        return fails(EFAULT);
    if (attr != 0) {
        opening.maxmsg = attr->mq_maxmsg;
        opening.msgsize = attr->mq_msgsize;
        opening.limited = true;
    }
    len = strlen(name);
    explored_names(STEP_OPEN);
    if ((error = program_enter()) != 0)
        return fails(error);
    number = free_number();
    error = number == NUMBERS
                ? EMFILE
                : open_description(&opening, (oflag & O_NONBLOCK) != 0, name, len, &answer, &d);
    if (error == 0 && answer == YAK_DONE) {
        program_here->me->numbers[number] = (uint8_t)(d + 1);
        explored_number(number, d);
    }
    program_leave();
    if (error != 0)
        return fails(error);
    explored_gave(yak_errno(answer), 0);
    if (answer == YAK_NOENT)
        tell_missing();
    return answer == YAK_DONE ? FIRST + (mqd_t)number : result(answer);
}

mqd_t mq_open(const char *name, int oflag, ...)
{
    const struct mq_attr *attr = 0;
    if (oflag & O_CREAT) {
        va_list rest;
        va_start(rest, oflag);
        (void)va_arg(rest, mode_t);
        attr = va_arg(rest, const struct mq_attr *);
        va_end(rest);
    }
    return open_queue(name, oflag, attr);
}

/* What a fortified mq_open without a mode is compiled to. */
mqd_t __mq_open_2(const char *name, int oflag)
{
    return open_queue(name, oflag & ~O_CREAT, 0);
}

int mq_close(mqd_t mqdes)
{
    uint32_t answer = YAK_DONE, answered = 0, d;
    int error;
    explored_call(STEP_CLOSE, mqdes);
    if ((error = program_enter()) != 0)
        return fails(error);
    d = program_number(mqdes);
    if (d < DESCRIPTIONS) {
        program_unregister(d, program_owner_number());
        program_here->me->numbers[mqdes - FIRST] = 0;
    }
    if (!program_is_held(d)) {
        answer =
            d < DESCRIPTIONS ? program_close_description(d) : did_close(DISPATCHER, PER_DISPATCHER);
        /* It holds what could not be closed. */
        if (answer != YAK_DONE && d < DESCRIPTIONS)
            program_here->me->numbers[mqdes - FIRST] = (uint8_t)(d + 1);
        answered = program_note_answers(program_dispatcher_of(d));
    }
    if (d < DESCRIPTIONS && program_here->me->numbers[mqdes - FIRST] == 0)
        program_drop_poll(d);
    program_leave_waking(answered);
    explored_gave(yak_errno(answer), 0);
    return result(answer);
}

int mq_unlink(const char *name)
{
    uint32_t answer;
    size_t len;
    int error;
    if (name == 0)
        return fails(EFAULT);
    len = strlen(name);
    explored_names(STEP_UNLINK);
    if ((error = program_enter()) != 0)
        return fails(error);
    /* What the dead hold is not to outlive the name. */
    if (the_program.is_logged)
        program_sweep();
    program_replicate_all((const uint8_t *)name, len);
    answer = did_unlink(DISPATCHER, (const uint8_t *)name, len);
    program_leave();
    explored_gave(yak_errno(answer), 0);
    return result(answer);
}

static int fill(uint32_t answer, const yak_attributes *from, struct mq_attr *attr)
{
    const struct mq_attr now = {
        .mq_flags = from->nonblock ? O_NONBLOCK : 0,
        .mq_maxmsg = (long)from->maxmsg,
        .mq_msgsize = (long)from->msgsize,
        .mq_curmsgs = (long)from->curmsgs,
    };
    if (answer == YAK_DONE && attr != 0) {
        if (!is_good(attr, true))
            return fails(EFAULT);
        memcpy((char *)attr, &now, sizeof now);
    }
    return result(answer);
}

/* Asks for the attributes, in which the flag is the program's own, and then sets that if it is to
 * be set. Other flags, and pointers that lead nowhere, are refused in the order of Linux's queues,
 * which look at the pointer of the answer last. */
static int exchange(mqd_t mqdes, const struct mq_attr *set, struct mq_attr *before)
{
    yak_attributes attributes = {0};
    uint32_t answer, d;
    int error;
    if (set != 0 && !is_good(set, false))
        return fails(EFAULT);
    if (set != 0 && (set->mq_flags & ~(long)O_NONBLOCK) != 0)
        return fails(EINVAL);
    if (set != 0)
        explored_setattr(mqdes, (set->mq_flags & O_NONBLOCK) != 0);
    else
        explored_call(STEP_GETATTR, mqdes);
    if ((error = program_enter()) != 0)
        return fails(error);
    if (the_program.is_logged)
        program_end_dead_waits();
    d = program_number(mqdes);
    MADE(answer, yak_proved_getattr(&the_program.processes[program_dispatcher_of(d)],
                                    program_there(d), &attributes));
    if (answer == YAK_DONE) {
        attributes.nonblock = the_program.nonblock[d];
        if (set != 0)
            the_program.nonblock[d] = (set->mq_flags & O_NONBLOCK) != 0;
    }
    program_leave();
    explored_gave(yak_errno(answer), (uint32_t)attributes.curmsgs);
    return fill(answer, &attributes, before);
}

int mq_getattr(mqd_t mqdes, struct mq_attr *attr)
{
    return exchange(mqdes, 0, attr);
}

int mq_setattr(mqd_t mqdes, const struct mq_attr *set, struct mq_attr *before)
{
    return exchange(mqdes, set, before);
}

int mq_notify(mqd_t mqdes, const struct sigevent *event)
{
    uint32_t answer = YAK_DONE;
    notices found;
    int error;
    found.count = 0;
    explored_call(STEP_NOTIFY, mqdes);
    if ((error = program_enter()) != 0)
        return fails(error);
    error = program_register(program_number(mqdes), event, &answer, &found);
    program_leave();
    program_deliver(&found);
    return error != 0 ? fails(error) : result(answer);
}

/* Whether a call is done and holds the lock. */
static bool is_done(outcome it)
{
    return it.fate == ANSWERED && it.answer == YAK_DONE;
}

static int error_of(outcome it)
{
    switch (it.fate) {
    case ANSWERED:
        return yak_errno(it.answer);
    case REFUSED:
        return it.error;
    case HANDED:
        return 0;
    default:
        return EINTR;
    }
}

/* Acquires the lock for a send or a receive, and finds its description. Nobody who is dead may be
 * served by it. */
static inline __attribute__((always_inline)) int enter_transfer(int mqdes, uint32_t *d)
{
    const int error = program_enter();
    if (error != 0)
        return error;
    if (__builtin_expect(the_program.is_logged, false) &&
        the_program.tables.waiters != the_program.tables.idle)
        program_end_dead_waits();
    *d = program_number(mqdes);
    return 0;
}

/* ---- tries before a wait ---- */

enum {
    RETRIES = 8,
    /* Turns of a loop before the first: some 1.5 microseconds. Before the others twice as many. */
    RETRY_PAUSE = 4096,
    MOST_IN_VAIN = 16, /* after so many calls in a row for which that was in vain, */
    SKIPS = 64         /* so many don't do it */
};

/* What the tries of this thread came to. */
static _Thread_local struct {
    unsigned in_vain; /* so often in a row */
    unsigned left;    /* so many more calls don't try again */
} retrying;

/* Whether a call that would wait is one to try again. A stored journal is to have each wait, and a
 * registration is to be told as before. A receive behind a send polls for its reply instead. */
static bool may_try_again(uint32_t d, const request *asked)
{
    const yak_moment now = asked->is_timed ? yak_now() : (yak_moment){0};
    return !the_program.nonblock[d] && !the_program.is_stored &&
           the_program.tables.registered == 0 && !program_is_apart && !asked->is_reply &&
           program_is_before(&now, &asked->until);
}

static void note_empty(uint32_t d, const request *asked)
{
    if (!asked->is_send)
        the_program.is_empty[the_program.tables.descriptions[d].queue] = !the_program.is_stored;
}

/* What a try came to: an error without the lock, or the answer of the library. */
typedef struct tried {
    int error;
    uint32_t answer;
    uint32_t d;
} tried;

/* Makes a call that would wait again, some times, outside the lock between: others go on meanwhile.
 * A queue that a crowd uses is seldom full or empty for long, and a wait costs a sleep, a wake and
 * three calls of the library. The processor is not yielded: beside busy programs it would be gone
 * for milliseconds. */
static __attribute__((noinline)) tried try_again(uint32_t d, const request *asked,
                                                 yak_message *message)
{
    tried it = {.answer = YAK_AGAIN, .d = d};
    if (!may_try_again(d, asked))
        return it;
    if (retrying.left != 0) {
        --retrying.left;
        return it;
    }
    for (unsigned tries = 0; tries < RETRIES && it.answer == YAK_AGAIN; ++tries) {
        note_empty(it.d, asked);
        program_leave();
        yak_pause_(tries == 0 ? RETRY_PAUSE : 2 * RETRY_PAUSE);
        if ((it.error = enter_transfer(asked->number, &it.d)) != 0)
            return it;
        it.answer =
            program_try(asked->is_send, it.d, asked->bytes, asked->len, asked->prio, message);
    }
    retrying.in_vain = it.answer == YAK_AGAIN ? retrying.in_vain + 1 : 0;
    if (retrying.in_vain >= MOST_IN_VAIN)
        retrying.left = SKIPS;
    return it;
}

/* What is left of a send or a receive that the dispatcher has tried: its record, or the receive
 * that waited alone for it; a wait; the wakes and notices for others, and a warning. Leaves the
 * lock. */
YAK_HOT static __attribute__((noinline)) outcome go_on(uint32_t d, const request *asked,
                                                       yak_message *message, uint32_t answer)
{
    outcome end = {.fate = ANSWERED};
    unsigned process = DISPATCHER;
    uint32_t answered = 0, handed = 0;
    int cancelling = -1;
    bool warns = false;
    notices found;
    found.count = 0;
    if (answer == YAK_AGAIN) {
        const tried again = try_again(d, asked, message);
        if (again.error != 0)
            return (outcome){.fate = REFUSED, .error = again.error};
        answer = again.answer;
        d = again.d;
    }
    end.answer = answer;
    if (answer == YAK_DONE)
        handed = program_record(d, asked);
    if (answer == YAK_AGAIN)
        note_empty(d, asked);
    if (answer == YAK_AGAIN && (!the_program.nonblock[d] || explored_has_begun()))
        end = program_wait(&process, d, asked, message, &cancelling);
    if (end.fate < LOST) {
        answered = program_note_answers(process != DISPATCHER ? process : program_dispatcher_of(d));
        answered |= handed;
        if (is_done(end) && the_program.tables.registered != 0)
            program_collect_notices(d, &found);
        if (is_done(end) && the_program.polls != 0)
            program_tell_polls(d);
        warns = program_is_to_warn();
        program_leave_waking(answered);
    }
    if (found.count != 0)
        program_deliver(&found);
    if (warns)
        program_warn();
    if (cancelling != -1)
        pthread_setcancelstate(cancelling, 0);
    if (end.fate == CANCELLED)
        program_test_cancel();
    return end;
}

/* A send or a receive: 0, or -1 with errno. */
static inline __attribute__((always_inline)) int
make(const char *call, bool is_send, mqd_t mqdes, uint8_t *bytes, size_t len, uint32_t prio,
     yak_message *message, const struct timespec *until, unsigned cancels)
{
    yak_moment moment = {0};
    outcome end;
    uint32_t answer, d;
    int error;
    /* A pointer that is no good is met outside the lock. */
    if (until != 0) {
        moment.sec = (int64_t)until->tv_sec;
        moment.nsec = (int64_t)until->tv_nsec;
    }
    if (!explored_transfer(is_send, mqdes, len, prio, until))
        return fails(EINTR);
    do {
        if ((error = enter_transfer(mqdes, &d)) != 0)
            return fails(error);
        answer = program_try(is_send, d, bytes, len, prio, message);
        if (__builtin_expect(answer == YAK_DONE && the_program.until_large >= 0 &&
                                 (the_program.is_logged | the_program.tables.registered |
                                  the_program.overflow | the_program.polls |
                                  the_program.processes[program_dispatcher_of(d)].answered) == 0,
                             1)) {
            unsigned waiter = DISPATCHER;
            if (is_send && the_program.tables.alone != 0)
                waiter = did_hand(d, bytes, len, prio);
            if (is_send && waiter == DISPATCHER)
                the_program.is_empty[the_program.tables.descriptions[d].queue] = false;
            program_leave();
            if (waiter != DISPATCHER)
                yak_wake_on_(program_news(waiter), 1);
            program_thread.has_sent = is_send;
            explored_moved(is_send, d, 0, bytes, is_send ? len : message->len);
            return 0;
        } else {
            const request asked = {
                .call = call,
                .number = mqdes,
                .is_send = is_send,
                .is_timed = until != 0,
                .is_reply = !is_send && program_thread.has_sent,
                .cancels = cancels,
                .until = until != 0 ? moment : program_never,
                .bytes = bytes,
                .len = len,
                .prio = prio,
            };
            end = go_on(d, &asked, message, answer);
        }
    } while (end.fate == ANEW);
    program_thread.has_sent = is_send;
    error = error_of(end);
    explored_moved(is_send, d, error, bytes, is_send ? len : message->len);
    return error != 0 ? fails(error) : 0;
}

/* No message is longer than MOST_BYTES, so a longer buffer is one of that length, and a longer
 * message is refused as one of a byte more. */
static inline size_t at_most(size_t len, size_t most)
{
    return len < most ? len : most;
}

/* Where a thread may be cancelled before its call. Returns how often the process had called
 * pthread_cancel before. */
static inline unsigned begin_call(void)
{
    const unsigned cancels = atomic_load(&program_cancels);
    pthread_testcancel();
    return cancels;
}

static inline __attribute__((always_inline)) int send_until(const char *call, mqd_t mqdes,
                                                            const char *bytes, size_t len,
                                                            unsigned prio,
                                                            const struct timespec *until)
{
    yak_message message = {0};
    const unsigned cancels = begin_call();
    if (bytes == 0 && len != 0)
        return fails(EFAULT);
    return make(call, true, mqdes, (uint8_t *)(uintptr_t)(len != 0 ? bytes : ""),
                at_most(len, MOST_BYTES + 1), prio, &message, until, cancels);
}

YAK_HOT int mq_send(mqd_t mqdes, const char *bytes, size_t len, unsigned prio)
{
    return send_until("mq_send", mqdes, bytes, len, prio, 0);
}

YAK_HOT int mq_timedsend(mqd_t mqdes, const char *bytes, size_t len, unsigned prio,
                         const struct timespec *until)
{
    return send_until("mq_timedsend", mqdes, bytes, len, prio, until);
}

static inline __attribute__((always_inline)) ssize_t receive_until(const char *call, mqd_t mqdes,
                                                                   char *buf, size_t len,
                                                                   unsigned *prio,
                                                                   const struct timespec *until)
{
    yak_message message = {0};
    uint8_t none = 0;
    const unsigned cancels = begin_call();
    if (buf == 0 && len != 0)
        return fails(EFAULT);
    if (make(call, false, mqdes, len != 0 ? (uint8_t *)buf : &none, at_most(len, MOST_BYTES), 0,
             &message, until, cancels) != 0)
        return -1;
    if (prio != 0)
        *prio = message.prio;
    return (ssize_t)message.len;
}

YAK_HOT ssize_t mq_receive(mqd_t mqdes, char *buf, size_t len, unsigned *prio)
{
    return receive_until("mq_receive", mqdes, buf, len, prio, 0);
}

YAK_HOT ssize_t mq_timedreceive(mqd_t mqdes, char *buf, size_t len, unsigned *prio,
                                const struct timespec *until)
{
    return receive_until("mq_timedreceive", mqdes, buf, len, prio, until);
}
