/* One receive waits on a queue, and nobody else: it gets the next message that is sent. Nothing
 * that comes meanwhile changes the order of receives, the result of a call, or whether a message is
 * lost: a second receive, a close, an unlink, a deadline, a signal, a cancellation, a notification,
 * a fork, a checkpoint, memory that is refused, or the death of the receiver or of the sender.
 * Linked with --wrap=mprotect, which makes the library's allocations fail. */
#define _GNU_SOURCE
#include <fcntl.h>
#include <pthread.h>
#include <signal.h>
#include <stdatomic.h>
#include <stdbool.h>
#include <stdint.h>
#include <stdlib.h>
#include <sys/mman.h>
#include <sys/wait.h>

#include "reported.h"
#include "stored.h"

enum { QUEUES = 40, KILLS = 100, MANY = 30000 };

/* A receive of a thread, and its result. */
typedef struct receive {
    mqd_t from;
    const struct timespec *until;
    pthread_t thread;
    char buf[8];
    unsigned prio;
    ssize_t len;
    int error;
    bool is_cancelled;
} receive;

static mqd_t queue;

static mqd_t fresh(const char *name)
{
    struct mq_attr attr = room_for(4);
    mqd_t it;
    WANT((it = mq_open(name, O_RDWR | O_CREAT | O_EXCL, 0600, &attr)) != -1);
    return it;
}

/* Its frame covers those that a cancelled call has left. */
static void clean(void *of)
{
    volatile char room[4096];
    for (unsigned i = 0; i < sizeof room; ++i)
        room[i] = 1;
    ((receive *)of)->is_cancelled = room[0] == 1;
}

static void *run(void *of)
{
    receive *it = of;
    pthread_cleanup_push(clean, it);
    it->len = it->until != 0
                  ? mq_timedreceive(it->from, it->buf, sizeof it->buf, &it->prio, it->until)
                  : mq_receive(it->from, it->buf, sizeof it->buf, &it->prio);
    it->error = errno;
    pthread_cleanup_pop(0);
    return 0;
}

/* Starts a receive, as the wait of this number. */
static void start(receive *it, int waits)
{
    WANT(pthread_create(&it->thread, 0, run, it) == 0);
    await_waits(waits);
}

static receive started(void)
{
    return (receive){.from = queue};
}

/* Whether a receive has ended with this message. */
static bool got(receive *it, const char *message, unsigned prio)
{
    WANT(pthread_join(it->thread, 0) == 0);
    return it->len == (ssize_t)strlen(message) && memcmp(it->buf, message, (size_t)it->len) == 0 &&
           it->prio == prio;
}

static void send_to(mqd_t to, const char *message, unsigned prio)
{
    WANT(mq_send(to, message, strlen(message), prio) == 0);
}

static long present(void)
{
    struct mq_attr attr;
    WANT(mq_getattr(queue, &attr) == 0);
    return attr.mq_curmsgs;
}

/* Takes a message that nobody has waited for. */
static bool takes(const char *message)
{
    char buf[8];
    const ssize_t len = mq_receive(queue, buf, sizeof buf, 0);
    return len == (ssize_t)strlen(message) && memcmp(buf, message, (size_t)len) == 0;
}

static struct timespec in(long milliseconds)
{
    struct timespec until;
    clock_gettime(CLOCK_REALTIME, &until);
    until.tv_sec += milliseconds / 1000;
    until.tv_nsec += milliseconds % 1000 * 1000000;
    until.tv_sec += until.tv_nsec / 1000000000;
    until.tv_nsec %= 1000000000;
    return until;
}

/* ---- what it gets ---- */

static void messages(void)
{
    static const char *const sent[] = {"", "a", "12345678"};
    for (unsigned i = 0; i < 3; ++i) {
        receive it = started();
        start(&it, 1);
        WANT(present() == 0);
        send_to(queue, sent[i], 5 * i);
        WANT(present() == 0);
        WANT(got(&it, sent[i], 5 * i));
    }
    send_to(queue, "stays", 0);
    WANT(present() == 1 && takes("stays"));
}

/* Receives of other queues wait too, more than the library has processes for. */
static void queues(void)
{
    static receive all[QUEUES];
    char name[32], message[16];
    for (int i = 0; i < QUEUES; ++i) {
        snprintf(name, sizeof name, "/yak-alone-%d", i);
        all[i] = (receive){.from = fresh(name)};
    }
    for (int i = 0; i < QUEUES; ++i)
        start(&all[i], i + 1);
    for (int i = QUEUES - 1; i >= 0; --i) {
        snprintf(message, sizeof message, "%d", i);
        send_to(all[i].from, message, 1);
    }
    for (int i = 0; i < QUEUES; ++i) {
        snprintf(name, sizeof name, "/yak-alone-%d", i);
        snprintf(message, sizeof message, "%d", i);
        WANT(got(&all[i], message, 1));
        WANT(mq_close(all[i].from) == 0 && mq_unlink(name) == 0);
    }
}

/* ---- what comes meanwhile ---- */

static void second(void)
{
    receive first = started(), second = started(), third = started();
    struct mq_attr attr = {.mq_flags = O_NONBLOCK};
    char buf[8];
    mqd_t nonblock;
    WANT((nonblock = mq_open("/yak-alone", O_RDWR)) != -1);
    WANT(mq_setattr(nonblock, &attr, 0) == 0);
    start(&first, 1);
    WANT(mq_receive(nonblock, buf, sizeof buf, 0) == -1 && errno == EAGAIN);
    start(&second, 2);
    send_to(nonblock, "1", 0);
    WANT(got(&first, "1", 0));
    start(&third, 2);
    send_to(queue, "2", 0);
    send_to(queue, "3", 0);
    WANT(got(&second, "2", 0) && got(&third, "3", 0));
    WANT(mq_close(nonblock) == 0);
}

static void close_and_unlink(void)
{
    receive it = started();
    char buf[8];
    mqd_t again, other;
    WANT((it.from = mq_open("/yak-alone", O_RDONLY)) != -1);
    start(&it, 1);
    WANT(mq_close(it.from) == 0);
    send_to(queue, "closed", 0);
    WANT(got(&it, "closed", 0));
    it = started();
    start(&it, 1);
    WANT(mq_unlink("/yak-alone") == 0);
    other = fresh("/yak-alone");
    send_to(other, "other", 0);
    await_waits(1);
    send_to(queue, "old", 0);
    WANT(got(&it, "old", 0));
    WANT(mq_receive(other, buf, sizeof buf, 0) == 5);
    /* Nobody has the queue open any more, and it has no name: its receive waits for ever. */
    again = fresh("/yak-alone-again");
    it = (receive){.from = again};
    start(&it, 1);
    WANT(mq_close(again) == 0 && mq_unlink("/yak-alone-again") == 0);
    again = fresh("/yak-alone-again");
    send_to(again, "new", 0);
    WANT(pthread_cancel(it.thread) == 0 && pthread_join(it.thread, 0) == 0);
    WANT(mq_receive(again, buf, sizeof buf, 0) == 3);
    WANT(mq_close(again) == 0 && mq_unlink("/yak-alone-again") == 0);
    WANT(mq_close(queue) == 0);
    queue = other;
}

static void deadlines(void)
{
    struct timespec until = in(50);
    struct timespec late = in(60000), past = in(-1000), wrong = {.tv_nsec = 1000000000};
    receive it = started();
    it.until = &until;
    start(&it, 1);
    WANT(pthread_join(it.thread, 0) == 0 && it.len == -1 && it.error == ETIMEDOUT);
    send_to(queue, "a", 0);
    WANT(present() == 1 && takes("a"));
    it.until = &late;
    start(&it, 1);
    send_to(queue, "b", 7);
    WANT(got(&it, "b", 7));
    it.until = &past;
    run(&it);
    WANT(it.len == -1 && it.error == ETIMEDOUT);
    it.until = &wrong;
    run(&it);
    WANT(it.len == -1 && it.error == EINVAL);
}

/* ---- signals and cancellations ---- */

static mqd_t of_handler;
static atomic_bool has_called;

/* Its calls fail if it interrupts a part of the receive that does not wait. */
static void call_in_handler(void)
{
    char buf[8];
    if (mq_send(of_handler, "x", 1, 0) != 0) {
        WANT(errno == EDEADLK);
        return;
    }
    WANT(mq_receive(of_handler, buf, sizeof buf, 0) == 1);
    atomic_store(&has_called, true);
}

static void come(int number)
{
    const int error = errno;
    if (number == SIGUSR2)
        call_in_handler();
    errno = error;
}

static void handle(int number, int flags)
{
    struct sigaction action;
    memset(&action, 0, sizeof action);
    action.sa_handler = come;
    action.sa_flags = flags;
    WANT(sigaction(number, &action, 0) == 0);
}

static void signals(void)
{
    receive it = started();
    handle(SIGUSR1, 0);
    start(&it, 1);
    WANT(pthread_kill(it.thread, SIGUSR1) == 0);
    WANT(pthread_join(it.thread, 0) == 0 && it.len == -1 && it.error == EINTR);
    send_to(queue, "a", 0);
    WANT(takes("a"));
    /* Handlers that restart the wait, and one that makes calls, which end it for a moment. */
    of_handler = fresh("/yak-alone-handler");
    handle(SIGUSR1, SA_RESTART);
    handle(SIGUSR2, SA_RESTART);
    for (int i = 0; i < 20; ++i) {
        start(&it, 1);
        WANT(pthread_kill(it.thread, i % 2 == 0 ? SIGUSR1 : SIGUSR2) == 0);
        if (i % 4 < 2)
            pause_for(2);
        send_to(queue, "b", 0);
        WANT(got(&it, "b", 0));
    }
    WANT(atomic_load(&has_called));
    WANT(mq_close(of_handler) == 0 && mq_unlink("/yak-alone-handler") == 0);
}

static void cancellations(void)
{
    receive it = started();
    void *ended;
    start(&it, 1);
    WANT(pthread_cancel(it.thread) == 0);
    WANT(pthread_join(it.thread, &ended) == 0 && ended == PTHREAD_CANCELED && it.is_cancelled);
    send_to(queue, "a", 0);
    WANT(present() == 1 && takes("a"));
    /* At the same time as a message: it is received, or it stays. */
    for (int i = 0; i < 200; ++i) {
        start(&it, 1);
        it.len = 0;
        WANT(pthread_cancel(it.thread) == 0);
        send_to(queue, "b", 0);
        WANT(pthread_join(it.thread, &ended) == 0);
        WANT(it.len == 1 ? present() == 0 : ended == PTHREAD_CANCELED && takes("b"));
    }
}

static void notifications(void)
{
    struct sigevent event;
    const struct timespec second = {.tv_sec = 1}, none = {.tv_sec = 0};
    receive it = started();
    sigset_t set;
    memset(&event, 0, sizeof event);
    event.sigev_notify = SIGEV_SIGNAL;
    event.sigev_signo = SIGRTMIN;
    sigemptyset(&set);
    sigaddset(&set, SIGRTMIN);
    pthread_sigmask(SIG_BLOCK, &set, 0);
    start(&it, 1);
    WANT(mq_notify(queue, &event) == 0);
    send_to(queue, "a", 0);
    WANT(got(&it, "a", 0) && sigtimedwait(&set, 0, &none) == -1);
    send_to(queue, "b", 0);
    WANT(sigtimedwait(&set, 0, &second) == SIGRTMIN && takes("b"));
    /* One that is registered before. */
    WANT(mq_notify(queue, &event) == 0);
    start(&it, 1);
    send_to(queue, "c", 0);
    WANT(got(&it, "c", 0) && sigtimedwait(&set, 0, &none) == -1);
    WANT(mq_notify(queue, 0) == 0);
}

/* ---- memory that is refused ---- */

/* Volatile, because the system's headers declare that its calls call no function of this file. */
static volatile bool refuses;

int __real_mprotect(void *at, size_t size, int rights);
int __wrap_mprotect(void *at, size_t size, int rights);

int __wrap_mprotect(void *at, size_t size, int rights)
{
    errno = ENOMEM;
    return refuses ? -1 : __real_mprotect(at, size, rights);
}

/* Sends until memory is refused, short messages last, so that no room is left. */
static int fill(mqd_t to, const char *bytes)
{
    int count = 0;
    for (size_t len = 8192; len != 0; len = len > 1 ? len / 2 : 0)
        while (mq_send(to, bytes, len, 0) == 0)
            ++count;
    return count;
}

/* A second receive is refused, or waits behind the first. The first gets its message in any case.
 */
static void refusals(void)
{
    static char bytes[8192];
    struct mq_attr attr = {.mq_maxmsg = 4096, .mq_msgsize = sizeof bytes};
    const mqd_t large = mq_open("/yak-alone-large", O_RDWR | O_CREAT | O_NONBLOCK, 0600, &attr);
    receive first = started(), second = started();
    int count;
    WANT(large != -1);
    start(&first, 1);
    refuses = true;
    count = fill(large, bytes);
    WANT(errno == ENOMEM || errno == EAGAIN);
    WANT(pthread_create(&second.thread, 0, run, &second) == 0);
    pause_for(50);
    WANT(mq_send(queue, "1", 1, 0) == 0 || errno == ENOMEM);
    refuses = false;
    while (count-- > 0)
        WANT(mq_receive(large, bytes, sizeof bytes, 0) > 0);
    send_to(queue, "2", 0);
    send_to(queue, "3", 0);
    WANT(pthread_join(first.thread, 0) == 0 && first.len == 1);
    WANT(pthread_join(second.thread, 0) == 0);
    WANT(second.len == 1 || (second.len == -1 && second.error == ENOMEM));
    WANT(first.buf[0] == '1' || first.buf[0] == '2');
    WANT(second.len == -1 || second.buf[0] == first.buf[0] + 1);
    while (present() > 0)
        WANT(mq_receive(queue, bytes, 8, 0) == 1);
    WANT(mq_close(large) == 0 && mq_unlink("/yak-alone-large") == 0);
}

/* ---- processes ---- */

static pid_t child_that(void (*does)(void))
{
    const pid_t child = fork();
    WANT(child != -1);
    if (child != 0)
        return child;
    does();
    _exit(0);
}

static void join(pid_t child)
{
    int status;
    WANT(waitpid(child, &status, 0) == child && WIFEXITED(status) && WEXITSTATUS(status) == 0);
}

static void sends(void)
{
    send_to(queue, "child", 3);
}

static void receives(void)
{
    WANT(takes("parent"));
    WANT(takes("again"));
}

/* Sends as much as makes some checkpoints. */
static void sends_much(void)
{
    mqd_t other = mq_open("/yak-alone-much", O_RDWR);
    char buf[8];
    WANT(other != -1);
    for (int i = 0; i < MANY; ++i) {
        send_to(other, "12345678", 0);
        WANT(mq_receive(other, buf, sizeof buf, 0) == 8);
    }
}

static void forks(void)
{
    receive it = started(), other;
    pid_t child;
    start(&it, 1);
    join(child_that(sends));
    WANT(got(&it, "child", 3));
    child = child_that(receives);
    await_waits(1);
    send_to(queue, "parent", 0);
    await_waits(1);
    send_to(queue, "again", 0);
    join(child);
    other = (receive){.from = fresh("/yak-alone-much")};
    start(&it, 1);
    join(child_that(sends_much));
    send_to(queue, "later", 0);
    WANT(got(&it, "later", 0));
    WANT(mq_close(other.from) == 0 && mq_unlink("/yak-alone-much") == 0);
}

static void waits_for_ever(void)
{
    char buf[8];
    mq_receive(queue, buf, sizeof buf, 0);
    _exit(1);
}

/* The numbers that a child sends. Those whose sends have returned are below `sent`. */
static _Atomic uint32_t *begun, *sent;

static void sends_numbers(void)
{
    for (;;) {
        const uint32_t number = atomic_fetch_add(begun, 1);
        WANT(mq_send(queue, (const char *)&number, sizeof number, 0) == 0);
        atomic_store(sent, number + 1);
    }
}

static bool receive_number(uint32_t *number, long milliseconds)
{
    const struct timespec until = in(milliseconds);
    char buf[8];
    const ssize_t len = mq_timedreceive(queue, buf, sizeof buf, 0, &until);
    WANT(len == (ssize_t)sizeof *number || (len == -1 && errno == ETIMEDOUT));
    memcpy(number, buf, sizeof *number);
    return len != -1;
}

static void kill_it(pid_t child)
{
    WANT(kill(child, SIGKILL) == 0 && waitpid(child, 0, 0) == child);
}

static void deaths(void)
{
    uint32_t next = 0, number;
    const pid_t receiver = child_that(waits_for_ever);
    await_waits(1);
    kill_it(receiver);
    send_to(queue, "stays", 0);
    WANT(present() == 1 && takes("stays"));
    begun = mmap(0, 4096, PROT_READ | PROT_WRITE, MAP_SHARED | MAP_ANONYMOUS, -1, 0);
    WANT(begun != MAP_FAILED);
    sent = begun + 1;
    for (int i = 0; i < KILLS; ++i) {
        const pid_t child = child_that(sends_numbers);
        for (int j = rand() % 50; j >= 0; --j) {
            WANT(receive_number(&number, 10000) && number >= next);
            next = number + 1;
        }
        kill_it(child);
        while (receive_number(&number, 0)) {
            WANT(number >= next);
            next = number + 1;
        }
        WANT(next >= atomic_load(sent));
    }
}

int main(void)
{
    queue = fresh("/yak-alone");
    messages();
    queues();
    second();
    close_and_unlink();
    deadlines();
    signals();
    cancellations();
    notifications();
    refusals();
    WANT(is_checked());
    forks();
    deaths();
    messages();
    puts("well");
    return 0;
}
