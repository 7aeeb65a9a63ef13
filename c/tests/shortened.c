/* Checkpoints repeatedly shorten the log that a forked program keeps, and the state does not
 * change: messages with their priorities, also in unlinked queues and in queues that no process has
 * open; waits of receives and of sends in their order, also across processes; descriptors with
 * gaps, access, flags and registrations. Memory stays constant.
 *
 * usage: shortened [CALLS] */
#define _GNU_SOURCE
#include <pthread.h>
#include <signal.h>
#include <stdbool.h>
#include <sys/resource.h>
#include <yakyrombe/program.h>

#include "family.h"
#include "sanitized.h"

enum { WAITS = 6, MANY = 40 };

static mqd_t busy, gone, deaf, empty, full, back, told;
static mqd_t many[MANY];
static volatile sig_atomic_t notices;

static void count(int number)
{
    (void)number;
    ++notices;
}

static mqd_t open_one(const char *name, int flags)
{
    struct mq_attr attr = room_for(4);
    mqd_t it = mq_open(name, flags | O_CREAT, 0600, &attr);
    WANT(it != -1);
    return it;
}

/* ---- what is there ---- */

static void fill(mqd_t queue, const char *letters)
{
    for (int i = 0; letters[i] != 0; ++i)
        WANT(mq_send(queue, &letters[i], 1, (unsigned)(letters[i] % 3)) == 0);
}

/* The messages that are left, in the order in which they are received. */
static bool has(mqd_t queue, const char *letters)
{
    struct timespec past = {0, 0};
    unsigned prio;
    char buf[8];
    for (int i = 0; letters[i] != 0; ++i)
        if (mq_timedreceive(queue, buf, sizeof buf, &prio, &past) != 1 || buf[0] != letters[i] ||
            prio != (unsigned)(letters[i] % 3))
            return false;
    return mq_timedreceive(queue, buf, sizeof buf, &prio, &past) == -1 && errno == ETIMEDOUT;
}

static void begin_queues(void)
{
    struct sigevent event;
    busy = fresh("/yak-short-busy", 4, 64, 0);
    gone = fresh("/yak-short-gone", 4, 8, 0);
    fill(gone, "abcd");
    WANT(mq_unlink("/yak-short-gone") == 0);
    fill(fresh("/yak-short-gone", 4, 8, 0), "xyz");
    deaf = fresh("/yak-short-deaf", 4, 8, 0);
    WANT(open_one("/yak-short-deaf", O_WRONLY) == deaf + 1 && mq_close(deaf) == 0);
    ++deaf;
    fill(deaf, "ab");
    WANT(mq_unlink("/yak-short-deaf") == 0);
    fill(open_one("/yak-short-left", O_RDWR), "kept");
    WANT(mq_close(deaf - 1) == 0); /* that of the queue that was left: its number was free */
    empty = fresh("/yak-short-empty", 4, 8, 0);
    full = fresh("/yak-short-full", 2, 8, 0);
    fill(full, "ff");
    back = fresh("/yak-short-back", 20, 8, 0);
    for (int i = 0; i < MANY; ++i)
        many[i] = open_one("/yak-short-many", i % 2 == 0 ? O_RDONLY | O_NONBLOCK : O_WRONLY);
    for (int i = 3; i < MANY; i += 7)
        WANT(mq_close(many[i]) == 0);
    told = fresh("/yak-short-told", 4, 8, 0);
    signal(SIGUSR1, count);
    memset(&event, 0, sizeof event);
    event.sigev_notify = SIGEV_SIGNAL;
    event.sigev_signo = SIGUSR1;
    WANT(mq_notify(told, &event) == 0);
}

static void end_queues(void)
{
    struct sigevent event;
    mqd_t again;
    char buf[8];
    WANT(has(gone, "badc"));
    WANT((again = mq_open("/yak-short-gone", O_RDWR)) != -1);
    WANT(messages_in(again) == 3);
    WANT(messages_in(deaf) == 2 && mq_receive(deaf, buf, sizeof buf, 0) == -1 && errno == EBADF);
    WANT((again = mq_open("/yak-short-left", O_RDWR)) != -1 && messages_in(again) == 4);
    WANT(mq_unlink("/yak-short-left") == 0);
    WANT(mq_receive(many[0], buf, sizeof buf, 0) == -1 && errno == EAGAIN);
    WANT(mq_receive(many[1], buf, sizeof buf, 0) == -1 && errno == EBADF);
    WANT(mq_receive(many[38], buf, sizeof buf, 0) == -1 && errno == EBADF);
    fill(many[5], "m");
    WANT(mq_receive(many[2], buf, sizeof buf, 0) == 1 && buf[0] == 'm');
    memset(&event, 0, sizeof event);
    event.sigev_notify = SIGEV_NONE;
    WANT(mq_notify(told, &event) == -1 && errno == EBUSY && notices == 0);
    fill(told, "n");
    /* ThreadSanitizer runs a handler only when its thread wakes. */
    WANT((notices == 1 || HAS_THREAD_SANITIZER) && mq_notify(told, &event) == 0);
}

/* ---- waits ---- */

static void *receive_one(void *of)
{
    const char own = (char)(long)of;
    char buf[8], answer[2];
    WANT(mq_receive(empty, buf, sizeof buf, 0) == 1);
    answer[0] = own;
    answer[1] = buf[0];
    WANT(mq_send(back, answer, 2, 0) == 0);
    return 0;
}

static void *send_one(void *of)
{
    const char own = (char)(long)of;
    WANT(mq_send(full, &own, 1, 0) == 0);
    return 0;
}

static void begin_wait(void *(*run)(void *), long which)
{
    pthread_t thread;
    FILE *nowhere = fopen("/dev/null", "w");
    int before;
    WANT(nowhere != 0);
    before = yak_program_report(nowhere);
    WANT(pthread_create(&thread, 0, run, (void *)which) == 0);
    pthread_detach(thread);
    while (yak_program_report(nowhere) == before)
        pause_for(1);
    fclose(nowhere);
}

/* Wait i belongs to the parent if i is even, else to the child, which takes its turn by a pipe. */
static int turns[2][2];

static void await_turn(int of)
{
    char byte;
    WANT(read(turns[of][0], &byte, 1) == 1);
}

static void give_turn(int to)
{
    WANT(write(turns[to][1], "", 1) == 1);
}

static void wait_in_turns(int of, void *(*run)(void *), char first)
{
    for (int i = of; i < WAITS; i += 2) {
        await_turn(of);
        begin_wait(run, first + i);
        give_turn(1 - of);
    }
}

static void end_waits(void)
{
    char buf[8], byte;
    for (int i = 0; i < WAITS; ++i) {
        byte = (char)('0' + i);
        WANT(mq_send(empty, &byte, 1, 0) == 0);
        WANT(mq_receive(back, buf, sizeof buf, 0) == 2 && buf[0] == 'A' + i && buf[1] == byte);
    }
    for (int i = -2; i < WAITS; ++i)
        WANT(mq_receive(full, buf, sizeof buf, 0) == 1 && buf[0] == (i < 0 ? 'f' : 'a' + i));
}

/* ---- many calls ---- */

static void pass(long calls)
{
    char bytes[64];
    memset(bytes, 'b', sizeof bytes);
    for (long i = 0; i < calls; ++i) {
        WANT(mq_send(busy, bytes, sizeof bytes, 1) == 0);
        WANT(mq_receive(busy, bytes, sizeof bytes, 0) == (ssize_t)sizeof bytes);
    }
}

static long resident(void)
{
    struct rusage now;
    WANT(getrusage(RUSAGE_SELF, &now) == 0);
    return now.ru_maxrss;
}

int main(int words, char **word)
{
    const long calls = words == 2 ? atol(word[1]) : 100000;
    pid_t child;
    long before;
    WANT(pipe(turns[0]) == 0 && pipe(turns[1]) == 0);
    begin_queues();
    begin_wait(receive_one, 'A');
    child = fork();
    if (child == 0) {
        wait_in_turns(1, receive_one, 'A');
        wait_in_turns(1, send_one, 'a');
        pass(calls);
        give_turn(0);
        await_turn(1);
        _exit(0);
    }
    give_turn(1);
    for (int i = 2; i < WAITS; i += 2) {
        await_turn(0);
        begin_wait(receive_one, 'A' + i);
        give_turn(1);
    }
    wait_in_turns(0, send_one, 'a');
    pass(calls / 10);
    before = resident();
    pass(calls);
    await_turn(0);
    await_turn(0);
    WANT(resident() - before < 4096 || HAS_ADDRESS_SANITIZER || HAS_THREAD_SANITIZER);
    end_queues();
    end_waits();
    give_turn(1);
    ends_well(child);
    puts("well");
    return 0;
}
