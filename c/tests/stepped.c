/* What happens behind a random instruction of a call: a tracer lets a child make so many single
 * steps, and kills it, or lets a handler interrupt it that makes calls or forks. If it was killed,
 * the queues are as if the call had been made, or as if it had not; what others send is not lost,
 * and what the child had received is, at most. If it was interrupted, the call comes to its end,
 * and no message is lost or comes twice. Over the kernel's queues it prints the same.
 *
 * usage: stepped [TIMES [SEED]] */
#define _GNU_SOURCE
#include <signal.h>
#include <stdatomic.h>
#include <stdbool.h>
#include <sys/ptrace.h>

#include "family.h"

enum { ROOM = 4 };

/* What the child has reached: it stands before its call, it has returned. */
enum { AT_START = 1, IS_BACK };
static _Atomic int *reached;
static mqd_t queue, other;
static char buf[8];

/* Each returns by how many messages more are in the queue. */
static int send_one(void)
{
    return mq_send(queue, "c", 1, 1) == 0;
}

static int receive_one(void)
{
    return -(mq_receive(queue, buf, sizeof buf, 0) >= 0);
}

static int receive_until(void)
{
    struct timespec soon = after(1);
    return -(mq_timedreceive(queue, buf, sizeof buf, 0, &soon) >= 0);
}

static int fork_one(void)
{
    if (fork() == 0)
        _exit(0);
    return 0;
}

/* What the dead hold is looked for. */
static int unlink_nothing(void)
{
    mq_unlink("/yak-stepped-nothing");
    return 0;
}

static int register_it(void)
{
    struct sigevent event;
    memset(&event, 0, sizeof event);
    event.sigev_notify = SIGEV_NONE;
    mq_notify(queue, &event);
    return 0;
}

static int open_and_close(void);

/* A call: how many messages of the parent are in the queue before, by how many the killed child may
 * have changed that. The parent sends one more while the child waits; or a receiver has died before
 * to which the first message was handed, and which the call finds. */
enum { ALONE, ANSWERED, BEHIND_DEAD };
typedef struct call {
    int (*make)(void);
    int before, least, most, how;
    unsigned steps; /* some more than it takes */
} call;

static call calls[] = {
    {send_one, 0, 0, 1, ALONE, 0},
    {send_one, ROOM, 0, 0, ALONE, 0},
    {receive_one, 2, -1, 0, ALONE, 0},
    {receive_one, 0, 0, 0, ALONE, 0},
    {receive_one, 0, -1, 0, ANSWERED, 0},
    {receive_until, 0, 0, 0, ALONE, 0},
    {fork_one, 1, 0, 0, ALONE, 0},
    {open_and_close, 1, 0, 0, ALONE, 0},
    {register_it, 0, 0, 0, ALONE, 0},
    {receive_one, 3, -1, 0, BEHIND_DEAD, 0},
    {unlink_nothing, 3, 0, 0, BEHIND_DEAD, 0},
};
enum { CALLS = sizeof calls / sizeof calls[0] };

/* What becomes of the child: a handler makes calls, or forks. */
enum { KILL, CALL, FORK, WAYS };
static int way;
/* Whether this is the child of the handler; and what both came to. */
static bool is_second;
static _Atomic int *results, *ended;

/* What is opened on a copy is not there when the copy is gone. */
static int open_and_close(void)
{
    WANT(mq_close(mq_open("/yak-stepped-other", O_RDWR)) == 0 || is_second);
    return 0;
}

static void handle(int number)
{
    char own[8];
    const int error = errno;
    (void)number;
    if (way == FORK)
        is_second = fork() == 0;
    else if (mq_send(other, "h", 1, 0) == 0)
        WANT(mq_receive(other, own, sizeof own, 0) == 1);
    else
        WANT(errno == EDEADLK);
    errno = error;
}

static void run(const call *it)
{
    struct sigaction action;
    int result;
    memset(&action, 0, sizeof action);
    action.sa_handler = handle;
    action.sa_flags = SA_RESTART;
    WANT(sigaction(SIGUSR1, &action, 0) == 0);
    ptrace(PTRACE_TRACEME, 0, 0, 0);
    /* So that the step of a new process is not part of the call. */
    if (it->how != BEHIND_DEAD)
        messages_in(other);
    atomic_store(reached, AT_START);
    raise(SIGSTOP);
    result = it->make();
    atomic_store(reached, IS_BACK);
    if (way == KILL)
        pause_for(60000);
    atomic_store(&results[is_second], result);
    atomic_fetch_add(ended, 1);
    _exit(0);
}

/* Waits until a step is done: false if the child sleeps. */
static bool steps_on(pid_t child)
{
    int status;
    for (int i = 0; i < 200; ++i) {
        const pid_t found = waitpid(child, &status, WNOHANG | __WALL);
        WANT(found == 0 || (found == child && WIFSTOPPED(status)));
        if (found == child)
            return true;
        if (i > 20)
            usleep(50);
    }
    return false;
}

static bool step(pid_t child)
{
    WANT(ptrace(PTRACE_SINGLESTEP, child, 0, 0) == 0);
    return steps_on(child);
}

/* Makes so many steps: how many were made when the call was over or slept. */
static unsigned make_steps(pid_t child, unsigned most, bool *sleeps)
{
    unsigned made = 0;
    *sleeps = false;
    while (made < most && atomic_load(reached) != IS_BACK && !*sleeps) {
        *sleeps = !step(child);
        ++made;
    }
    return made;
}

static long count_left(void)
{
    struct timespec past = {0, 0};
    long count = 0;
    while (mq_timedreceive(queue, buf, sizeof buf, 0, &past) >= 0)
        ++count;
    WANT(errno == ETIMEDOUT);
    return count;
}

/* After some waits in vain the library begins a wait without trying again before, which would take
 * most steps. */
static void wait_in_vain(void)
{
    for (int i = 0; i < 20; ++i) {
        struct timespec soon = after(0);
        soon.tv_nsec += soon.tv_nsec < 999000000 ? 100000 : 0;
        WANT(mq_timedreceive(other, buf, sizeof buf, 0, &soon) == -1 && errno == ETIMEDOUT);
    }
}

static unsigned lost;

static void receive_for_dead(void)
{
    receive_one();
}

static pid_t begin(const call *it)
{
    int status;
    pid_t child, dead = 0;
    if (it->how == BEHIND_DEAD) {
        dead = begin_child(receive_for_dead);
        pause_for(2);
        await_sleep(dead);
        WANT(kill(dead, SIGSTOP) == 0 && waitpid(dead, &status, WUNTRACED) == dead);
    }
    for (int i = 0; i < it->before; ++i)
        WANT(mq_send(queue, "p", 1, 1) == 0);
    wait_in_vain();
    if (dead != 0)
        WANT(kill(dead, SIGKILL) == 0 && waitpid(dead, &status, 0) == dead);
    atomic_store(reached, 0);
    atomic_store(ended, 0);
    atomic_store(&results[0], 0);
    atomic_store(&results[1], 0);
    child = fork();
    if (child == 0)
        run(it);
    WANT(waitpid(child, &status, __WALL) == child && WIFSTOPPED(status));
    return child;
}

static void kill_in(call *it, unsigned most)
{
    unsigned made;
    bool sleeps, was_answered = false;
    int status;
    long left;
    const pid_t child = begin(it);
    made = make_steps(child, most, &sleeps);
    if (it->how == ANSWERED && sleeps) {
        /* It wakes, and goes on by steps. */
        WANT(mq_send(queue, "p", 1, 1) == 0);
        was_answered = true;
        if (steps_on(child))
            made += make_steps(child, made < most ? most - made : 0, &sleeps);
    }
    if (made + 16 > it->steps)
        it->steps = made + 16;
    WANT(kill(child, SIGKILL) == 0 && waitpid(child, &status, __WALL) == child);
    if (it->how == ANSWERED && !was_answered)
        WANT(mq_send(queue, "p", 1, 1) == 0);
    left = count_left() - it->before - (it->how == ANSWERED ? 1 : 0);
    if (left < it->least || left > it->most || (it->how == ANSWERED && !was_answered && left != 0))
        printf("call %d, %u of %u steps: %ld messages more\n", (int)(it - calls), made, most, left);
    WANT(left >= it->least && left <= it->most);
    WANT(it->how != ANSWERED || was_answered || left == 0);
    lost += left < 0;
    WANT(mq_send(other, "o", 1, 0) == 0 && mq_receive(other, buf, sizeof buf, 0) == 1);
}

/* Lets an interrupted call come to its end: what it waits for comes, and is counted. */
static int help(const call *it, int wanted)
{
    int helped = 0;
    for (int i = 0; i < 20000 && atomic_load(ended) < wanted; ++i) {
        usleep(i < 20 ? 50 : 500);
        if (i % 10 != 9)
            continue;
        if (it->make == send_one && messages_in(queue) == ROOM) {
            struct timespec past = {0, 0};
            helped -= mq_timedreceive(queue, buf, sizeof buf, 0, &past) >= 0;
        } else if (it->make == receive_one && messages_in(queue) == 0) {
            WANT(mq_send(queue, "p", 1, 1) == 0);
            ++helped;
        }
    }
    return helped;
}

/* A handler interrupts the child behind so many steps. If it forks, the second child may complete
 * the call on a copy, of which the queue knows nothing. */
static void interrupt_in(const call *it, unsigned most)
{
    const pid_t child = begin(it);
    int helped, status, first, second;
    bool sleeps, is_sent = false;
    long left;
    make_steps(child, most, &sleeps);
    if (sleeps) {
        /* It stops for the signal, or its step ends by now. */
        WANT(kill(child, SIGUSR1) == 0 && waitpid(child, &status, __WALL) == child);
        is_sent = WSTOPSIG(status) != SIGUSR1;
    }
    WANT(ptrace(PTRACE_DETACH, child, 0, (void *)(long)(is_sent ? 0 : SIGUSR1)) == 0);
    helped = help(it, way == FORK ? 2 : 1);
    if (atomic_load(ended) != (way == FORK ? 2 : 1))
        printf("way %d, call %d, %u steps: it has not ended\n", way, (int)(it - calls), most);
    WANT(atomic_load(ended) == (way == FORK ? 2 : 1));
    WANT(waitpid(child, &status, __WALL) == child && WIFEXITED(status) && WEXITSTATUS(status) == 0);
    first = atomic_load(&results[0]);
    second = atomic_load(&results[1]);
    left = count_left() - it->before - helped - first;
    if (left != 0 && left != second)
        printf("way %d, call %d, %u steps: %ld messages more\n", way, (int)(it - calls), most,
               left);
    WANT(left == 0 || left == second);
}

static unsigned random_state;

static unsigned random_below(unsigned most)
{
    random_state = random_state * 1103515245u + 12345u;
    return (random_state >> 8) % most;
}

int main(int count, char **words)
{
    const unsigned times = count > 1 ? (unsigned)atoi(words[1]) : 200;
    unsigned steps = 0;
    random_state = count > 2 ? (unsigned)atoi(words[2]) : 1;
    reached = shared_memory(sizeof *reached);
    results = shared_memory(2 * sizeof *results);
    ended = shared_memory(sizeof *ended);
    queue = fresh("/yak-stepped", ROOM, 8, 0);
    other = fresh("/yak-stepped-other", ROOM, 8, 0);
    WANT(mq_unlink("/yak-stepped") == 0);
    for (unsigned i = 0; i < CALLS; ++i) {
        kill_in(&calls[i], 1u << 20);
        steps += calls[i].steps;
    }
    lost = 0;
    for (unsigned i = 0; i < times; ++i) {
        call *it = &calls[i % CALLS];
        way = KILL;
        kill_in(it, random_below(it->steps));
        for (way = CALL; way < WAYS; ++way)
            interrupt_in(it, random_below(it->steps));
    }
    printf("%u times in calls of %u steps: %u times a receiver had its message\n", times, steps,
           lost);
    WANT(mq_unlink("/yak-stepped-other") == 0);
    puts("well");
    return 0;
}
