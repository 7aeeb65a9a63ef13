/* The clock that a call is given measures its deadline: CLOCK_REALTIME, CLOCK_MONOTONIC or a clock
 * of the program. A wait in two parts ends in the same ways. */
#include <yakyrombe.h>

#include <pthread.h>

static yak_process processes[2];
static int asked;

/* A clock that advances by a second at each read. */
static yak_moment steps(void)
{
    const yak_moment now = {.sec = ++asked};
    return now;
}

static int64_t millis_between(yak_moment from, yak_moment to)
{
    return (to.sec - from.sec) * 1000 + (to.nsec - from.nsec) / 1000000;
}

/* The moment `millis` milliseconds from now. */
static yak_moment after(yak_clock *clock, int millis)
{
    yak_moment moment = clock();
    moment.nsec += (int64_t)millis * 1000000;
    moment.sec += moment.nsec / 1000000000;
    moment.nsec %= 1000000000;
    return moment;
}

/* An unanswered wait ends at its deadline, at most a second late. */
static bool ends_by(yak_clock *clock, uint32_t d)
{
    const yak_moment start = yak_monotonic_now(), until = after(clock, 150);
    yak_message message;
    uint8_t buf[8];
    int64_t took;
    if (yak_clock_receive(&processes[0], d, buf, sizeof buf, &message, &until, clock) !=
        YAK_TIMEDOUT)
        return false;
    took = millis_between(start, yak_monotonic_now());
    return took >= 145 && took < 1150;
}

/* The clock of the program is at its sixth second after some sleeps. */
static bool ends_by_steps(uint32_t d)
{
    const yak_moment until = {.sec = 6}, bad = {.sec = 6, .nsec = 1000000000}, past = {0};
    yak_message message;
    uint8_t buf[8];
    asked = 0;
    return yak_clock_receive(&processes[0], d, buf, sizeof buf, &message, &bad, steps) ==
               YAK_INVAL &&
           yak_clock_receive(&processes[0], d, buf, sizeof buf, &message, &past, steps) ==
               YAK_TIMEDOUT &&
           asked == 2 &&
           yak_clock_receive(&processes[0], d, buf, sizeof buf, &message, &until, steps) ==
               YAK_TIMEDOUT &&
           asked >= 6;
}

static void *send_late(void *clock)
{
    const struct timespec pause = {0, 30000000};
    const uint8_t byte = 'a';
    const yak_moment until = after(yak_monotonic_now, 60000);
    nanosleep(&pause, 0);
    if (clock != 0)
        yak_clock_send(&processes[1], 0, &byte, 1, 0, &until, yak_monotonic_now);
    else
        yak_send(&processes[1], 0, &byte, 1, 0);
    return 0;
}

/* Four ways to wait for an answer from another thread. */
static bool is_answered(uint32_t d)
{
    static int has_clock = 1;
    const yak_moment soon = after(yak_monotonic_now, 60000), late = after(yak_now, 60000);
    for (int way = 0; way < 4; ++way) {
        yak_process *process = &processes[0];
        yak_message message = {0, 0};
        uint8_t buf[8];
        uint32_t answer;
        pthread_t sender;
        if (way >= 2 && yak_start_receive(process, d, buf, sizeof buf, &message) != YAK_WAITS)
            return false;
        if (pthread_create(&sender, 0, send_late, way % 2 == 0 ? &has_clock : 0) != 0)
            return false;
        if (way == 0)
            answer =
                yak_clock_receive(process, d, buf, sizeof buf, &message, &soon, yak_monotonic_now);
        else if (way == 1)
            answer = yak_timed_receive(process, d, buf, sizeof buf, &message, &late);
        else if (way == 2)
            answer = yak_await(process, buf, sizeof buf, &message);
        else
            answer = yak_await_until(process, buf, sizeof buf, &message, &late);
        pthread_join(sender, 0);
        if (answer != YAK_DONE || message.len != 1 || buf[0] != 'a')
            return false;
    }
    return true;
}

/* Awaiting a started wait lasts until it is answered, or for the given time; the wait stays open.
 */
static bool is_awaited(uint32_t d)
{
    const int64_t nanos = 20000000, long_nanos = INT64_MAX;
    const yak_moment start = yak_monotonic_now();
    yak_process *process = &processes[0];
    yak_message message = {0, 0};
    uint8_t buf[8];
    pthread_t sender;
    int64_t took;
    if (yak_await_answered(process, nanos) != YAK_NOT_WAITING ||
        yak_start_receive(process, d, buf, sizeof buf, &message) != YAK_WAITS ||
        yak_await_answered(process, nanos) != YAK_WAITS)
        return false;
    took = millis_between(start, yak_monotonic_now());
    if (took < 19 || took >= 1000 || yak_await_answered(process, -1) != YAK_WAITS ||
        pthread_create(&sender, 0, send_late, 0) != 0)
        return false;
    while (yak_await_answered(process, long_nanos) == YAK_WAITS)
        ;
    pthread_join(sender, 0);
    return yak_await_answered(process, nanos) == YAK_DONE &&
           yak_collect(process, buf, sizeof buf, &message) == YAK_DONE && message.len == 1 &&
           buf[0] == 'a';
}

/* A wait can't be ended before its own deadline, even if the awaited one has passed. */
static bool ends_at_its_own(uint32_t d)
{
    const yak_moment now = yak_now(), soon = after(yak_now, 20), late = after(yak_now, 150);
    yak_message message;
    uint8_t buf[8];
    if (yak_start_timed_receive(&processes[0], d, buf, sizeof buf, &message, &late, &now) !=
            YAK_WAITS ||
        yak_await_until(&processes[0], buf, sizeof buf, &message, &soon) != YAK_TIMEDOUT)
        return false;
    return millis_between(now, yak_now()) >= 145;
}

/* A clock that the program moves, and how often it was read. */
static _Atomic int64_t second, reads;

static yak_moment moved_by_hand(void)
{
    const yak_moment now = {.sec = second};
    ++reads;
    return now;
}

static void pause_for(long millis)
{
    const struct timespec pause = {0, millis * 1000000};
    nanosleep(&pause, 0);
}

static void *wait_by_hand(void *d)
{
    const yak_moment until = {.sec = 3};
    yak_message message;
    uint8_t buf[8];
    const bool is_late = yak_clock_receive(&processes[0], *(uint32_t *)d, buf, sizeof buf, &message,
                                           &until, moved_by_hand) == YAK_TIMEDOUT;
    return is_late && second == 3 ? d : 0;
}

/* A wait by a clock whose owner says that it has moved reads it at each move and at no other time,
 * and ends at once. */
static bool ends_by_moves(uint32_t d)
{
    pthread_t waiter;
    void *ended;
    int64_t before;
    yak_time_has_moved(&processes[1]);
    if (pthread_create(&waiter, 0, wait_by_hand, &d) != 0)
        return false;
    /* It reads the clock when it begins, when it is about to sleep, and since it has been told. */
    for (int k = 0; k < 10000 && reads < 3; ++k)
        pause_for(1);
    before = reads;
    pause_for(300);
    if (reads != before)
        return false;
    while (second < 3) {
        ++second;
        yak_time_has_moved(&processes[1]);
        pause_for(20);
    }
    pthread_join(waiter, &ended);
    return ended != 0;
}

int main(void)
{
    static const yak_opening opening = {
        .maxmsg = 1, .msgsize = 8, .access = 2, .create = true, .limited = true};
    static const uint8_t name[] = {'/', 'q'};
    uint32_t d, other;
    if (yak_new(processes, 2) != YAK_DONE ||
        yak_open(&processes[0], name, sizeof name, &opening, &d) != YAK_DONE ||
        yak_open(&processes[1], name, sizeof name, &opening, &other) != YAK_DONE || other != 0)
        return 1;
    if (!ends_by(yak_now, d) || !ends_by(yak_monotonic_now, d))
        return 2;
    if (!ends_by_steps(d))
        return 3;
    if (!is_answered(d))
        return 4;
    if (!ends_at_its_own(d))
        return 5;
    if (!is_awaited(d))
        return 6;
    if (!ends_by_moves(d))
        return 7;
    puts("well");
    return yak_finish(processes, 2) != YAK_DONE;
}
