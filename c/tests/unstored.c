/* A system whose journal is not stored: messages pass between two threads, and calls that would
 * read the journal return YAK_UNSTORED. */
#include <yakyrombe.h>

#include <pthread.h>
#include <string.h>

enum { MESSAGES = 20000, DEPTH = 10 };

static const yak_opening OPENING = {
    .maxmsg = DEPTH, .msgsize = sizeof(uint32_t), .access = 2, .create = true, .limited = true};
static const uint8_t NAME[] = {'/', 'q'};
static yak_process processes[2];

static uint32_t open_queue(yak_process *process, uint32_t *d)
{
    uint32_t answer;
    answer = yak_open(process, NAME, sizeof NAME, &OPENING, d);
    return answer;
}

static void *send_all(void *process)
{
    static uint32_t fault;
    uint32_t d = 0;
    fault = open_queue((yak_process *)process, &d);
    for (uint32_t i = 0; i < MESSAGES && fault == YAK_DONE; ++i) {
        uint8_t bytes[sizeof i];
        memcpy(bytes, &i, sizeof i);
        fault = yak_send((yak_process *)process, d, bytes, sizeof bytes, 0);
    }
    return &fault;
}

static uint32_t receive_all(yak_process *process, uint32_t d)
{
    for (uint32_t i = 0; i < MESSAGES; ++i) {
        uint8_t bytes[sizeof i];
        yak_message message;
        uint32_t got = 0, answer = yak_receive(process, d, bytes, sizeof bytes, &message);
        if (answer != YAK_DONE)
            return answer;
        memcpy(&got, bytes, sizeof got);
        if (got != i)
            return YAK_INVAL;
    }
    return YAK_DONE;
}

/* Passes all messages between the two processes. */
static bool pass_all(uint32_t d)
{
    pthread_t thread;
    void *fault = 0;
    uint32_t answer;
    if (pthread_create(&thread, 0, send_all, &processes[0]) != 0)
        return false;
    answer = receive_all(&processes[1], d);
    return pthread_join(thread, &fault) == 0 && *(uint32_t *)fault == YAK_DONE &&
           answer == YAK_DONE;
}

static void no_line(void *with, const uint8_t *text, size_t len)
{
    (void)with;
    (void)text;
    (void)len;
}

/* Each function that reads the journal says that it is not stored; the room is unlimited. */
static bool is_unstored(yak_process *process)
{
    uint8_t line[64];
    size_t len = 0;
    yak_room_left room = {0, 0};
    uint32_t checked, read, left, nobody;
    FILE *to = tmpfile();
    const bool is_written =
        to == 0 || yak_write_journal(process, to) != YAK_UNSTORED || ftell(to) != 0;
    if (to != 0)
        fclose(to);
    checked = yak_check(process);
    read = yak_entry(process, 0, line, sizeof line, &len);
    left = yak_room(process, &room);
    nobody = yak_nobody_can_call(process);
    return !is_written && checked == YAK_UNSTORED && read == YAK_UNSTORED &&
           yak_errno(read) == ENOTSUP && left == YAK_DONE && room.entries == UINT64_MAX &&
           room.bytes == UINT64_MAX && nobody == YAK_GOES_ON;
}

int main(void)
{
    uint32_t d = 0;
    if (yak_unstored(processes, 2) != YAK_DONE || open_queue(&processes[1], &d) != YAK_DONE)
        return 1;
    if (!pass_all(d))
        puts("messages were lost");
    else if (!is_unstored(&processes[1]))
        puts("the journal is read");
    else if (yak_lines(&processes[0], no_line, 0) != YAK_UNSTORED ||
             yak_finish(processes, 2) != YAK_DONE)
        puts("the end");
    else
        puts("well");
    return 0;
}
