/* Systems continue from the journal of another: with open waits, also answered ones and ones with a
 * deadline, with notices and registrations, descriptors with gaps, and an unlinked queue. Each
 * reason why a journal can't be resumed has its own return code, with the number of the line; then
 * the handles are empty and no memory is kept, also if any allocation fails. A journal of 1,000
 * messages is resumed within 2 milliseconds. */
#include <yakyrombe.h>

#include "../memory.h"
#include "sanitized.h"

#include <pthread.h>
#include <string.h>

enum {
    PROCESSES = 5,
    MSGSIZE = 16,
    MESSAGES = 1000,
    ROUNDS = 20,
    MOST_NANOS = 6000000,
    ROOM = 1000
};

typedef uint32_t resumes(yak_process *processes, size_t count, const uint8_t *journal, size_t len,
                         uint64_t *line);

/* A journal as text. */
typedef struct journal {
    char *text;
    size_t len;
} journal;

static yak_process processes[PROCESSES];
static const yak_moment EARLY = {.sec = 1}, LATE = {.sec = 100};

/* Ends the program if the condition is false. */
#define WANT(what)                                            \
    do                                                        \
        if (!(what)) {                                        \
            printf("line %d: not so: %s\n", __LINE__, #what); \
            exit(1);                                          \
        }                                                     \
    while (0)

/* ---- allocations that fail ---- */

/* How many blocks are allocated, and how many more allocations succeed: all, if it is negative. */
static long blocks, left = -1;

static bool is_refused(void)
{
    return left == 0 || (left > 0 && left-- == 0);
}

rattle_tried rattle_alloc(size_t size, size_t align)
{
    void *p = is_refused() ? 0 : malloc(size != 0 ? size : align);
    __atomic_fetch_add(&blocks, p != 0, __ATOMIC_SEQ_CST);
    return rattle_tried_with(p);
}

rattle_tried rattle_realloc(void *p, size_t kept, size_t size, size_t align)
{
    (void)kept;
    return rattle_tried_with(is_refused() ? 0 : realloc(p, size != 0 ? size : align));
}

void rattle_dealloc(void *p)
{
    __atomic_fetch_sub(&blocks, 1, __ATOMIC_SEQ_CST);
    free(p);
}

/* ---- calls ---- */

static uint32_t open_queue(int p, const char *name, int64_t maxmsg, bool creates)
{
    const yak_opening opening = {
        .maxmsg = maxmsg, .msgsize = MSGSIZE, .access = 2, .create = creates, .limited = true};
    uint32_t d = UINT32_MAX;
    const uint32_t answer =
        yak_open(&processes[p], (const uint8_t *)name, strlen(name), &opening, &d);
    WANT(answer == (creates ? YAK_DONE : YAK_NOENT));
    return d;
}

static uint32_t send(int p, uint32_t d, const char *message, uint32_t prio)
{
    return yak_start_send(&processes[p], d, (const uint8_t *)message, strlen(message), prio);
}

static bool has(const uint8_t *buf, yak_message got, const char *message, uint32_t prio)
{
    return got.len == strlen(message) && memcmp(buf, message, got.len) == 0 && got.prio == prio;
}

static void finish(void)
{
    WANT(yak_finish(processes, PROCESSES) == YAK_DONE && blocks == 0);
}

static journal written(void)
{
    journal made = {0, 0};
    FILE *to = open_memstream(&made.text, &made.len);
    WANT(to != 0 && yak_write_journal(&processes[0], to) == YAK_DONE && fclose(to) == 0);
    return made;
}

static uint32_t resume(resumes *by, journal from, size_t count, uint64_t *line)
{
    return by(processes, count, (const uint8_t *)from.text, from.len, line);
}

/* Resumes with bounds that leave room. */
static uint32_t resume_bounded(yak_process *first, size_t count, const uint8_t *text, size_t len,
                               uint64_t *line)
{
    return yak_resume_bounded(first, count, ROOM, ROOM, text, len, line);
}

static uint64_t lines_of(journal from)
{
    uint64_t lines = 0;
    for (size_t i = 0; i < from.len; ++i)
        lines += from.text[i] == '\n';
    return lines;
}

/* ---- what continues ---- */

/* An unlinked queue has a message. Process 2 has a gap before its descriptor, and a notice;
 * processes 3 and 4 wait to receive; the send of process 5 waits and is answered. */
static journal begin(void)
{
    yak_message message;
    uint8_t buf[MSGSIZE];
    WANT(yak_new(processes, PROCESSES) == YAK_DONE);
    WANT(open_queue(0, "/q", 2, true) == 0 && open_queue(0, "/gone", 2, true) == 1);
    WANT(send(0, 1, "kept", 3) == YAK_DONE);
    WANT(yak_unlink(&processes[0], (const uint8_t *)"/gone", 5) == YAK_DONE);
    WANT(open_queue(1, "/q", 2, true) == 0 && open_queue(1, "/r", 1, true) == 1);
    WANT(yak_close(&processes[1], 0) == YAK_DONE);
    WANT(yak_notify(&processes[1], 1, true, 7) == YAK_DONE);
    WANT(open_queue(0, "/r", 1, true) == 2 && send(0, 2, "full", 0) == YAK_DONE);
    WANT(open_queue(2, "/q", 2, true) == 0);
    WANT(yak_start_receive(&processes[2], 0, buf, sizeof buf, &message) == YAK_WAITS);
    WANT(open_queue(3, "/q", 2, true) == 0);
    WANT(yak_start_timed_receive(&processes[3], 0, buf, sizeof buf, &message, &LATE, &EARLY) ==
         YAK_WAITS);
    WANT(open_queue(4, "/r", 1, true) == 0 && send(4, 0, "behind", 1) == YAK_WAITS);
    WANT(yak_receive(&processes[0], 2, buf, sizeof buf, &message) == YAK_DONE);
    WANT(yak_notify(&processes[0], 2, true, 8) == YAK_DONE);
    return written();
}

static void *await_third(void *buf)
{
    static yak_message message;
    return yak_await(&processes[2], (uint8_t *)buf, MSGSIZE, &message) == YAK_DONE ? &message : 0;
}

/* The wait of process 3 continues in a thread. */
static void third_is_served(void)
{
    pthread_t thread;
    uint8_t buf[MSGSIZE];
    void *got = 0;
    WANT(yak_answered(&processes[2]) == YAK_WAITS);
    WANT(pthread_create(&thread, 0, await_third, buf) == 0);
    WANT(send(0, 0, "hello", 4) == YAK_DONE && pthread_join(thread, &got) == 0);
    WANT(got != 0 && has(buf, *(yak_message *)got, "hello", 4));
}

/* That of process 4 ends at its deadline, and not before. */
static void fourth_is_late(void)
{
    static const yak_moment before = {.sec = 99, .nsec = 999999999};
    yak_message message;
    uint8_t buf[MSGSIZE];
    WANT(yak_collect(&processes[3], buf, 0, &message) == YAK_SHORT);
    WANT(yak_end_wait(&processes[3], buf, sizeof buf, &message, &before) == YAK_EARLY);
    WANT(yak_end_wait(&processes[3], buf, sizeof buf, &message, &LATE) == YAK_TIMEDOUT);
}

static void rest_is_there(void)
{
    yak_message message;
    uint8_t buf[MSGSIZE];
    uint64_t value = 0;
    WANT(yak_receive(&processes[0], 1, buf, sizeof buf, &message) == YAK_DONE);
    WANT(has(buf, message, "kept", 3));
    open_queue(0, "/gone", 2, false);
    WANT(yak_next_notice(&processes[1], &value) == YAK_DONE && value == 7);
    WANT(yak_next_notice(&processes[1], &value) == YAK_NO_NOTICE);
    WANT(open_queue(1, "/other", 2, true) == 0);
    WANT(yak_notify(&processes[1], 1, true, 9) == YAK_BUSY);
    WANT(yak_receive(&processes[4], 0, buf, sizeof buf, &message) == YAK_DONE);
    WANT(has(buf, message, "behind", 1) && send(4, 0, "again", 0) == YAK_DONE);
    WANT(yak_next_notice(&processes[0], &value) == YAK_DONE && value == 8);
    WANT(yak_check(&processes[0]) == YAK_DONE);
}

/* Everything continues after the journal, the first time with an answered wait. */
static void all_goes_on(resumes *by, journal from)
{
    const uint64_t entries = lines_of(from);
    uint64_t line = 77;
    yak_message message;
    journal collected;
    uint8_t none[1];
    WANT(resume(by, from, PROCESSES, &line) == YAK_DONE && line == 77);
    WANT(yak_answered(&processes[4]) == YAK_DONE);
    WANT(yak_collect(&processes[4], none, 0, &message) == YAK_DONE);
    collected = written();
    finish();
    WANT(collected.len > from.len && memcmp(collected.text, from.text, from.len) == 0);
    WANT(resume(by, collected, PROCESSES, &line) == YAK_DONE && line == 77);
    if (by != yak_resume_short) {
        size_t len;
        uint8_t text[128];
        WANT(yak_entry(&processes[0], entries, text, sizeof text, &len) == YAK_DONE);
        WANT(yak_entry(&processes[0], entries + 1, text, sizeof text, &len) == YAK_NO_ENTRY);
    }
    third_is_served();
    fourth_is_late();
    rest_is_there();
    finish();
    free(collected.text);
}

/* A journal without lines makes a new system. */
static void none_is_new(resumes *by)
{
    uint64_t line = 77;
    const journal none = {.text = (char *)&line};
    WANT(resume(by, none, PROCESSES, &line) == YAK_DONE && line == 77);
    WANT(open_queue(4, "/q", 1, true) == 0);
    finish();
}

/* ---- what can't be resumed ---- */

static void is_refused_so(resumes *by, journal from, size_t count, uint32_t answer, uint64_t at)
{
    uint64_t line = 77;
    WANT(resume(by, from, count, &line) == answer && line == at && blocks == 0);
    for (int p = 0; p < PROCESSES; ++p)
        WANT(yak_answered(&processes[p]) == YAK_EMPTY);
}

static void text_is_refused(resumes *by, const char *text, uint32_t answer, uint64_t at)
{
    const journal from = {.text = (char *)text, .len = strlen(text)};
    is_refused_so(by, from, PROCESSES, answer, at);
}

static void journals_are_refused(resumes *by, journal from)
{
    const journal cut = {.text = from.text, .len = from.len - 1};
    const uint64_t entries = lines_of(from);
    uint64_t line = 77;
    text_is_refused(by, "\n", YAK_BAD_LINE, 1);
    text_is_refused(by, "0 1 unlink \"/q\" -> ENOENT\n1 1 unlink -> ENOENT", YAK_BAD_LINE, 2);
    text_is_refused(by, "0 1 close 0 -> ok\n", YAK_ILLEGAL, 1);
    text_is_refused(by, "0 1 notice -> notice none\n1 33 notice -> notice none\n", YAK_BAD_LINE, 2);
    text_is_refused(by, "0 1 notice -> notice none\n1 1.65 notice -> EBADF\n", YAK_ILLEGAL, 2);
    text_is_refused(by, "0 1 notice -> notice none\n1 1.2 notice -> notice none\n", YAK_FOREIGN, 2);
    is_refused_so(by, cut, PROCESSES, YAK_BAD_LINE, entries);
    is_refused_so(by, from, PROCESSES - 1, YAK_FOREIGN, entries - 3);
    is_refused_so(by, from, 0, YAK_INVAL, 77);
    WANT(yak_new(&processes[2], 1) == YAK_DONE);
    WANT(resume(by, from, PROCESSES, &line) == YAK_FULL && line == 77);
    WANT(yak_free(&processes[2]) == YAK_DONE && yak_answered(&processes[0]) == YAK_EMPTY);
    WANT(yak_errno(YAK_BAD_LINE) == EINVAL && yak_errno(YAK_ILLEGAL) == EINVAL);
}

/* Each allocation fails once, until there are no more. */
static void memory_is_refused(resumes *by, journal from)
{
    long refused = 0;
    uint64_t line = 77;
    for (left = 0; resume(by, from, PROCESSES, &line) != YAK_DONE; left = ++refused) {
        WANT(blocks == 0 && line == 77 && yak_answered(&processes[0]) == YAK_EMPTY);
        left = -1;
    }
    left = -1;
    WANT(refused > 10);
    finish();
}

/* ---- bounds ---- */

static uint32_t resume_within(journal from, uint64_t entries, uint64_t bytes)
{
    uint64_t line = 77;
    const uint32_t answer = yak_resume_bounded(processes, PROCESSES, entries, bytes,
                                               (const uint8_t *)from.text, from.len, &line);
    WANT(line == 77 && (answer == YAK_DONE || blocks == 0));
    return answer;
}

/* The smallest bounds are the journal's payload bytes, and one more entry for each of its three
 * open waits. With these each wait can end, no other call succeeds, and no call allocates. */
static void bounds_hold(journal from)
{
    const uint64_t entries = lines_of(from) + 3;
    yak_room_left room;
    yak_message message;
    uint8_t none[1];
    uint64_t bytes;
    WANT(resume_within(from, ROOM, ROOM) == YAK_DONE && yak_room(&processes[0], &room) == YAK_DONE);
    WANT(room.entries == ROOM - entries && room.bytes < ROOM);
    bytes = ROOM - room.bytes;
    finish();
    WANT(resume_within(from, entries - 1, bytes) == YAK_JOURNALFULL);
    WANT(resume_within(from, entries, bytes - 1) == YAK_JOURNALFULL);
    WANT(resume_within(from, entries, bytes) == YAK_DONE);
    left = 0;
    WANT(yak_room(&processes[0], &room) == YAK_DONE && room.entries == 0 && room.bytes == 0);
    WANT(yak_close(&processes[0], 0) == YAK_JOURNALFULL);
    WANT(yak_collect(&processes[4], none, 0, &message) == YAK_DONE);
    WANT(yak_end_wait(&processes[3], none, 0, &message, &LATE) == YAK_SHORT);
    WANT(yak_close(&processes[4], 0) == YAK_JOURNALFULL);
    left = -1;
    finish();
}

/* ---- how long it takes ---- */

static int64_t nanos_of(resumes *by, journal from)
{
    struct timespec before, after;
    uint64_t line = 77;
    clock_gettime(CLOCK_THREAD_CPUTIME_ID, &before);
    WANT(resume(by, from, PROCESSES, &line) == YAK_DONE);
    clock_gettime(CLOCK_THREAD_CPUTIME_ID, &after);
    finish();
    return (after.tv_sec - before.tv_sec) * 1000000000 + after.tv_nsec - before.tv_nsec;
}

/* The minimum of some rounds, in time of the processor, because the machine may be busy. A resume
 * takes one millisecond, two if another thread shares the core, and tens if each entry reads the
 * journal again. */
static bool is_quick(resumes *by, journal from, bool tells)
{
    int64_t least = INT64_MAX;
    for (int i = 0; i < ROUNDS; ++i) {
        const int64_t nanos = nanos_of(by, from);
        if (nanos < least)
            least = nanos;
    }
    if (tells)
        printf("%ld microseconds\n", (long)(least / 1000));
    return least <= MOST_NANOS || HAS_ADDRESS_SANITIZER || HAS_THREAD_SANITIZER;
}

static void many_are_quick(bool tells)
{
    journal from;
    WANT(yak_new(processes, PROCESSES) == YAK_DONE);
    WANT(open_queue(0, "/q", MESSAGES, true) == 0);
    for (int i = 0; i < MESSAGES; ++i)
        WANT(send(0, 0, "message", (uint32_t)(i % 10)) == YAK_DONE);
    from = written();
    finish();
    WANT(is_quick(yak_resume, from, tells));
    if (tells)
        is_quick(yak_resume_short, from, tells);
    free(from.text);
}

int main(int count, char **words)
{
    resumes *const ways[] = {yak_resume, yak_resume_short, resume_bounded};
    const journal from = begin();
    (void)words;
    finish();
    for (int i = 0; i < 3; ++i) {
        all_goes_on(ways[i], from);
        none_is_new(ways[i]);
        journals_are_refused(ways[i], from);
        memory_is_refused(ways[i], from);
    }
    bounds_hold(from);
    many_are_quick(count > 1);
    free(from.text);
    puts("well");
    return 0;
}
