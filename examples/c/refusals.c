/* Each call of <mqueue.h> with each of its errors, and the return codes of calls on handles that
 * have no errno value of their own. */
#include <mqueue.h>

#include <stdio.h>
#include <stdlib.h>
#include <string.h>

static unsigned failed, passed;

static void expect(bool is_so, const char *what)
{
    if (is_so) {
        ++passed;
    } else {
        ++failed;
        printf("FAILED %s (errno %d)\n", what, errno);
    }
}

#define FAILS(error, call) expect((errno = 0, (long)(call) == -1 && errno == (error)), #call)
#define IS(wanted, call) expect((long)(call) == (long)(wanted), #call)

static struct mq_attr attributes(long maxmsg, long msgsize)
{
    struct mq_attr attr = {0, maxmsg, msgsize, 0};
    return attr;
}

static struct timespec after(long milliseconds)
{
    struct timespec t;
    clock_gettime(CLOCK_REALTIME, &t);
    t.tv_sec += milliseconds / 1000;
    t.tv_nsec += milliseconds % 1000 * 1000000;
    if (t.tv_nsec >= 1000000000) {
        t.tv_sec += 1;
        t.tv_nsec -= 1000000000;
    }
    return t;
}

static void opens(void)
{
    char longest[258], longer[259], name[16];
    struct mq_attr none = attributes(0, 8), deep = attributes(4097, 8), empty = attributes(1, 0), wide = attributes(1, 65537);
    struct mq_attr good = attributes(2, 8), got;
    memset(longest, 'a', sizeof longest);
    longest[0] = '/';
    longest[256] = 0;
    memset(longer, 'a', sizeof longer);
    longer[0] = '/';
    longer[257] = 0;
    FAILS(ENOENT, mq_open("/q", O_RDWR));
    FAILS(EINVAL, mq_open("q", O_RDWR | O_CREAT, 0600, &good));
    FAILS(EINVAL, mq_open("/", O_RDWR | O_CREAT, 0600, &good));
    FAILS(EINVAL, mq_open("", O_RDWR | O_CREAT, 0600, &good));
    FAILS(EINVAL, mq_open("/a/b", O_RDWR | O_CREAT, 0600, &good));
    FAILS(EINVAL, mq_open("/q", 3 | O_CREAT, 0600, &good));
    FAILS(EINVAL, mq_open("/q", O_RDWR | O_CREAT, 0600, &none));
    FAILS(EINVAL, mq_open("/q", O_RDWR | O_CREAT, 0600, &deep));
    FAILS(EINVAL, mq_open("/q", O_RDWR | O_CREAT, 0600, &empty));
    FAILS(EINVAL, mq_open("/q", O_RDWR | O_CREAT, 0600, &wide));
    FAILS(ENAMETOOLONG, mq_open(longer, O_RDWR | O_CREAT, 0600, &good));
    FAILS(ENAMETOOLONG, mq_unlink(longer));
    FAILS(EINVAL, mq_unlink("q"));
    FAILS(ENOENT, mq_unlink("/q"));
    IS(0, mq_open(longest, O_RDWR | O_CREAT, 0600, &good));
    IS(1, mq_open("/q", O_RDWR | O_CREAT, 0600, (struct mq_attr *)0));
    FAILS(EEXIST, mq_open("/q", O_RDWR | O_CREAT | O_EXCL, 0600, &good));
    IS(0, mq_getattr(1, &got));
    expect(got.mq_flags == 0 && got.mq_maxmsg == 10 && got.mq_msgsize == 8192 && got.mq_curmsgs == 0, "attributes by default");
    for (int i = 2; i < 16; ++i)
        IS(i, mq_open("/q", O_RDWR));
    FAILS(EMFILE, mq_open("/q", O_RDWR));
    for (int i = 0; i < 16; ++i)
        IS(0, mq_close(i));
    FAILS(EBADF, mq_close(0));
    FAILS(EBADF, mq_close(-1));
    FAILS(EBADF, mq_close(16));
    for (int i = 2; i < 64; ++i) {
        snprintf(name, sizeof name, "/n%d", i);
        IS(0, mq_open(name, O_RDWR | O_CREAT, 0600, &good));
        IS(0, mq_close(0));
    }
    FAILS(ENOSPC, mq_open("/n64", O_RDWR | O_CREAT, 0600, &good));
    for (int i = 2; i < 64; ++i) {
        snprintf(name, sizeof name, "/n%d", i);
        IS(0, mq_unlink(name));
    }
    IS(0, mq_unlink(longest));
    IS(0, mq_unlink("/q"));
    FAILS(ENOENT, mq_open("/q", O_RDWR));
}

static void messages(void)
{
    struct mq_attr small = attributes(2, 4), got, set = attributes(0, 0);
    struct timespec past = {0, 0}, bad = {0, 1000000000}, soon;
    char buf[4];
    unsigned prio = 0;
    IS(0, mq_open("/m", O_RDWR | O_CREAT | O_NONBLOCK, 0600, &small));
    IS(1, mq_open("/m", O_RDONLY));
    IS(2, mq_open("/m", O_WRONLY));
    FAILS(EBADF, mq_send(3, "a", 1, 0));
    FAILS(EBADF, mq_send(1, "a", 1, 0));
    FAILS(EBADF, mq_receive(3, buf, 4, &prio));
    FAILS(EBADF, mq_receive(2, buf, 4, &prio));
    FAILS(EINVAL, mq_send(2, "a", 1, 32768));
    FAILS(EMSGSIZE, mq_send(2, "abcde", 5, 0));
    FAILS(EMSGSIZE, mq_receive(1, buf, 3, &prio));
    FAILS(EMSGSIZE, mq_receive(1, 0, 0, &prio));
    FAILS(EAGAIN, mq_receive(0, buf, 4, &prio));
    FAILS(EAGAIN, mq_timedreceive(0, buf, 4, &prio, &past));
    FAILS(EINVAL, mq_timedreceive(1, buf, 4, &prio, &bad));
    FAILS(ETIMEDOUT, mq_timedreceive(1, buf, 4, &prio, &past));
    IS(0, mq_timedsend(2, "b", 1, 1, &past));
    IS(0, mq_send(2, 0, 0, 32767));
    FAILS(EAGAIN, mq_send(0, "c", 1, 0));
    FAILS(EAGAIN, mq_timedsend(0, "c", 1, 0, &past));
    FAILS(EINVAL, mq_timedsend(2, "c", 1, 0, &bad));
    FAILS(ETIMEDOUT, mq_timedsend(2, "c", 1, 0, &past));
    soon = after(30);
    FAILS(ETIMEDOUT, mq_timedsend(2, "c", 1, 0, &soon));
    IS(0, mq_getattr(0, &got));
    expect(got.mq_flags == O_NONBLOCK && got.mq_maxmsg == 2 && got.mq_msgsize == 4 && got.mq_curmsgs == 2, "attributes of a full queue");
    IS(0, mq_setattr(0, &set, &got));
    expect(got.mq_flags == O_NONBLOCK, "the flag from before");
    IS(0, mq_getattr(0, &got));
    expect(got.mq_flags == 0, "the flag from then on");
    FAILS(EBADF, mq_getattr(3, &got));
    FAILS(EBADF, mq_setattr(3, &set, 0));
    IS(0, mq_receive(1, buf, 4, &prio));
    expect(prio == 32767, "the highest priority first");
    IS(1, mq_timedreceive(1, buf, 4, 0, &past));
    expect(buf[0] == 'b', "the message");
    soon = after(30);
    FAILS(ETIMEDOUT, mq_timedreceive(1, buf, 4, &prio, &soon));
    for (int i = 0; i < 3; ++i)
        IS(0, mq_close(i));
    IS(0, mq_unlink("/m"));
}

static void notices(yak_process *process)
{
    struct mq_attr small = attributes(2, 4);
    struct sigevent event;
    uint64_t value = 0;
    memset(&event, 0, sizeof event);
    event.sigev_notify = SIGEV_NONE;
    event.sigev_value.sival_ptr = (void *)(uintptr_t)77;
    IS(0, mq_open("/s", O_RDWR | O_CREAT, 0600, &small));
    FAILS(EBADF, mq_notify(1, &event));
    FAILS(EINVAL, mq_notify(0, 0));
    IS(0, mq_notify(0, &event));
    FAILS(EBUSY, mq_notify(0, &event));
    event.sigev_notify = SIGEV_SIGNAL;
    FAILS(ENOSYS, mq_notify(0, &event));
    event.sigev_notify = 1234;
    FAILS(EINVAL, mq_notify(0, &event));
    IS(YAK_NO_NOTICE, yak_next_notice(process, &value));
    IS(0, mq_send(0, "a", 1, 0));
    IS(YAK_DONE, yak_next_notice(process, &value));
    expect(value == 77, "the value of the notice");
    IS(YAK_NO_NOTICE, yak_next_notice(process, &value));
    IS(0, mq_close(0));
    IS(0, mq_unlink("/s"));
}

static void handles(yak_process *two)
{
    static const uint8_t name[] = {'/', 'h'};
    static const yak_opening opening = {1, 4, 2, true, false, false, true};
    yak_process empty = YAK_PROCESS_EMPTY, many[33], *one = &two[0], *other = &two[1];
    yak_moment past = {0}, never = {.sec = INT64_MAX}, now = {.sec = 5};
    yak_message message = {0, 0};
    yak_attributes attr = {0, 0, 0, false};
    uint8_t buf[4];
    uint32_t d = 9;
    uint64_t value = 0;
    memset(many, 0, sizeof many);
    IS(YAK_INVAL, yak_new(many, 33));
    IS(YAK_INVAL, yak_new(many, 0));
    IS(YAK_FULL, yak_new(two, 2));
    IS(YAK_EMPTY, yak_open(&empty, name, 2, &opening, &d));
    IS(YAK_EMPTY, yak_close(&empty, 0));
    IS(YAK_EMPTY, yak_unlink(&empty, name, 2));
    IS(YAK_EMPTY, yak_notify(&empty, 0, true, 1));
    IS(YAK_EMPTY, yak_next_notice(&empty, &value));
    IS(YAK_EMPTY, yak_getattr(&empty, 0, &attr));
    IS(YAK_EMPTY, yak_setattr(&empty, 0, true, &attr));
    IS(YAK_EMPTY, yak_exit(&empty));
    IS(YAK_EMPTY, yak_start_send(&empty, 0, name, 1, 0));
    IS(YAK_EMPTY, yak_start_receive(&empty, 0, buf, 4, &message));
    IS(YAK_EMPTY, yak_start_timed_send(&empty, 0, name, 1, 0, &past, &now));
    IS(YAK_EMPTY, yak_start_timed_receive(&empty, 0, buf, 4, &message, &past, &now));
    IS(YAK_EMPTY, yak_answered(&empty));
    IS(YAK_EMPTY, yak_collect(&empty, buf, 4, &message));
    IS(YAK_EMPTY, yak_end_wait(&empty, buf, 4, &message, &now));
    IS(YAK_EMPTY, yak_check(&empty));
    IS(YAK_EMPTY, yak_free(&empty));
    expect(d == 9, "a descriptor that is not written");
    IS(YAK_NOT_WAITING, yak_answered(one));
    IS(YAK_NOT_WAITING, yak_collect(one, buf, 4, &message));
    IS(YAK_NOT_WAITING, yak_end_wait(one, buf, 4, &message, &now));
    IS(YAK_DONE, yak_open(one, name, 2, &opening, &d));
    IS(YAK_DONE, yak_open(other, name, 2, &opening, &d));
    IS(YAK_WAITS, yak_start_receive(one, 0, buf, 4, &message));
    IS(YAK_WAITING, yak_close(one, 0));
    IS(YAK_WAITING, yak_open(one, name, 2, &opening, &d));
    IS(YAK_WAITING, yak_unlink(one, name, 2));
    IS(YAK_WAITING, yak_notify(one, 0, true, 1));
    IS(YAK_WAITING, yak_next_notice(one, &value));
    IS(YAK_WAITING, yak_getattr(one, 0, &attr));
    IS(YAK_WAITING, yak_setattr(one, 0, true, &attr));
    IS(YAK_WAITING, yak_exit(one));
    IS(YAK_WAITING, yak_free(one));
    expect(one->full, "a handle with an open wait that is kept");
    IS(YAK_WAITING, yak_start_send(one, 0, name, 1, 0));
    IS(YAK_WAITING, yak_start_receive(one, 0, buf, 4, &message));
    IS(YAK_WAITS, yak_answered(one));
    IS(YAK_WAITS, yak_collect(one, buf, 4, &message));
    IS(YAK_SHORT, yak_collect(one, buf, 3, &message));
    IS(YAK_SHORT, yak_end_wait(one, buf, 3, &message, &now));
    IS(YAK_EARLY, yak_end_wait(one, buf, 4, &message, &now));
    IS(YAK_DONE, yak_check(one));
    IS(YAK_DONE, yak_start_send(other, 0, name, 2, 3));
    IS(YAK_DONE, yak_answered(one));
    IS(YAK_WAITING, yak_free(one));
    IS(YAK_DONE, yak_collect(one, buf, 4, &message));
    expect(message.len == 2 && message.prio == 3 && buf[0] == '/' && buf[1] == 'h', "the message that was collected");
    IS(YAK_WAITS, yak_start_timed_receive(one, 0, buf, 4, &message, &now, &past));
    IS(YAK_EARLY, yak_end_wait(one, buf, 4, &message, &past));
    IS(YAK_TIMEDOUT, yak_end_wait(one, buf, 4, &message, &now));
    IS(YAK_WAITS, yak_start_timed_receive(one, 0, buf, 4, &message, &never, &past));
    IS(YAK_DONE, yak_start_send(other, 0, name, 1, 4));
    IS(YAK_DONE, yak_end_wait(one, buf, 4, &message, &never));
    expect(message.len == 1 && message.prio == 4, "the message of a wait that ended late");
    IS(YAK_DONE, yak_start_send(other, 0, name, 1, 0));
    IS(YAK_WAITS, yak_start_send(other, 0, name, 2, 1));
    IS(YAK_DONE, yak_start_receive(one, 0, buf, 4, &message));
    IS(YAK_DONE, yak_collect(other, buf, 0, &message));
    IS(YAK_DONE, yak_exit(one));
    IS(YAK_BADF, yak_close(one, 0));
    IS(YAK_DONE, yak_exit(other));
    IS(YAK_DONE, yak_unlink(one, name, 2));
}

static void bounds(void)
{
    yak_process one = YAK_PROCESS_EMPTY;
    struct mq_attr small = attributes(1, 4);
    yak_room_left room = {0, 0};
    char line[200];
    size_t len = 0;
    IS(YAK_DONE, yak_bounded(&one, 1, 3, 10));
    yak_attach(&one);
    IS(YAK_DONE, yak_room(&one, &room));
    expect(room.entries == 3 && room.bytes == 10, "the room of a new journal");
    IS(0, mq_open("/b", O_RDWR | O_CREAT, 0600, &small));
    IS(0, mq_send(0, "a", 1, 0));
    IS(YAK_DONE, yak_room(&one, &room));
    expect(room.entries == 1 && room.bytes == 7, "the room that is left");
    IS(YAK_GOES_ON, yak_nobody_can_call(&one));
    FAILS(ENOSPC, mq_send(0, "a", 1, 0));
    IS(0, mq_close(0));
    FAILS(ENOSPC, mq_close(0));
    IS(YAK_DONE, yak_nobody_can_call(&one));
    IS(YAK_DONE, yak_entry(&one, 1, (uint8_t *)line, sizeof line, &len));
    printf("%.*s", (int)len, line);
    memset(line, '.', sizeof line);
    IS(YAK_SHORT, yak_entry(&one, 1, (uint8_t *)line, 3, &len));
    expect(len == 29 && memcmp(line, "1 1.", 4) == 0, "the front of a line, and its length");
    IS(YAK_SHORT, yak_entry(&one, 1, (uint8_t *)line, 28, &len));
    IS(YAK_DONE, yak_entry(&one, 1, (uint8_t *)line, 29, &len));
    IS(YAK_NO_ENTRY, yak_entry(&one, 3, (uint8_t *)line, sizeof line, &len));
    IS(YAK_DONE, yak_check(&one));
    IS(YAK_DONE, yak_free(&one));
    FAILS(EPERM, mq_close(0));
    yak_attach(0);
    FAILS(EPERM, mq_close(0));
}

/* Handle counts that no system can have; and handles of two systems, which can't be ended as one. */
static void systems(void)
{
    yak_process three[3] = {YAK_PROCESS_EMPTY, YAK_PROCESS_EMPTY, YAK_PROCESS_EMPTY};
    IS(YAK_INVAL, yak_new(three, 0));
    IS(YAK_INVAL, yak_new(three, 33));
    IS(YAK_INVAL, yak_new(three, SIZE_MAX));
    IS(YAK_INVAL, yak_bounded(three, SIZE_MAX, 1, 1));
    IS(YAK_DONE, yak_new(three, 2));
    IS(YAK_FULL, yak_new(three, 3));
    IS(YAK_INVAL, yak_new(three, SIZE_MAX));
    IS(YAK_DONE, yak_new(&three[2], 1));
    IS(YAK_INVAL, yak_finish(three, 3));
    IS(YAK_INVAL, yak_finish(&three[1], 2));
    expect(three[0].full && three[1].full && three[2].full, "handles of two systems that are kept");
    IS(YAK_DONE, yak_finish(three, 2));
    IS(YAK_DONE, yak_finish(&three[2], 1));
}

int main(void)
{
    yak_process two[2] = {YAK_PROCESS_EMPTY, YAK_PROCESS_EMPTY};
    IS(YAK_DONE, yak_new(two, 2));
    yak_attach(&two[0]);
    opens();
    messages();
    notices(&two[0]);
    handles(two);
    IS(YAK_DONE, yak_check(&two[1]));
    IS(YAK_EMPTY, yak_finish(two, 0));
    IS(YAK_DONE, yak_finish(two, 2));
    IS(YAK_EMPTY, yak_finish(two, 2));
    bounds();
    systems();
    printf("%u passed, %u failed\n", passed, failed);
    return failed == 0 ? 0 : 1;
}
