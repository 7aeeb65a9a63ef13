/* notice [right]: a thread of SIGEV_THREAD takes what is in a queue, and registers again. If it
 * registers after it has found the queue empty, a message that comes between the two is lost, with
 * two preemptions; right is to register first. */
#include "short.h"

#include <signal.h>

static mqd_t queue, got;

static void *const RIGHT = &queue;

static void take_all(union sigval of);

static void ask(void *how)
{
    struct sigevent event = {.sigev_notify = SIGEV_THREAD,
                             .sigev_value.sival_ptr = how,
                             .sigev_notify_function = take_all};
    if (mq_notify(queue, &event) != 0)
        abort();
}

static void take_all(union sigval of)
{
    char buf[8];
    if (of.sival_ptr == RIGHT)
        ask(of.sival_ptr);
    while (mq_receive(queue, buf, sizeof buf, 0) >= 0)
        put(got, buf[0]);
    if (of.sival_ptr != RIGHT)
        ask(of.sival_ptr);
}

int main(int words, char **unused)
{
    struct mq_attr attr = {.mq_flags = O_NONBLOCK};
    (void)unused;
    queue = fresh("/queue", 4);
    got = fresh("/got", 4);
    mq_setattr(queue, &attr, 0);
    ask(words > 1 ? RIGHT : 0);
    put(queue, 'a');
    put(queue, 'b');
    printf("%c", get(got));
    printf("%c\n", get(got));
    return 0;
}
