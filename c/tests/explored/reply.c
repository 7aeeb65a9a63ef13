/* reply CALLS [right]: a client asks, and waits for the reply until a deadline; after that it asks
 * the next. A late reply is taken for that of the next question, with one preemption, unless the
 * client looks which question it belongs to. */
#include "short.h"

static mqd_t asks, replies;

static void *serve(void *of)
{
    (void)of;
    for (char c; (c = get(asks)) != '.';)
        put(replies, (char)(c + 1));
    return 0;
}

/* The reply, or 0 if none came in time. */
static char await_reply(const struct timespec *until)
{
    char buf[8];
    return mq_timedreceive(replies, buf, sizeof buf, 0, until) < 0 ? 0 : buf[0];
}

int main(int count, char **words)
{
    const int calls = number(count, words, 1, 2), is_right = count > 2;
    pthread_t server;
    int late = 0;
    asks = fresh("/asks", 4);
    replies = fresh("/replies", 4);
    server = go(serve, 0);
    for (int i = 0; i < calls; ++i) {
        const char question = (char)('a' + 2 * i);
        struct timespec until;
        char reply;
        clock_gettime(CLOCK_REALTIME, &until);
        until.tv_sec += 1;
        put(asks, question);
        do
            reply = await_reply(&until);
        while (is_right && reply != 0 && reply != question + 1);
        late += reply == 0;
        if (reply != 0 && reply != question + 1) {
            printf("question %d got the reply %c\n", i, reply);
            fflush(stdout);
            abort();
        }
    }
    put(asks, '.');
    pthread_join(server, 0);
    printf("well, %d late\n", late);
    return 0;
}
