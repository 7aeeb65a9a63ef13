/* server CLIENTS [right]: clients ask a server, and each waits in a queue of its own for the reply
 * until a deadline. After that it cancels its question and closes its queue. The server looks
 * whether a question is cancelled before it replies. If it replies only after it has unlocked, the
 * queue may be closed by then, with one preemption: that deadline. Right is to reply before that.
 */
#include "short.h"

static mqd_t asks, replies[8];
static pthread_mutex_t lock = PTHREAD_MUTEX_INITIALIZER;
static int is_cancelled[8], clients, is_right;
static struct timespec until;

static void *ask(void *of)
{
    const long me = (long)of;
    char buf[8];
    put(asks, (char)('0' + me));
    if (mq_timedreceive(replies[me], buf, sizeof buf, 0, &until) >= 0)
        return 0;
    pthread_mutex_lock(&lock);
    is_cancelled[me] = 1;
    pthread_mutex_unlock(&lock);
    mq_close(replies[me]);
    return 0;
}

static void *serve(void *of)
{
    for (int i = 0; i < clients; ++i) {
        const int client = get(asks) - '0';
        int replies_late;
        pthread_mutex_lock(&lock);
        if (is_right && !is_cancelled[client])
            put(replies[client], 'r');
        replies_late = !is_right && !is_cancelled[client];
        pthread_mutex_unlock(&lock);
        if (replies_late)
            put(replies[client], 'r');
    }
    return of;
}

int main(int count, char **words)
{
    pthread_t them[9];
    int cancelled = 0;
    clients = number(count, words, 1, 3);
    is_right = count > 2;
    clock_gettime(CLOCK_REALTIME, &until);
    until.tv_sec += 1;
    asks = fresh("/asks", 8);
    for (int i = 0; i < clients; ++i)
        replies[i] = fresh_one("/reply", i, 1);
    them[clients] = go(serve, 0);
    for (int i = 0; i < clients; ++i)
        them[i] = go(ask, i);
    join(them, clients + 1);
    for (int i = 0; i < clients; ++i)
        cancelled += is_cancelled[i];
    printf("%d cancelled\n", cancelled);
    return 0;
}
