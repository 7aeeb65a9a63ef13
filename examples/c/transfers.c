/* Two tellers move money between two accounts, each in the other direction. An account is a queue
 * with one message, its balance: whoever has received it has the account alone. The program usually
 * ends, and hangs if each teller takes its first account before the other takes its second.
 * With the argument `ordered` both take the accounts in one order, and it always ends. */
#include <fcntl.h>
#include <mqueue.h>
#include <pthread.h>
#include <stdio.h>

typedef struct account {
    const char *name;
    mqd_t queue;
} account;

static account savings = {"/savings", 0}, checking = {"/checking", 0};
static int is_ordered;

static void open_with(account *it, long balance)
{
    struct mq_attr attr = {.mq_maxmsg = 1, .mq_msgsize = sizeof balance};
    mq_unlink(it->name);
    it->queue = mq_open(it->name, O_RDWR | O_CREAT, 0600, &attr);
    mq_send(it->queue, (const char *)&balance, sizeof balance, 0);
}

static long take(const account *it)
{
    long balance = 0;
    mq_receive(it->queue, (char *)&balance, sizeof balance, 0);
    return balance;
}

static void put_back(const account *it, long balance)
{
    mq_send(it->queue, (const char *)&balance, sizeof balance, 0);
}

static void transfer(const account *from, const account *to, long amount)
{
    const account *first = from, *second = to;
    if (is_ordered && from == &checking)
        first = to, second = from;
    long one = take(first);
    long other = take(second);
    long sign = first == from ? 1 : -1;
    put_back(second, other + sign * amount);
    put_back(first, one - sign * amount);
}

static void *to_savings(void *unused)
{
    transfer(&checking, &savings, 30);
    return unused;
}

static void *to_checking(void *unused)
{
    transfer(&savings, &checking, 20);
    return unused;
}

int main(int count, char **words)
{
    pthread_t tellers[2];
    (void)words;
    is_ordered = count > 1;
    open_with(&savings, 100);
    open_with(&checking, 100);
    pthread_create(&tellers[0], 0, to_savings, 0);
    pthread_create(&tellers[1], 0, to_checking, 0);
    pthread_join(tellers[0], 0);
    pthread_join(tellers[1], 0);
    printf("savings %ld, checking %ld\n", take(&savings), take(&checking));
    return 0;
}
