#include <mqueue.h>

int main(void)
{
    static yak_process process = YAK_PROCESS_EMPTY;
    struct mq_attr attr = {.mq_maxmsg = 10, .mq_msgsize = 64};
    char buf[64];
    unsigned prio = 0;
    if (yak_new(&process, 1) != YAK_DONE)
        return 1;
    yak_attach(&process);
    mqd_t orders = mq_open("/orders", O_RDWR | O_CREAT, 0600, &attr);
    mq_send(orders, "sweep the floor", 15, 1);
    mq_send(orders, "put out the fire", 16, 9);
    ssize_t len = mq_receive(orders, buf, sizeof buf, &prio);
    printf("%.*s, priority %u\n", (int)len, buf, prio);
    return yak_errno(yak_finish(&process, 1));
}
