#include <yakyrombe.h>

int main(void)
{
    static const uint8_t name[] = "/orders", sweep[] = "sweep the floor", fire[] = "put out the fire";
    static const yak_opening opening = {.maxmsg = 10, .msgsize = 64, .access = 2, .create = true, .limited = true};
    yak_process process = YAK_PROCESS_EMPTY;
    yak_message message = {0, 0};
    uint8_t buf[64];
    uint32_t d = 0, answer = yak_new(&process, 1);
    answer = yak_open(&process, name, sizeof name - 1, &opening, &d);
    answer = yak_send(&process, d, sweep, sizeof sweep - 1, 1);
    answer = yak_send(&process, d, fire, sizeof fire - 1, 9);
    answer = yak_receive(&process, d, buf, sizeof buf, &message);
    printf("%d: %.*s, priority %u\n", yak_errno(answer), (int)message.len, (const char *)buf, (unsigned)message.prio);
    return yak_errno(yak_finish(&process, 1));
}
