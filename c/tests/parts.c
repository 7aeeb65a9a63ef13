/* A program of ten files that include the headers and define nothing for them. Each file is this
 * one, compiled with a PART of its own from 0 to 9. */
#include <mqueue.h>
#include <yakyrombe.h>

#define JOINED(name, part) name##part
#define NAMED(name, part) JOINED(name, part)

/* Sends a message whose priority is the part, and returns the return code. */
uint32_t NAMED(send_, PART)(yak_process *process);
uint32_t NAMED(send_, PART)(yak_process *process)
{
    static const yak_opening opening = {
        .maxmsg = 10, .msgsize = 8, .access = 2, .create = true, .limited = true};
    static const uint8_t name[] = {'/', 'q'}, byte[] = {'0' + PART};
    uint32_t answer, d;
    answer = yak_open(process, name, sizeof name, &opening, &d);
    return answer != YAK_DONE ? answer : yak_send(process, d, byte, sizeof byte, PART);
}

#if PART == 0
uint32_t send_1(yak_process *), send_2(yak_process *), send_3(yak_process *), send_4(yak_process *),
    send_5(yak_process *), send_6(yak_process *), send_7(yak_process *), send_8(yak_process *),
    send_9(yak_process *);

int main(void)
{
    static uint32_t (*const sends[])(yak_process *) = {send_0, send_1, send_2, send_3, send_4,
                                                       send_5, send_6, send_7, send_8, send_9};
    static yak_process process = YAK_PROCESS_EMPTY;
    char buf[8];
    if (yak_new(&process, 1) != YAK_DONE)
        return 1;
    yak_attach(&process);
    for (int part = 0; part < 10; ++part)
        if (sends[part](&process) != YAK_DONE)
            return 2;
    for (int part = 9; part >= 0; --part)
        if (mq_receive(0, buf, sizeof buf, 0) != 1 || buf[0] != '0' + part)
            return 3;
    puts("well");
    return yak_finish(&process, 1) != YAK_DONE;
}
#endif
