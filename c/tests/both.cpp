// The C headers in a C++ program: a worker by handles, and the calls of <mqueue.h> by the header
// that replaces the system's.
#include <mqueue.h>

#include <cstdio>
#include <cstring>
#include <thread>

static yak_process processes[2];

static void answer_one()
{
    yak_attach(&processes[1]);
    const mqd_t asked = mq_open("/asked", O_RDONLY), answers = mq_open("/answers", O_WRONLY);
    char buf[8];
    unsigned prio = 0;
    const ssize_t len = mq_receive(asked, buf, sizeof buf, &prio);
    mq_send(answers, len == 3 && std::memcmp(buf, "how", 3) == 0 ? "well" : "badly",
            len == 3 ? 4 : 5, prio + 1);
}

int main()
{
    const yak_opening opening = {1, 8, 2, true, false, false, true};
    std::uint8_t buf[8] = {};
    yak_message message = {0, 0};
    std::uint32_t answer, asked = 0, answers = 0;
    if (yak_new(processes, 2) != YAK_DONE)
        return 1;
    yak_process *const here = &processes[0];
    answer = yak_open(here, reinterpret_cast<const std::uint8_t *>("/asked"), 6, &opening, &asked);
    answer =
        yak_open(here, reinterpret_cast<const std::uint8_t *>("/answers"), 8, &opening, &answers);
    std::thread worker(answer_one);
    answer = yak_send(here, asked, reinterpret_cast<const std::uint8_t *>("how"), 3, 4);
    if (answer == YAK_DONE)
        answer = yak_receive(here, answers, buf, sizeof buf, &message);
    worker.join();
    std::printf("%u: %.*s, priority %u\n", unsigned(answer), int(message.len),
                reinterpret_cast<const char *>(buf), unsigned(message.prio));
    return yak_finish(processes, 2) != YAK_DONE;
}
