// threads [right]: two producers and two consumers of C++'s own threads share a list of one, and
// one condition for both kinds. A wake of one may meet a thread of the wrong kind; right is to wake
// all.
#include <condition_variable>
#include <cstdio>
#include <cstdlib>
#include <fcntl.h>
#include <mqueue.h>
#include <mutex>
#include <optional>
#include <thread>

static std::mutex lock;
static std::condition_variable changed;
static std::optional<char> place;
static bool is_right;

static void tell()
{
    if (is_right)
        changed.notify_all();
    else
        changed.notify_one();
}

static void produce(char with)
{
    std::unique_lock<std::mutex> held(lock);
    changed.wait(held, [] { return !place; });
    place = with;
    tell();
}

static void consume(mqd_t to)
{
    std::unique_lock<std::mutex> held(lock);
    changed.wait(held, [] { return place.has_value(); });
    const char with = *place;
    place.reset();
    tell();
    if (mq_send(to, &with, 1, 0) != 0)
        std::abort();
}

int main(int words, char **)
{
    mq_attr attr{};
    attr.mq_maxmsg = 4;
    attr.mq_msgsize = 8;
    is_right = words > 1;
    const mqd_t sums = mq_open("/sums", O_RDWR | O_CREAT, 0600, &attr);
    std::thread a(produce, 'a'), b(produce, 'b'), c(consume, sums), d(consume, sums);
    a.join();
    b.join();
    c.join();
    d.join();
    std::puts("done");
}
