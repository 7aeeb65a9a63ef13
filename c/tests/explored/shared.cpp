// The reader of readers.c with std::shared_mutex: it looks for a job that may not be there yet.
#include <cstdlib>
#include <fcntl.h>
#include <mqueue.h>
#include <shared_mutex>
#include <thread>

static mqd_t fresh(const char *name)
{
    mq_attr attr = {};
    attr.mq_maxmsg = 4;
    attr.mq_msgsize = 8;
    mq_unlink(name);
    return mq_open(name, O_RDWR | O_CREAT, 0600, &attr);
}

static long held(mqd_t queue)
{
    mq_attr attr;
    mq_getattr(queue, &attr);
    return attr.mq_curmsgs;
}

int main()
{
    static std::shared_mutex config;
    const mqd_t jobs = fresh("/jobs"), other = fresh("/other");
    std::thread producer([=] {
        std::shared_lock lock(config);
        mq_send(jobs, "j", 1, 0);
    });
    std::thread consumer([=] {
        for (int i = 0; i < 14; ++i)
            held(other);
        std::shared_lock lock(config);
        if (held(jobs) == 0)
            std::abort();
    });
    producer.join();
    consumer.join();
    return 0;
}
