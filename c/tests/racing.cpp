// Two threads of a C++ program race for a counter. ThreadSanitizer reports that even with the
// suppressions of c/tsan.supp, which cover only the library.
#include <mqueue.h>

#include <cstdio>
#include <thread>

namespace app {

struct counter {
    int value = 0;
    void count()
    {
        for (int i = 0; i < 100000; ++i)
            ++value;
    }
};

} // namespace app

int main()
{
    static yak_process process;
    static app::counter shared;
    if (yak_new(&process, 1) != YAK_DONE)
        return 1;
    std::thread one(&app::counter::count, &shared), other(&app::counter::count, &shared);
    one.join();
    other.join();
    std::printf("%s\n", shared.value > 0 ? "counted" : "");
    return yak_finish(&process, 1) != YAK_DONE;
}
