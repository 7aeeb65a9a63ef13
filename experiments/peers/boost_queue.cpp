// The workloads `pair`, `deep` and `crowd` of mqbench over message_queue of Boost.Interprocess.
#include <boost/interprocess/ipc/message_queue.hpp>
#include <chrono>
#include <cstdint>
#include <cstdio>
#include <string>
#include <thread>
#include <vector>

using boost::interprocess::create_only;
using boost::interprocess::message_queue;
using Clock = std::chrono::steady_clock;

static const char *const NAME = "peer_of_yakyrombe";
static const char MESSAGE[17] = "sixteen bytes ..";
static const long DEPTH = 10;

static void receive(message_queue &queue) {
  char buffer[16];
  message_queue::size_type length;
  unsigned priority;
  queue.receive(buffer, sizeof buffer, length, priority);
}

static void pair(message_queue &queue, long rounds) {
  for (long i = 0; i < rounds; i++) {
    queue.send(MESSAGE, 16, 0);
    receive(queue);
  }
}

static void deep(message_queue &queue, long depth, long rounds) {
  for (long round = 0; round < rounds; round++) {
    std::uint32_t random = round;
    for (long i = 0; i < depth; i++) {
      random = random * 1664525u + 1013904223u;
      queue.send(MESSAGE, 16, random >> 17);
    }
    for (long i = 0; i < depth; i++) receive(queue);
  }
}

static void crowd(message_queue &queue, long count, long rounds) {
  std::vector<std::thread> members;
  for (long member = 0; member < count; member++)
    members.emplace_back([&queue, member, rounds] {
      for (long i = 0; i < rounds; i++) {
        if (member % 2) receive(queue);
        else queue.send(MESSAGE, 16, 0);
      }
    });
  for (auto &member : members) member.join();
}

int main(int count, char **words) {
  const std::string workload = count > 2 ? words[1] : "";
  const long size = count == 4 ? std::stol(words[2]) : 1, rounds = count > 2 ? std::stol(words[count - 1]) : 0;
  if (count == 4 ? workload != "deep" && workload != "crowd" : workload != "pair") {
    std::fputs("pair N, deep D N or crowd P N\n", stderr);
    return 2;
  }
  message_queue::remove(NAME);
  message_queue queue(create_only, NAME, workload == "deep" ? size : DEPTH, 16);
  const auto start = Clock::now();
  if (workload == "pair") pair(queue, rounds);
  else if (workload == "deep") deep(queue, size, rounds);
  else crowd(queue, size, rounds);
  const double time = std::chrono::duration<double, std::nano>(Clock::now() - start).count();
  std::printf("%.1f ns each\n", time / ((workload == "crowd" ? 1.0 : 2.0) * size * rounds));
  message_queue::remove(NAME);
}
