// Visits every reachable world of a few processes that acquire Lamport's lock and sleep while they
// wait for it, and counts the dead ones: somebody sleeps, and everybody else sleeps or is at rest.
//
//   sleepers N PROTOCOL [--trace | --fair]
//
// N is 1 to 4. --trace prints the steps to the first dead world. --fair also counts the circles:
// the largest sets of worlds in which schedules can go round for ever although they are fair and
// nobody enters. In a fair schedule each process takes steps again and again, unless it sleeps or
// is at rest again and again. The protocols:
//   library      that of the library, in Rattle, without time-outs
//   early        as library, but the process announces its sleep behind its last poll
//   nostore      as library, but who wakes does not store 1 again for the others
//   nochain      as library, but who wakes at a flag does not wake the next
//   noown        as library, but who is about to sleep does not wake those at its own flag
//   handles      that of c/wait.c, without time-outs
//   unchained    as handles, but who announced at a flag and goes on wakes nobody there
//   anywhere     as handles, but a try of a call may end at each point, and the process sleeps there
// In each of them a thread may also wake for no reason, but for handles.
#include <algorithm>
#include <array>
#include <cstdint>
#include <cstdio>
#include <cstdlib>
#include <cstring>
#include <deque>
#include <string>
#include <unordered_map>
#include <vector>

namespace {

constexpr int MOST = 4;

// The lines of the algorithm, as in docs/lock.md. Scan + j is the scan of flag j + 1.
enum Point : uint8_t {
    Rest, SetX, TestY, BackB, AwaitY, Start, SetY, TestX, SlowB, SlowY, SlowAwait, Inside, Leaving, Scan
};
const char *const POINTS[] = {"Rest", "SetX", "TestY", "BackB", "AwaitY", "Start", "SetY", "TestX",
    "SlowB", "SlowY", "SlowAwait", "Inside", "Leaving", "Scan1", "Scan2", "Scan3", "Scan4"};
constexpr unsigned POINT_COUNT = Scan + MOST;

// What the next step of a process does. Word 0 is the futex word of y, word j that of flag j.
enum Phase : uint8_t {
    Awake,      // a line of the algorithm, or begins to sleep
    CheckOwn,   // loads the word of its own flag
    ClearOwn,   // stores 0 there
    WakeOwn,    // wakes one there
    Count,      // adds 1 to the count of sleepers
    Mark,       // stores 1 to the word on which it sleeps
    Poll,       // the line again, the last before the sleep
    Wait,       // sleeps if the word is 1
    Asleep,
    Uncount,    // subtracts 1 from the count
    Remark,     // stores 1 for those that sleep on
    CheckNext,  // loads the word of the flag
    ClearNext,  // stores 0 there
    WakeNext,   // wakes the next one there
    ReadCount,  // behind the lock's last step: loads the count
    CheckY, ClearY, WakeY,
    CheckFlag, ClearFlag, WakeFlag,
};
const char *const PHASES[] = {"", "CheckOwn", "ClearOwn", "WakeOwn", "Count", "Mark", "Poll", "Wait",
    "Asleep", "Uncount", "Remark", "CheckNext", "ClearNext", "WakeNext", "ReadCount", "CheckY",
    "ClearY", "WakeY", "CheckFlag", "ClearFlag", "WakeFlag"};
constexpr unsigned PHASE_COUNT = WakeFlag + 1;

struct Process {
    Point point;
    Phase phase;
    uint8_t word;
    // 1 + the word at which the process has announced that it sleeps; 0: none (in C alone)
    uint8_t announced;
};

struct World {
    uint8_t x, y;
    uint8_t flags;  // bit i of process i + 1
    uint8_t marks;  // bit j of futex word j
    std::array<Process, MOST> processes;
};

struct Protocol {
    bool in_c, polls_first, restores, chains, wakes_own, goes_on, stops_anywhere;
};

Protocol protocol_of(const std::string &name)
{
    const bool in_c = name == "handles" || name == "unchained" || name == "anywhere";
    return {in_c, name == "early", name != "nostore", name != "nochain", name != "noown",
        in_c && name != "unchained", name == "anywhere"};
}

class Machine {
public:
    Machine(int count, Protocol protocol) : n(count), how(protocol) {}

    // Each world has a number of its own.
    uint64_t number(const World &w) const
    {
        uint64_t code = ((w.x * (MOST + 1ULL) + w.y) << MOST | w.flags) << (MOST + 1) | w.marks;
        for (int i = 0; i < n; ++i) {
            const Process &p = w.processes[i];
            code = (code * POINT_COUNT + p.point) * PHASE_COUNT + p.phase;
            code = (code * (MOST + 1) + p.word) * (MOST + 2) + p.announced;
        }
        return code;
    }

    static bool is_inside(const World &w, int i) { return w.processes[i].point == Inside; }

    // Whether process i + 1 neither sleeps nor is at rest, so that a fair schedule goes on with it.
    static bool goes_on(const World &w, int i)
    {
        const Process &p = w.processes[i];
        return p.phase != Asleep && (p.phase != Awake || p.point != Rest);
    }

    bool is_dead(const World &w) const
    {
        bool somebody_sleeps = false;
        for (int i = 0; i < n; ++i) {
            somebody_sleeps = somebody_sleeps || w.processes[i].phase == Asleep;
            if (goes_on(w, i))
                return false;
        }
        return somebody_sleeps;
    }

    std::vector<World> next(const World &w, int i) const;
    void print(const World &w) const;

private:
    const int n;
    const Protocol how;

    static bool is_up(const World &w, int word) { return w.marks >> word & 1; }
    static int word_at(Point point) { return point >= Scan ? point - Scan + 1 : 0; }
    int sleepers(const World &w) const;
    bool advance(World &w, int i) const;
    void awake(World w, int i, std::vector<World> &out) const;
    void wake(const World &w, int i, int word, Phase then, std::vector<World> &out) const;
    void woken(World w, int i, std::vector<World> &out) const;
    void end_call(World &w, int i) const;
};

int Machine::sleepers(const World &w) const
{
    int count = 0;
    for (int i = 0; i < n; ++i)
        count += w.processes[i].phase >= Mark && w.processes[i].phase <= Uncount;
    return count;
}

// The line of the algorithm at which process i + 1 is. False: it waits there.
bool Machine::advance(World &w, int i) const
{
    const int me = i + 1;
    Point &at = w.processes[i].point;
    switch (at) {
    case Rest:
    case Start: w.flags |= 1 << i; at = SetX; return true;
    case SetX: w.x = me; at = TestY; return true;
    case TestY: at = w.y == 0 ? SetY : BackB; return true;
    case BackB: w.flags &= ~(1 << i); at = AwaitY; return true;
    case SetY: w.y = me; at = TestX; return true;
    case TestX: at = w.x == me ? Inside : SlowB; return true;
    case SlowB: w.flags &= ~(1 << i); at = Scan; return true;
    case SlowY: at = w.y == me ? Inside : SlowAwait; return true;
    case Inside: w.y = 0; at = Leaving; return true;
    case Leaving: w.flags &= ~(1 << i); at = Rest; return true;
    case AwaitY:
    case SlowAwait:
        if (w.y != 0)
            return false;
        at = Start;
        return true;
    default:
        if (w.flags >> (at - Scan) & 1)
            return false;
        at = at - Scan + 1 == n ? SlowY : Point(at + 1);
        return true;
    }
}

// Process i + 1 wakes one that sleeps on the word, if there is any, and goes on.
void Machine::wake(const World &w, int i, int word, Phase then, std::vector<World> &out) const
{
    const size_t before = out.size();
    for (int k = 0; k < n; ++k)
        if (w.processes[k].phase == Asleep && w.processes[k].word == word) {
            out.push_back(w);
            out.back().processes[k].phase = Uncount;
            out.back().processes[i].phase = then;
        }
    if (out.size() == before) {
        out.push_back(w);
        out.back().processes[i].phase = then;
    }
}

// The end of a call behind its departure. From C, who announced at a flag wakes the next one there.
void Machine::end_call(World &w, int i) const
{
    Process &p = w.processes[i];
    const bool owes = how.goes_on && p.announced > 1;
    p.word = owes ? p.announced - 1 : 0;
    p.phase = owes ? CheckNext : Awake;
    p.announced = 0;
}

void Machine::awake(World w, int i, std::vector<World> &out) const
{
    Process &p = w.processes[i];
    const Point before = p.point;
    if (advance(w, i)) {
        if (before == Leaving)
            p.phase = how.in_c ? CheckY : ReadCount;
        if (before == Leaving && !how.goes_on)
            p.announced = 0;
        if (how.stops_anywhere && p.point != Inside && before != Inside && before != Leaving) {
            out.push_back(w);
            p.word = word_at(p.point);
            p.phase = CheckOwn;
        }
    } else if (how.goes_on && p.announced > 1 && p.announced - 1 != word_at(before)) {
        p.word = p.announced - 1;
        p.announced = 0;
        p.phase = CheckNext;
    } else {
        p.word = word_at(before);
        p.phase = CheckOwn;
    }
    out.push_back(w);
}

// What a process does that woke: it leaves a mark for those that sleep on.
void Machine::woken(World w, int i, std::vector<World> &out) const
{
    Process &p = w.processes[i];
    if (how.in_c) {
        if (p.word == 0) {
            w.marks |= 1;
            p.phase = Awake;
        } else {
            p.phase = WakeNext;
        }
    } else if (sleepers(w) != 1 && how.restores) {
        p.phase = Remark;
    } else {
        p.word = 0;
        p.phase = Awake;
    }
    out.push_back(w);
}

// The worlds after a step of process i + 1.
std::vector<World> Machine::next(const World &w, int i) const
{
    std::vector<World> out;
    World to = w;
    Process &p = to.processes[i];
    const int word = p.word, own = i + 1;
    const auto go = [&](Phase phase) { p.phase = phase; out.push_back(to); };
    const auto rest = [&] { p.word = 0; go(Awake); };
    switch (p.phase) {
    case Awake: awake(w, i, out); break;
    case CheckOwn: go(how.wakes_own && is_up(w, own) ? ClearOwn : Count); break;
    case ClearOwn: to.marks &= ~(1 << own); go(WakeOwn); break;
    case WakeOwn: wake(w, i, own, Count, out); break;
    case Count:
        if (how.in_c) {
            const bool is_second = p.announced == word + 1;
            if (is_second)
                p.announced = 0;
            go(is_second ? Wait : Mark);
        } else {
            go(how.polls_first ? Poll : Mark);
        }
        break;
    case Mark:
        to.marks |= 1 << word;
        if (how.in_c) {
            p.announced = word + 1;
            rest();
        } else {
            go(how.polls_first ? Wait : Poll);
        }
        break;
    case Poll: go(advance(to, i) ? Uncount : how.polls_first ? Mark : Wait); break;
    case Wait: go(is_up(w, word) ? Asleep : Uncount); break;
    case Asleep:
        if (!how.in_c)
            go(Uncount);
        break;
    case Uncount: woken(w, i, out); break;
    case Remark:
        to.marks |= 1 << word;
        if (word == 0 || !how.chains)
            rest();
        else
            go(CheckNext);
        break;
    case CheckNext:
        if (is_up(w, word))
            go(ClearNext);
        else
            rest();
        break;
    case ClearNext: to.marks &= ~(1 << word); go(WakeNext); break;
    case WakeNext:
        wake(w, i, word, Awake, out);
        for (World &each : out)
            each.processes[i].word = 0;
        break;
    case ReadCount: go(sleepers(w) == 0 ? Awake : CheckY); break;
    case CheckY: go(is_up(w, 0) ? ClearY : CheckFlag); break;
    case ClearY: to.marks &= ~1; go(WakeY); break;
    case WakeY: wake(w, i, 0, CheckFlag, out); break;
    case CheckFlag:
        if (is_up(w, own))
            p.phase = ClearFlag;
        else
            end_call(to, i);
        out.push_back(to);
        break;
    case ClearFlag: to.marks &= ~(1 << own); go(WakeFlag); break;
    case WakeFlag:
        wake(w, i, own, Awake, out);
        for (World &each : out)
            end_call(each, i);
        break;
    }
    return out;
}

void Machine::print(const World &w) const
{
    std::printf("  x=%d y=%d b=", w.x, w.y);
    for (int i = 0; i < n; ++i)
        std::printf("%d", w.flags >> i & 1);
    std::printf(" words=");
    for (int j = 0; j <= n; ++j)
        std::printf("%d", w.marks >> j & 1);
    for (int i = 0; i < n; ++i) {
        const Process &p = w.processes[i];
        std::printf("  %d:%s", i + 1, POINTS[p.point]);
        if (p.phase != Awake)
            std::printf("/%s(%d)", PHASES[p.phase], p.word);
        if (p.announced != 0)
            std::printf("[announced %d]", p.announced - 1);
    }
    std::printf("\n");
}

// The circles among these worlds, by Tarjan's algorithm over the steps by which nobody enters.
class Circles {
public:
    Circles(const Machine &machine, int count, const std::vector<World> &all,
        const std::unordered_map<uint64_t, uint32_t> &places)
        : machine(machine), n(count), worlds(all), place(places), order(all.size(), 0),
          low(all.size(), 0), is_open(all.size(), false)
    {
    }

    uint64_t count()
    {
        for (uint32_t w = 0; w < worlds.size(); ++w)
            if (order[w] == 0)
                visit(w);
        return circles;
    }

private:
    struct Step {
        uint32_t to;
        int process;
    };
    struct Visit {
        uint32_t world;
        std::vector<Step> steps;
        size_t taken;
    };

    const Machine &machine;
    const int n;
    const std::vector<World> &worlds;
    const std::unordered_map<uint64_t, uint32_t> &place;
    std::vector<uint32_t> order, low;
    std::vector<bool> is_open;
    std::vector<uint32_t> open;
    uint32_t next_order = 0;
    uint64_t circles = 0;

    std::vector<Step> steps_from(uint32_t w) const
    {
        std::vector<Step> steps;
        for (int i = 0; i < n; ++i)
            for (const World &to : machine.next(worlds[w], i))
                if (Machine::is_inside(worlds[w], i) || !Machine::is_inside(to, i))
                    steps.push_back({place.at(machine.number(to)), i});
        return steps;
    }

    void begin(uint32_t w, std::vector<Visit> &path)
    {
        order[w] = low[w] = ++next_order;
        open.push_back(w);
        is_open[w] = true;
        path.push_back({w, steps_from(w), 0});
    }

    void visit(uint32_t first)
    {
        std::vector<Visit> path;
        begin(first, path);
        while (!path.empty()) {
            Visit &now = path.back();
            const uint32_t w = now.world;
            if (now.taken < now.steps.size()) {
                const uint32_t to = now.steps[now.taken++].to;
                if (order[to] == 0)
                    begin(to, path);
                else if (is_open[to])
                    low[w] = std::min(low[w], order[to]);
                continue;
            }
            path.pop_back();
            if (!path.empty())
                low[path.back().world] = std::min(low[path.back().world], low[w]);
            if (low[w] == order[w])
                close(w);
        }
    }

    // All worlds from which steps lead round to w are open, behind w.
    void close(uint32_t w)
    {
        size_t from = open.size();
        while (open[--from] != w) {
        }
        if (is_circle(from))
            ++circles;
        for (size_t k = from; k < open.size(); ++k)
            is_open[open[k]] = false;
        open.resize(from);
    }

    bool is_circle(size_t from) const
    {
        std::unordered_map<uint32_t, bool> within;
        for (size_t k = from; k < open.size(); ++k)
            within[open[k]] = true;
        bool has_step = false;
        std::array<bool, MOST> is_served = {};
        for (size_t k = from; k < open.size(); ++k) {
            for (int i = 0; i < n; ++i)
                is_served[i] = is_served[i] || !Machine::goes_on(worlds[open[k]], i);
            for (const Step &step : steps_from(open[k]))
                if (within.count(step.to) != 0)
                    has_step = is_served[step.process] = true;
        }
        for (int i = 0; i < n; ++i)
            if (!is_served[i])
                return false;
        return has_step;
    }
};

// The steps to a world, from the numbers of the worlds before each.
void print_trace(const Machine &machine, const World &first, uint64_t last, int n,
    const std::unordered_map<uint64_t, uint64_t> &before)
{
    std::vector<uint64_t> path = {last};
    while (path.back() != machine.number(first))
        path.push_back(before.at(path.back()));
    World at = first;
    machine.print(at);
    for (size_t k = path.size() - 1; k-- > 0;) {
        bool is_found = false;
        for (int i = 0; i < n && !is_found; ++i)
            for (const World &to : machine.next(at, i))
                if (!is_found && machine.number(to) == path[k]) {
                    std::printf("%d", i + 1);
                    at = to;
                    is_found = true;
                }
        machine.print(at);
    }
}

}  // namespace

int main(int argc, char **argv)
{
    const int n = argc > 2 ? std::atoi(argv[1]) : 0;
    if (n < 1 || n > MOST) {
        std::fprintf(stderr, "usage: sleepers N PROTOCOL [--trace]\n");
        return 2;
    }
    const Machine machine(n, protocol_of(argv[2]));
    const bool traces = argc > 3 && std::strcmp(argv[3], "--trace") == 0;
    const bool is_fair = argc > 3 && std::strcmp(argv[3], "--fair") == 0;
    const World first = {};
    std::unordered_map<uint64_t, uint64_t> before = {{machine.number(first), 0}};
    std::unordered_map<uint64_t, uint32_t> places;
    std::vector<World> all;
    std::deque<World> open = {first};
    uint64_t worlds = 0, dead = 0, first_dead = 0;
    while (!open.empty()) {
        const World w = open.front();
        const uint64_t number = machine.number(w);
        open.pop_front();
        ++worlds;
        if (is_fair) {
            places.emplace(number, all.size());
            all.push_back(w);
        }
        if (machine.is_dead(w) && dead++ == 0)
            first_dead = number;
        if (dead != 0 && traces)
            break;
        for (int i = 0; i < n; ++i)
            for (const World &to : machine.next(w, i))
                if (before.emplace(machine.number(to), number).second)
                    open.push_back(to);
    }
    std::printf("%s n=%d worlds=%llu dead=%llu", argv[2], n, (unsigned long long)worlds,
        (unsigned long long)dead);
    if (is_fair) {
        before.clear();
        std::printf(" circles=%llu", (unsigned long long)Circles(machine, n, all, places).count());
    }
    std::printf("\n");
    if (dead != 0 && traces)
        print_trace(machine, first, first_dead, n, before);
    return 0;
}
