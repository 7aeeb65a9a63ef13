// Visits every reachable state of Lamport's Algorithm 2 for a few processes, and finds the worst
// cases of its progress. A state is called a world here.
//
// usage: progress N     N processes, from 1 to 5; for 5 it takes minutes and 2 GB
//
// Prints the number of reachable worlds; the fewest fair rounds that always bring an acquisition,
// if the lock is free when they begin, and if one process holds it and another tries to acquire it;
// and the most steps that change the world while the lock is free. The points and the steps are
// those of docs/lock.md. The status is 1 if a world is a dead end or a worst case has no bound.
#include <algorithm>
#include <array>
#include <cstdint>
#include <cstdio>
#include <cstdlib>
#include <unordered_map>
#include <vector>

namespace {

constexpr int MOST = 5;

// SCAN + j stands for Scan(j + 1).
enum Point : uint8_t {
    REST,
    START,
    SET_X,
    TEST_Y,
    BACK_B,
    AWAIT_Y,
    SET_Y,
    TEST_X,
    SLOW_B,
    SLOW_Y,
    SLOW_AWAIT,
    FAST,
    SLOW,
    LEAVING,
    SCAN
};

// Process i + 1 has the point at index i and the bit 1 << i of the flags. x and y hold process
// numbers, or 0.
struct World {
    unsigned x = 0, y = 0, flags = 0;
    std::array<unsigned, MOST> points{};
};

bool operator==(const World &v, const World &w) {
    return v.x == w.x && v.y == w.y && v.flags == w.flags && v.points == w.points;
}

bool is_inside(unsigned point) { return point == FAST || point == SLOW; }
bool is_entering(unsigned point) { return point != REST && point != LEAVING && !is_inside(point); }

// The step of process i + 1 of n.
World next(World w, unsigned n, unsigned i) {
    const unsigned own = i + 1, bit = 1u << i;
    unsigned &point = w.points[i];
    switch (point) {
        case REST:
        case START:
            w.flags |= bit;
            point = SET_X;
            break;
        case SET_X:
            w.x = own;
            point = TEST_Y;
            break;
        case TEST_Y: point = w.y == 0 ? SET_Y : BACK_B; break;
        case BACK_B:
            w.flags &= ~bit;
            point = AWAIT_Y;
            break;
        case AWAIT_Y: point = w.y == 0 ? START : AWAIT_Y; break;
        case SET_Y:
            w.y = own;
            point = TEST_X;
            break;
        case TEST_X: point = w.x == own ? FAST : SLOW_B; break;
        case SLOW_B:
            w.flags &= ~bit;
            point = SCAN;
            break;
        case SLOW_Y: point = w.y == own ? SLOW : SLOW_AWAIT; break;
        case SLOW_AWAIT: point = w.y == 0 ? START : SLOW_AWAIT; break;
        case FAST:
        case SLOW:
            w.y = 0;
            point = LEAVING;
            break;
        case LEAVING:
            w.flags &= ~bit;
            point = REST;
            break;
        default: {
            const unsigned j = point - SCAN;
            if ((w.flags >> j & 1) == 0)
                point = j + 1 == n ? static_cast<unsigned>(SLOW_Y) : point + 1;
        }
    }
    return w;
}

class Search {
public:
    explicit Search(unsigned processes) : n(processes) { visit_all(); }

    void report() {
        int steps = 0, rounds = 0, rounds_if_occupied = 0;
        for (size_t place = 0; place < worlds.size(); ++place) {
            const World w = unpacked(worlds[place]);
            if (!is_occupied(w)) steps = std::max(steps, most_steps(place));
            if (!is_contended(w)) continue;
            int &most = is_occupied(w) ? rounds_if_occupied : rounds;
            most = std::max(most, 1 + most_rounds(place, owed_in(w)));
        }
        std::printf("n=%u worlds=%zu rounds=%d rounds_if_occupied=%d steps=%d\n", n, worlds.size(),
                    rounds, rounds_if_occupied, steps);
    }

private:
    static constexpr int8_t UNKNOWN = -1, BEGUN = -2;

    const unsigned n;
    std::vector<uint64_t> worlds;
    std::unordered_map<uint64_t, size_t> places;
    std::vector<int8_t> steps_known, rounds_known;

    uint64_t packed(const World &w) const {
        uint64_t bits = w.x | w.y << 4 | w.flags << 8;
        for (unsigned i = 0; i < n; ++i) bits |= uint64_t{w.points[i]} << (16 + 5 * i);
        return bits;
    }

    World unpacked(uint64_t bits) const {
        World w;
        w.x = bits & 15;
        w.y = bits >> 4 & 15;
        w.flags = bits >> 8 & 255;
        for (unsigned i = 0; i < n; ++i) w.points[i] = bits >> (16 + 5 * i) & 31;
        return w;
    }

    size_t place_of(const World &w) const { return places.at(packed(w)); }
    bool is_enabled(const World &w, unsigned i) const { return !(next(w, n, i) == w); }
    bool is_occupied(const World &w) const {
        return std::any_of(w.points.begin(), w.points.end(), is_inside);
    }
    bool is_contended(const World &w) const {
        return std::any_of(w.points.begin(), w.points.end(), is_entering);
    }

    // The processes that must take a step in a fair round that begins in w, as bits.
    unsigned owed_in(const World &w) const {
        unsigned owed = 0;
        for (unsigned i = 0; i < n; ++i)
            if (w.points[i] != REST && is_enabled(w, i)) owed |= 1u << i;
        return owed;
    }

    [[noreturn]] void fail(const char *why) const {
        std::printf("n=%u: %s\n", n, why);
        std::exit(1);
    }

    void add(const World &w) {
        if (places.emplace(packed(w), worlds.size()).second) worlds.push_back(packed(w));
    }

    void visit_all() {
        add(World{});
        for (size_t place = 0; place < worlds.size(); ++place) {
            const World w = unpacked(worlds[place]);
            for (unsigned i = 0; i < n; ++i) add(next(w, n, i));
            if (w.points != World{}.points && owed_in(w) == 0) fail("a world is a dead end");
        }
        steps_known.assign(worlds.size(), UNKNOWN);
        rounds_known.assign(worlds.size() << n, UNKNOWN);
    }

    // The most steps from a world that change it while the lock is free.
    int most_steps(size_t place) {
        if (steps_known[place] == BEGUN) fail("the steps have no bound");
        if (steps_known[place] >= 0) return steps_known[place];
        steps_known[place] = BEGUN;
        const World w = unpacked(worlds[place]);
        int most = 0;
        for (unsigned i = 0; i < n; ++i) {
            const World v = next(w, n, i);
            if (!(v == w) && !is_occupied(v)) most = std::max(most, 1 + most_steps(place_of(v)));
        }
        steps_known[place] = static_cast<int8_t>(most);
        return most;
    }

    // The most fair rounds that can end without an acquisition, from a world in a round in which
    // these processes still have to take a step.
    int most_rounds(size_t place, unsigned owed) {
        int8_t &known = rounds_known[place << n | owed];
        if (known == BEGUN) fail("the rounds have no bound");
        if (known >= 0) return known;
        known = BEGUN;
        const World w = unpacked(worlds[place]);
        int most = 0;
        for (unsigned i = 0; i < n; ++i) {
            const World v = next(w, n, i);
            const unsigned left = owed & ~(1u << i);
            const bool enters = is_inside(v.points[i]) && !is_inside(w.points[i]);
            const bool idles = v == w && left == owed;
            if (enters || idles) continue;
            const int more = left != 0 ? most_rounds(place_of(v), left)
                                       : 1 + most_rounds(place_of(v), owed_in(v));
            most = std::max(most, more);
        }
        known = static_cast<int8_t>(most);
        return most;
    }
};

}  // namespace

int main(int count, char **words) {
    const int n = count == 2 ? std::atoi(words[1]) : 0;
    if (n < 1 || n > MOST) {
        std::fprintf(stderr, "usage: progress N     N from 1 to %d\n", MOST);
        return 2;
    }
    Search(static_cast<unsigned>(n)).report();
    return 0;
}
