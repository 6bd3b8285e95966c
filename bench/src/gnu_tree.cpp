// The register's workload on GNU's order-statistics tree: what a C++ programmer would take from the library.
#include <chrono>
#include <cstdint>
#include <ext/pb_ds/assoc_container.hpp>
#include <ext/pb_ds/tree_policy.hpp>

namespace {

using Tree = __gnu_pbds::tree<uint64_t, __gnu_pbds::null_type, std::less<uint64_t>, __gnu_pbds::rb_tree_tag,
                              __gnu_pbds::tree_order_statistics_node_update>;

struct Place {
    uint32_t key;
    uint16_t x;
    uint16_t y;
};

struct Random {
    uint32_t state;
    uint32_t next() {
        state ^= state << 13;
        state ^= state >> 17;
        state ^= state << 5;
        return state;
    }
    uint32_t set(uint32_t sets) { return 1 + next() % sets; }
};

struct Register {
    Tree row;
    Place at[4096];

    uint64_t entry(uint32_t set) const { return (uint64_t)at[set].key << 16 | set; }

    void enter(uint32_t set, Place place) {
        at[set] = place;
        row.insert(entry(set));
    }

    void move(uint32_t set, Place place) {
        row.erase(entry(set));
        enter(set, place);
    }

    uint64_t bucket(uint32_t set, uint32_t size, uint64_t sum) const {
        uint32_t present = row.size(), rank = row.order_of_key(entry(set));
        uint32_t last_bucket = present / size - 1, number = rank / size < last_bucket ? rank / size : last_bucket;
        uint32_t first = number * size, last = number == last_bucket ? present - 1 : first + size - 1;
        uint16_t low_x = 65535, high_x = 0, low_y = 65535, high_y = 0;
        auto it = row.find_by_order(first);
        for (uint32_t r = first; r <= last; ++r, ++it) {
            Place p = at[*it & 0xffff];
            if (p.x < low_x) low_x = p.x;
            if (p.x > high_x) high_x = p.x;
            if (p.y < low_y) low_y = p.y;
            if (p.y > high_y) high_y = p.y;
        }
        for (uint32_t part : {first, last, (uint32_t)low_x, (uint32_t)high_x, (uint32_t)low_y, (uint32_t)high_y})
            sum = sum * 31 + part;
        return sum;
    }
};

}  // namespace

extern "C" uint64_t gnu_tree_run(uint32_t task, uint32_t sets, uint32_t turns, uint32_t state, const Place *home,
                                 const Place *beside, uint64_t *nanoseconds) {
    Register reg;
    Random random{state};
    static bool away[4096];
    for (uint32_t set = 1; set <= sets; ++set) {
        reg.enter(set, home[set]);
        away[set] = false;
    }
    uint64_t sum = 0;
    auto start = std::chrono::steady_clock::now();
    for (uint32_t i = 0; i < turns; ++i) {
        uint32_t set = random.set(sets);
        if (task == 0) {
            reg.move(set, home[random.set(sets)]);
        } else if (task == 1) {
            reg.move(set, away[set] ? home[set] : beside[set]);
            away[set] = !away[set];
        } else {
            sum = reg.bucket(set, task, sum);
        }
    }
    *nanoseconds = std::chrono::duration_cast<std::chrono::nanoseconds>(std::chrono::steady_clock::now() - start).count();
    for (uint32_t set = 1; set <= sets; ++set) sum = reg.bucket(set, 10, sum);
    return sum;
}
