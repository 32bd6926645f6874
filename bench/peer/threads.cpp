// The peer of `bench/threads.py`: Boost.Geometry's R-tree (quadratic splits, 16 entries a node) under a
// `std::shared_mutex`, on the keys and queries that bench/threads makes. A find locks it shared and copies its rows
// out; an insert locks it exclusively.
//
//   threads READERS ROWS FINDS INSERTS
//
// It fills the tree with ROWS rows and lets READERS threads find FINDS times in all. If INSERTS isn't 0, one more
// thread inserts until the last reader has ended: INSERTS times a second, or as often as it can if that is 1. It
// prints the lines that desk_bench prints: one of the inserting thread, one of the readers.
#include <atomic>
#include <cstdint>
#include <cstdio>
#include <cstdlib>
#include <ctime>
#include <iterator>
#include <mutex>
#include <shared_mutex>
#include <thread>
#include <vector>

#include <boost/geometry.hpp>
#include <boost/geometry/index/rtree.hpp>

namespace bg = boost::geometry;
namespace bgi = boost::geometry::index;

using Point = bg::model::point<std::int64_t, 1, bg::cs::cartesian>;
using Interval = bg::model::box<Point>;

struct Row {
    Interval key;
    std::uint64_t tag;
    std::uint64_t number;
};

struct KeyOf {
    using result_type = const Interval&;
    result_type operator()(const Row& row) const { return row.key; }
};

struct SameRow {
    bool operator()(const Row& one, const Row& other) const { return one.number == other.number; }
};

using Tree = bgi::rtree<Row, bgi::quadratic<16>, KeyOf, SameRow>;

// Numbers that look random, always the same for a seed (Knuth's linear congruence), as bench/threads/src/rows.rt.in has them.
class Numbers {
public:
    Numbers(std::uint64_t seed, std::uint64_t rows) : state(seed), span(static_cast<std::uint32_t>(rows * 100)) {}

    Interval key() {
        const std::int64_t low = below(span);
        return {Point(low), Point(low + below(20))};
    }

    // Ten rows match on the average.
    Interval query() {
        const std::int64_t low = below(span);
        return {Point(low), Point(low + 990)};
    }

private:
    std::uint64_t state;
    std::uint32_t span;

    std::uint32_t below(std::uint32_t limit) {
        state = state * 6364136223846793005u + 1442695040888963407u;
        return static_cast<std::uint32_t>(state >> 33) % limit;
    }
};

std::uint64_t nanoseconds(clockid_t clock) {
    timespec time;
    clock_gettime(clock, &time);
    return static_cast<std::uint64_t>(time.tv_sec) * 1000000000u + static_cast<std::uint64_t>(time.tv_nsec);
}

// Waits until a thread that began at `since` may do its next piece of work, at `a_second` pieces a second. If that is
// 1, it never waits.
void keep_pace(std::uint64_t since, std::uint64_t done, std::uint64_t a_second) {
    const std::uint64_t due = a_second == 1 ? 0 : since + done * 1000000000u / a_second;
    const timespec moment{0, 20000};
    while (nanoseconds(CLOCK_MONOTONIC) < due) nanosleep(&moment, nullptr);
}

// The numbers that a part of a measurement prints; a cache line of its own for each thread.
struct alignas(64) Part {
    std::uint64_t wall = 0;
    std::uint64_t threads_wall = 0;
    std::uint64_t threads_cpu = 0;
    std::uint64_t calls = 0;
    std::uint64_t items = 0;

    void print() const {
        std::printf("%ju %ju %ju %ju 0 %ju\n", wall, threads_wall, threads_cpu, calls, items);
    }
};

template <class Work>
Part measured(Work work) {
    Part part;
    const std::uint64_t since = nanoseconds(CLOCK_MONOTONIC), used = nanoseconds(CLOCK_THREAD_CPUTIME_ID);
    work(part);
    part.threads_wall = nanoseconds(CLOCK_MONOTONIC) - since;
    part.threads_cpu = nanoseconds(CLOCK_THREAD_CPUTIME_ID) - used;
    return part;
}

int main(int count, char** words) {
    if (count != 5) return 2;
    const std::uint64_t readers = std::strtoull(words[1], nullptr, 10), rows = std::strtoull(words[2], nullptr, 10);
    const std::uint64_t finds = std::strtoull(words[3], nullptr, 10);
    const std::uint64_t inserts = std::strtoull(words[4], nullptr, 10);
    if (readers == 0) return 2;
    Tree tree;
    std::shared_mutex lock;
    Numbers fill(1, rows);
    for (std::uint64_t number = 1; number <= rows; number++) tree.insert(Row{fill.key(), 0, number});

    std::atomic<std::uint64_t> reading{readers};
    std::vector<Part> parts(readers);
    Part writing;
    std::vector<std::thread> threads;
    const std::uint64_t since = nanoseconds(CLOCK_MONOTONIC);
    for (std::uint64_t reader = 0; reader < readers; reader++) {
        threads.emplace_back([&, reader] {
            parts[reader] = measured([&](Part& part) {
                Numbers numbers(reader + 1001, rows);
                std::vector<Row> found;
                for (std::uint64_t find = 0; find < finds / readers; find++) {
                    const Interval query = numbers.query();
                    found.clear();
                    std::shared_lock<std::shared_mutex> shared(lock);
                    tree.query(bgi::intersects(query), std::back_inserter(found));
                    shared.unlock();
                    part.calls++;
                    part.items += found.size();
                }
            });
            reading--;
        });
    }
    if (inserts != 0) {
        writing = measured([&](Part& part) {
            Numbers numbers(2, rows);
            while (reading.load(std::memory_order_relaxed) != 0) {
                const Row row{numbers.key(), 0, rows + part.calls + 1};
                std::unique_lock<std::shared_mutex> alone(lock);
                tree.insert(row);
                alone.unlock();
                part.calls++;
                keep_pace(since, part.calls, inserts);
            }
        });
    }
    for (std::thread& thread : threads) thread.join();
    Part found;
    found.wall = nanoseconds(CLOCK_MONOTONIC) - since;
    for (const Part& part : parts) {
        found.threads_wall += part.threads_wall;
        found.threads_cpu += part.threads_cpu;
        found.calls += part.calls;
        found.items += part.items;
    }
    writing.wall = found.wall;
    writing.print();
    found.print();
    return 0;
}
