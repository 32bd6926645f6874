// Measures a store in process: the calls of include/gist.h, and beside them, on the same keys, the R-tree of
// Boost.Geometry if its headers are there, and of sets a loop over all of them.
// Usage: library interval|box|set ROWS FINDS TURNS [gist]
//
// A line is printed for each phase: its name, the number of calls, and the processor time of a call of each tree in
// nanoseconds, the least of TURNS runs. With a last word `gist` only gist is measured, as for callgrind. Every find
// must give the same rows in every tree, otherwise the program ends with status 1.

#include <algorithm>
#include <cinttypes>
#include <cstdint>
#include <cstdio>
#include <cstdlib>
#include <cstring>
#include <ctime>
#include <iterator>
#include <memory>
#include <string>
#include <vector>

#include "gist.h"

#ifdef WITH_BOOST
#include <boost/geometry.hpp>
#include <boost/geometry/index/rtree.hpp>
#endif

namespace {

constexpr std::uint64_t SEED = 20240607;

// The limits of each tree: fan 32 with at least 12 a side, as in the measurements of lines; as many pages and commits
// as there are
constexpr gist_limits LIMITS = GIST_LIMITS;

[[noreturn]] void fail(const std::string& what) {
    std::fprintf(stderr, "library: %s\n", what.c_str());
    std::exit(1);
}

void expect(std::uint32_t code, const char* call) {
    if (code != GIST_OK) fail(std::string(call) + " is refused: " + std::to_string(code));
}

// splitmix64, of Steele, Lea and Flood
class Generator {
  public:
    std::uint64_t below(std::uint64_t bound) {
        std::uint64_t z = (state += 0x9e3779b97f4a7c15ULL);
        z = (z ^ (z >> 30)) * 0xbf58476d1ce4e5b9ULL;
        z = (z ^ (z >> 27)) * 0x94d049bb133111ebULL;
        return (z ^ (z >> 31)) % bound;
    }

  private:
    std::uint64_t state = SEED;
};

double seconds() {
    timespec now;
    clock_gettime(CLOCK_PROCESS_CPUTIME_ID, &now);
    return now.tv_sec + now.tv_nsec * 1e-9;
}

// What a find gave: the number of rows, and a sum over them that doesn't depend on their order
struct Found {
    std::uint64_t count = 0;
    std::uint64_t sum = 0;

    void add(std::uint64_t row) {
        count += 1;
        sum += row * row + 7 * row;
    }
    bool operator==(const Found& other) const { return count == other.count && sum == other.sum; }
};

// Finds of one kind: their names when all rows live and when half of them do, in any order, and as counts, and how large
// the answer or the key is
struct Asked {
    const char *name, *later, *any, *counted;
    std::uint64_t size;
};

// Short intervals on a line, a hundred points of it for each
struct Intervals {
    struct Key {
        std::int64_t lo, hi;
    };
    static constexpr std::uint32_t CLASS = GIST_INTERVALS, RELATION = GIST_OVERLAPS;
    static constexpr Asked ASKED[] = {{"find of 1,000", "find of 500", "1,000, any order", "count of 1,000", 1000},
                                      {"find of ten", "find of five", "ten, any order", "count of ten", 10}};
    static constexpr std::uint64_t FOLLOWED = 200;

    static Key key(Generator& generator, std::uint64_t rows) {
        std::int64_t lo = generator.below(rows * 100);
        return {lo, lo + static_cast<std::int64_t>(generator.below(20))};
    }
    static Key wanted(Generator& generator, std::uint64_t rows, std::uint64_t count) {
        std::int64_t lo = generator.below(rows * 100);
        return {lo, lo + static_cast<std::int64_t>(count * 100 - 10)};
    }
    static std::string text(const Key& key) {
        char text[96];
        std::snprintf(text, sizeof text, "overlaps(%" PRId64 " %" PRId64 ")", key.lo, key.hi);
        return text;
    }
    static gist_key key_of(const Key& key) { return gist_interval(key.lo, key.hi); }
};

// Small boxes in a square, a hundred by a hundred points of it for each
struct Boxes {
    struct Key {
        std::int32_t x1, y1, x2, y2;
    };
    static constexpr std::uint32_t CLASS = GIST_BOXES, RELATION = GIST_OVERLAPS;
    static constexpr Asked ASKED[] = {{"find of 1,000", "find of 500", "1,000, any order", "count of 1,000", 1000},
                                      {"find of ten", "find of five", "ten, any order", "count of ten", 10}};
    static constexpr std::uint64_t FOLLOWED = 200;

    static std::int64_t side(std::uint64_t rows) {
        std::int64_t side = 1;
        while ((side + 1) * (side + 1) <= static_cast<std::int64_t>(rows * 10000)) side += 1;
        return std::min<std::int64_t>(side, 2000000000);
    }
    static Key square(Generator& generator, std::uint64_t rows, std::int64_t least, std::int64_t more) {
        static std::uint64_t known_rows = 0;
        static std::int64_t known_side = 0;
        if (known_rows != rows) known_rows = rows, known_side = side(rows);
        std::int32_t x = generator.below(known_side), y = generator.below(known_side);
        std::int32_t width = least + generator.below(more), height = least + generator.below(more);
        return {x, y, x + width, y + height};
    }
    static Key key(Generator& generator, std::uint64_t rows) { return square(generator, rows, 0, 20); }
    static Key wanted(Generator& generator, std::uint64_t rows, std::uint64_t count) {
        std::int64_t wide = side(count) - 10;
        return square(generator, rows, wide, 1);
    }
    static std::string text(const Key& key) {
        char text[96];
        std::snprintf(text, sizeof text, "overlaps(%" PRId32 " %" PRId32 " %" PRId32 " %" PRId32 ")", key.x1, key.y1, key.x2, key.y2);
        return text;
    }
    static gist_key key_of(const Key& key) { return gist_box(key.x1, key.y1, key.x2, key.y2); }
};

// Sets of eight elements, asked for by elements that they hold
struct Sets {
    struct Key {
        std::uint64_t low, high;

        bool has(int element) const { return (element < 64 ? low >> element : high >> (element - 64)) & 1; }
        void add(int element) { (element < 64 ? low : high) |= std::uint64_t(1) << (element & 63); }
        bool holds(const Key& other) const { return (other.low & ~low) == 0 && (other.high & ~high) == 0; }
    };
    static constexpr std::uint32_t CLASS = GIST_SETS, RELATION = GIST_HOLDS;
    static constexpr Asked ASKED[] = {{"find by one", "by one, half dead", "by one, any order", "count by one", 1},
                                      {"find by two", "by two, half dead", "by two, any order", "count by two", 2},
                                      {"find by three", "by three, half dead", "by three, any order", "count by three", 3},
                                      {"find by four", "by four, half dead", "by four, any order", "count by four", 4}};
    static constexpr std::uint64_t FOLLOWED = 2;
    static constexpr int ELEMENTS = 128, SIZE = 8;

    static Key of_size(Generator& generator, std::uint64_t size) {
        Key key = {0, 0};
        for (std::uint64_t count = 0; count < size;) {
            int element = generator.below(ELEMENTS);
            if (key.has(element)) continue;
            key.add(element);
            count += 1;
        }
        return key;
    }
    static Key key(Generator& generator, std::uint64_t) { return of_size(generator, SIZE); }
    static Key wanted(Generator& generator, std::uint64_t, std::uint64_t size) { return of_size(generator, size); }
    static std::string text(const Key& key) {
        std::string text;
        for (int element = 0; element < ELEMENTS; element += 1)
            if (key.has(element)) text += (text.empty() ? "" : " ") + std::to_string(element);
        return "holds{" + text + "}";
    }
    static gist_key key_of(const Key& key) { return gist_set(key.low, key.high); }
};

// A store of gist. Its finds are those in a snapshot; a new one is taken after each write
template <class Kind>
class Store {
  public:
    static constexpr const char* NAME = "gist";

    explicit Store(std::uint64_t most) : rows(most) { expect(gist_create(&store, Kind::CLASS, &LIMITS), "gist_create"); }
    ~Store() {
        forget();
        gist_drop(&snapshot);
        gist_destroy(&store);
    }
    Store(const Store&) = delete;

    void insert(std::uint64_t, const typename Kind::Key& key) {
        const gist_entry entry = {Kind::key_of(key), 0};
        std::uint64_t added;
        is_current = false;
        expect(gist_insert(&store, &entry, 1, &added), "gist_insert");
    }
    void erase(std::uint64_t row, const typename Kind::Key&) {
        std::uint64_t deleted;
        is_current = false;
        expect(gist_delete(&store, &row, 1, &deleted), "gist_delete");
    }
    Found find(const typename Kind::Key& wanted) {
        const gist_key key = Kind::key_of(wanted);
        std::uint64_t end = 0, answered = 0;
        take();
        expect(gist_find_each(&snapshot, Kind::RELATION, &key, 1, rows.data(), rows.size(), &end, 1, &answered), "gist_find_each");
        if (answered != 1) fail("a find has more rows than the buffer");
        return first(end);
    }
    // Makes the queries of finds in any order, and of counts
    void prepare(const std::vector<typename Kind::Key>& keys) {
        forget();
        take();
        queries.reserve(keys.size());  // a handle isn't copied
        for (const auto& wanted : keys) {
            queries.push_back(GIST_NONE);
            expect(gist_ask(&queries.back(), Kind::CLASS, Kind::RELATION, Kind::key_of(wanted)), "gist_ask");
        }
    }
    Found find_any(std::size_t at) {
        std::uint64_t count = 0;
        expect(gist_find_any(&snapshot, &queries[at], rows.data(), rows.size(), &count), "gist_find_any");
        if (count > rows.size()) fail("a find has more rows than the buffer");
        return first(count);
    }
    std::uint64_t count(std::size_t at) {
        std::uint64_t count = 0;
        expect(gist_count(&snapshot, &queries[at], &count), "gist_count");
        return count;
    }
    Found find_text(const std::string& text) {
        gist_query query = prepared(text);
        std::uint64_t count = 0;
        take();
        expect(gist_find(&snapshot, &query, rows.data(), rows.size(), &count), "gist_find");
        gist_forget(&query);
        if (count > rows.size()) fail("a find has more rows than the buffer");
        return first(count);
    }
    std::uint64_t open(const typename Kind::Key& wanted) {
        gist_query query = prepared(Kind::text(wanted));
        std::uint64_t cursor;
        expect(gist_open(&store, &query, &cursor), "gist_open");
        gist_forget(&query);
        return cursor;
    }
    // Takes items until nothing is left, and tells how many
    std::uint64_t follow(std::uint64_t cursor) {
        gist_item item;
        for (std::uint64_t taken = 0, given = 0;; taken += given) {
            expect(gist_next(&store, cursor, &item, 1, &given), "gist_next");
            if (given == 0) return taken;
        }
    }

  private:
    void forget() {
        for (gist_query& query : queries) gist_forget(&query);
        queries.clear();
    }
    void take() {
        if (is_current) return;
        gist_drop(&snapshot);
        expect(gist_take(&store, &snapshot), "gist_take");
        is_current = true;
    }
    gist_query prepared(const std::string& text) const {
        gist_query query = GIST_NONE;
        std::uint64_t fault;
        expect(gist_prepare(&query, Kind::CLASS, text.data(), text.size(), &fault), "gist_prepare");
        return query;
    }
    Found first(std::uint64_t count) const {
        Found found;
        for (std::uint64_t at = 0; at < count; at += 1) found.add(rows[at].row);
        return found;
    }

    gist_store store = GIST_NONE;
    gist_snapshot snapshot = GIST_NONE;
    bool is_current = false;
    std::vector<gist_query> queries;
    std::vector<gist_row> rows;
};

// No tree at all: the keys, one after the other
template <class Kind>
class Loop {
  public:
    static constexpr const char* NAME = "a plain loop";

    explicit Loop(std::uint64_t) {}

    void insert(std::uint64_t row, const typename Kind::Key& key) {
        if (places.size() <= row) places.resize(row + 1);
        places[row] = keys.size();
        keys.push_back(key);
        rows.push_back(row);
    }
    void erase(std::uint64_t row, const typename Kind::Key&) {
        std::uint64_t at = places[row];
        places[rows.back()] = at;
        keys[at] = keys.back(), rows[at] = rows.back();
        keys.pop_back(), rows.pop_back();
    }
    Found find(const typename Kind::Key& wanted) {
        found.clear();
        for (std::uint64_t at = 0; at < keys.size(); at += 1)
            if (keys[at].holds(wanted)) found.push_back(rows[at]);
        Found sum;
        for (std::uint64_t row : found) sum.add(row);
        return sum;
    }
    void prepare(const std::vector<typename Kind::Key>& wanted) { asked = &wanted; }
    Found find_any(std::size_t at) { return find((*asked)[at]); }
    std::uint64_t count(std::size_t at) {
        std::uint64_t count = 0;
        for (const auto& key : keys) count += key.holds((*asked)[at]);
        return count;
    }

  private:
    const std::vector<typename Kind::Key>* asked = nullptr;
    std::vector<typename Kind::Key> keys;
    std::vector<std::uint64_t> rows, places, found;
};

#ifdef WITH_BOOST

namespace bg = boost::geometry;
namespace bgi = boost::geometry::index;

inline auto box_of(const Intervals::Key& key) {
    using Point = bg::model::point<std::int64_t, 1, bg::cs::cartesian>;
    return bg::model::box<Point>(Point(key.lo), Point(key.hi));
}

inline auto box_of(const Boxes::Key& key) {
    using Point = bg::model::point<std::int32_t, 2, bg::cs::cartesian>;
    return bg::model::box<Point>(Point(key.x1, key.y1), Point(key.x2, key.y2));
}

// Where a query of Boost's tree puts what it finds, if it is only counted
struct Counting {
    using iterator_category = std::output_iterator_tag;
    using value_type = void;
    using difference_type = std::ptrdiff_t;
    using pointer = void;
    using reference = void;

    std::uint64_t* count;

    Counting& operator*() { return *this; }
    Counting& operator++() { return *this; }
    Counting& operator++(int) { return *this; }
    template <class Value>
    Counting& operator=(const Value&) {
        *count += 1;
        return *this;
    }
};

// Boost's tree with a way to split
template <class Kind, class Splits>
class Boost {
  public:
    using Value = std::pair<decltype(box_of(typename Kind::Key())), std::uint64_t>;

    explicit Boost(std::uint64_t) {}

    void insert(std::uint64_t row, const typename Kind::Key& key) { tree.insert(Value(box_of(key), row)); }
    void erase(std::uint64_t row, const typename Kind::Key& key) {
        if (tree.remove(Value(box_of(key), row)) != 1) fail("boost lacks a row");
    }
    Found find(const typename Kind::Key& wanted) {
        rows.clear();
        tree.query(bgi::intersects(box_of(wanted)), std::back_inserter(rows));
        Found found;
        for (const Value& value : rows) found.add(value.second);
        return found;
    }
    void prepare(const std::vector<typename Kind::Key>& wanted) { asked = &wanted; }
    Found find_any(std::size_t at) { return find((*asked)[at]); }
    std::uint64_t count(std::size_t at) {
        std::uint64_t count = 0;
        tree.query(bgi::intersects(box_of((*asked)[at])), Counting{&count});
        return count;
    }

  private:
    const std::vector<typename Kind::Key>* asked = nullptr;
    bgi::rtree<Value, Splits> tree;
    std::vector<Value> rows;
};

template <class Kind>
struct Quadratic : Boost<Kind, bgi::quadratic<16>> {
    using Boost<Kind, bgi::quadratic<16>>::Boost;
    static constexpr const char* NAME = "quadratic<16>";
};

template <class Kind>
struct Rstar : Boost<Kind, bgi::rstar<16>> {
    using Boost<Kind, bgi::rstar<16>>::Boost;
    static constexpr const char* NAME = "rstar<16>";
};

#endif

// The numbers of a phase's calls, and what its finds gave
struct Phase {
    const char* name;
    std::uint64_t calls;
    double taken;
    std::vector<Found> found;
};

template <class Kind>
struct Work {
    std::vector<typename Kind::Key> keys, later, followed;
    // For each kind of finds what is wanted
    std::vector<std::vector<typename Kind::Key>> wanted;
    // Those of the last kind as texts: writing them is the caller's work, and isn't measured
    std::vector<std::string> texts;
    std::vector<std::uint64_t> ended;

    Work(std::uint64_t rows, std::uint64_t finds) {
        Generator generator;
        for (std::uint64_t row = 0; row < rows; row += 1) keys.push_back(Kind::key(generator, rows));
        for (const Asked& asked : Kind::ASKED) {
            wanted.emplace_back();
            for (std::uint64_t at = 0; at < finds; at += 1) wanted.back().push_back(Kind::wanted(generator, rows, asked.size));
        }
        for (const auto& key : wanted.back()) texts.push_back(Kind::text(key));
        for (std::uint64_t row = 1; row <= rows; row += 1) ended.push_back(row);
        for (std::uint64_t at = rows; at > 1; at -= 1) std::swap(ended[at - 1], ended[generator.below(at)]);
        ended.resize(rows / 2);
        for (int at = 0; at < 100; at += 1) followed.push_back(Kind::wanted(generator, rows, Kind::FOLLOWED));
        for (std::uint64_t at = 0; at < rows / 10; at += 1) later.push_back(Kind::key(generator, rows));
    }
};

template <class Call>
Phase timed(const char* name, std::uint64_t calls, Call call) {
    Phase phase{name, calls, 0, {}};
    double began = seconds();
    call(phase);
    phase.taken = (seconds() - began) / static_cast<double>(calls);
    return phase;
}

template <class Kind, class Tree>
void finds(Tree& tree, const Work<Kind>& work, const char* Asked::*name, std::vector<Phase>& phases) {
    for (std::size_t at = 0; at < work.wanted.size(); at += 1)
        phases.push_back(timed(Kind::ASKED[at].*name, work.wanted[at].size(), [&](Phase& phase) {
            for (const auto& wanted : work.wanted[at]) phase.found.push_back(tree.find(wanted));
        }));
}

// Finds in any order, and counts; the queries are made before
template <class Kind, class Tree>
void prepared_finds(Tree& tree, const Work<Kind>& work, std::vector<Phase>& phases) {
    for (std::size_t at = 0; at < work.wanted.size(); at += 1) {
        std::size_t calls = work.wanted[at].size();
        tree.prepare(work.wanted[at]);
        phases.push_back(timed(Kind::ASKED[at].any, calls, [&](Phase& phase) {
            for (std::size_t call = 0; call < calls; call += 1) phase.found.push_back(tree.find_any(call));
        }));
        phases.push_back(timed(Kind::ASKED[at].counted, calls, [&](Phase& phase) {
            for (std::size_t call = 0; call < calls; call += 1) phase.found.push_back({tree.count(call), 0});
        }));
    }
}

template <class Kind, class Tree>
std::vector<Phase> common_phases(Tree& tree, const Work<Kind>& work) {
    std::vector<Phase> phases;
    phases.push_back(timed("insert", work.keys.size(), [&](Phase&) {
        for (std::uint64_t at = 0; at < work.keys.size(); at += 1) tree.insert(at + 1, work.keys[at]);
    }));
    finds<Kind>(tree, work, &Asked::name, phases);
    prepared_finds<Kind>(tree, work, phases);
    phases.push_back(timed("delete", work.ended.size(), [&](Phase&) {
        for (std::uint64_t row : work.ended) tree.erase(row, work.keys[row - 1]);
    }));
    finds<Kind>(tree, work, &Asked::later, phases);
    return phases;
}

// What only gist has: finds by a text, and cursors that first give a snapshot, and then follow
template <class Kind>
void own_phases(Store<Kind>& store, const Work<Kind>& work, std::vector<Phase>& phases) {
    phases.push_back(timed("the last, by text", work.texts.size(), [&](Phase& phase) {
        for (const auto& text : work.texts) phase.found.push_back(store.find_text(text));
    }));
    if (!(phases.back().found == phases[phases.size() - 2].found)) fail("a text finds other rows");
    std::vector<std::uint64_t> cursors;
    for (const auto& followed : work.followed) cursors.push_back(store.open(followed));
    auto follow = [&](const char* name) {
        std::uint64_t taken = 0;
        double began = seconds();
        for (std::uint64_t cursor : cursors) taken += store.follow(cursor);
        phases.push_back({name, taken, (seconds() - began) / static_cast<double>(std::max<std::uint64_t>(taken, 1)), {}});
    };
    follow("item of a snapshot");
    std::uint64_t row = work.keys.size() + work.ended.size();
    phases.push_back(timed("insert, followed", work.later.size(), [&](Phase&) {
        for (const auto& key : work.later) store.insert(row += 1, key);
    }));
    follow("item that follows");
}

template <class Kind, class Tree>
std::vector<Phase> best_of(std::uint64_t turns, const Work<Kind>& work) {
    std::vector<Phase> best;
    for (std::uint64_t turn = 0; turn < turns; turn += 1) {
        auto tree = std::make_unique<Tree>(std::max<std::uint64_t>(work.keys.size(), 1024));
        std::vector<Phase> phases = common_phases<Kind>(*tree, work);
        if constexpr (std::is_same_v<Tree, Store<Kind>>) own_phases(*tree, work, phases);
        for (std::size_t at = 0; at < phases.size(); at += 1) {
            if (turn == 0) best.push_back(phases[at]);
            best[at].taken = std::min(best[at].taken, phases[at].taken);
        }
    }
    return best;
}

void require_same(const std::vector<Phase>& one, const std::vector<Phase>& other, const char* name) {
    for (std::size_t at = 0; at < std::min(one.size(), other.size()); at += 1)
        if (!(one[at].found == other[at].found)) fail(std::string(name) + " finds other rows in: " + one[at].name);
}

using Measured = std::vector<std::pair<const char*, std::vector<Phase>>>;

template <class Kind>
void measure_peers(std::uint64_t turns, const Work<Kind>& work, Measured& all) {
    if constexpr (std::is_same_v<Kind, Sets>) {
        all.emplace_back(Loop<Kind>::NAME, best_of<Kind, Loop<Kind>>(turns, work));
    } else {
#ifdef WITH_BOOST
        all.emplace_back(Quadratic<Kind>::NAME, best_of<Kind, Quadratic<Kind>>(turns, work));
        all.emplace_back(Rstar<Kind>::NAME, best_of<Kind, Rstar<Kind>>(turns, work));
#endif
    }
}

template <class Kind>
void measure(std::uint64_t rows, std::uint64_t finds, std::uint64_t turns, bool alone) {
    Work<Kind> work(rows, finds);
    Measured all;
    all.emplace_back(Store<Kind>::NAME, best_of<Kind, Store<Kind>>(turns, work));
    if (!alone) measure_peers(turns, work, all);
    for (const auto& other : all) require_same(all.front().second, other.second, other.first);
    std::printf("  %-20s%12s", "nanoseconds a call", "calls");
    for (const auto& tree : all) std::printf("%16s", tree.first);
    std::printf("\n");
    for (std::size_t at = 0; at < all.front().second.size(); at += 1) {
        std::printf("  %-20s%12" PRIu64, all.front().second[at].name, all.front().second[at].calls);
        for (const auto& tree : all)
            if (at < tree.second.size()) std::printf("%16.0f", tree.second[at].taken * 1e9);
        std::printf("\n");
    }
}

}  // namespace

int main(int count, char** words) {
    if (count < 5) fail("usage: library interval|box|set ROWS FINDS TURNS [gist]");
    std::uint64_t rows = std::strtoull(words[2], nullptr, 10), finds = std::strtoull(words[3], nullptr, 10), turns = std::strtoull(words[4], nullptr, 10);
    bool alone = count > 5 && std::strcmp(words[5], "gist") == 0;
    if (rows < 2 || finds < 1 || turns < 1) fail("ROWS is 2 and more, FINDS and TURNS 1 and more");
    if (std::strcmp(words[1], "interval") == 0) {
        measure<Intervals>(rows, finds, turns, alone);
    } else if (std::strcmp(words[1], "box") == 0) {
        measure<Boxes>(rows, finds, turns, alone);
    } else if (std::strcmp(words[1], "set") == 0) {
        measure<Sets>(rows, finds, turns, alone);
    } else {
        fail("keys are of the class interval, box or set");
    }
    return 0;
}
