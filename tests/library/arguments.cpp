/*
 * gist.hpp: each call that takes a number, with numbers from 0 to 2^64 - 1, for each class of keys: it works, or throws an
 * exception that says why. Nothing is read or written out of bounds, and no memory is allocated for a large limit alone.
 *
 *     c++ -std=c++17 -Wall -Wextra -pedantic tests/library/arguments.cpp -IFOLDER FOLDER/libgist.a && ./a.out
 *
 * It prints nothing and ends with status 0, or reports each call that differs, with its number.
 */
#include "gist.hpp"

#include <cstdlib>
#include <functional>
#include <iostream>
#include <new>
#include <utility>

using gist::Box, gist::Cursor, gist::Error, gist::Feed, gist::Interval, gist::Limits, gist::Query, gist::Relation, gist::Set, gist::Snapshot, gist::Store;

namespace {

/* The most that one allocation may take: far more than any call here needs, and far less than the numbers below. */
constexpr size_t most_bytes = size_t{64} << 20;

/* More than one call of the library returns to gist.hpp at a time. */
constexpr uint64_t rows = 5000;

const uint64_t numbers[] = {0,
                            1,
                            2,
                            255,
                            256,
                            257,
                            4096,
                            4097,
                            rows,
                            rows + 1,
                            uint64_t{1} << 31,
                            uint64_t{1} << 32,
                            (uint64_t{1} << 32) + 1,
                            INT64_MAX,
                            UINT64_MAX / 48,
                            UINT64_MAX / 48 + 1,
                            UINT64_MAX - 1,
                            UINT64_MAX,
                            uint64_t(-1)};

int failures = 0;
size_t largest = 0; /* of the allocations since it was reset */

void fail(const std::string &what, uint64_t number, const std::string &why) {
    std::cerr << what << " with " << number << ": " << why << std::endl;
    failures++;
}

/* A call, the refusals that it may end with, and what it has to do if it works: false is a failure. */
struct Call {
    std::string name;
    std::vector<uint32_t> refusals;
    std::function<bool(uint64_t)> works;
};

void try_call(const Call &call, uint64_t number) {
    largest = 0;
    try {
        if (!call.works(number))
            fail(call.name, number, "wrong result");
    } catch (const Error &error) {
        const std::string what = error.what();
        if (std::count(call.refusals.begin(), call.refusals.end(), error.number) == 0)
            fail(call.name, number, "refused: " + what);
        if (what.find(error.name) == std::string::npos || what.size() < error.name.size() + 30)
            fail(call.name, number, "no advice: " + what);
    } catch (const std::out_of_range &error) {
        if (std::string(error.what()).find(std::to_string(number)) == std::string::npos)
            fail(call.name, number, error.what());
    } catch (const std::exception &error) {
        fail(call.name, number, error.what());
    }
    if (largest > most_bytes)
        fail(call.name, number, "an allocation of " + std::to_string(largest) + " bytes");
}

/* Some keys of a class. The first overlaps the second, and `bad` has its ends reversed, if keys of the class have ends. */
template <class Key> struct Keys {
    Key one, two;
    std::vector<Key> bad;
};

template <class Key> std::vector<gist::Entry<Key>> many(const Key &key) {
    return std::vector<gist::Entry<Key>>(rows, {key, 7});
}

template <class Key> void numbered(const Keys<Key> &keys) {
    Store<Key> store(Limits{32, 12, 65536, 100000});
    store.insert(many(keys.one));
    const auto now = store.snapshot();
    const auto query = gist::overlaps(keys.one);
    const auto expected = [](uint64_t from, uint64_t most) { return std::min(rows - std::min(rows, from), most); };

    const std::vector<Call> calls = {
        {"Snapshot::row", {GIST_NO_SUCH_ROW}, [&](uint64_t n) { return now.row(n).row.row == n && n >= 1 && n <= rows; }},
        {"Snapshot::commit", {}, [&](uint64_t n) { return now.commit(n).has_value() == (n >= 1 && n <= rows); }},
        {"Snapshot::changes from", {GIST_FROM_FUTURE}, [&](uint64_t n) {
             const auto found = now.changes(query, n, 10000);
             return n <= rows && found.items.size() == expected(n, rows) && found.upto == rows;
         }},
        {"Snapshot::changes most", {}, [&](uint64_t n) {
             const auto found = now.changes(query, 0, n);
             return found.items.size() == expected(0, n) && found.upto == expected(0, n);
         }},
        {"Cursor::next", {}, [&](uint64_t n) {
             auto cursor = store.open(query);
             auto follower = store.follow(query, 1);
             const size_t most = n, first = cursor.next(most).size(), rest = cursor.next(rows).size();
             return first == expected(0, n) && first + rest == rows && follower.next(most).size() == expected(1, n);
         }},
        {"Store::follow", {GIST_FROM_FUTURE}, [&](uint64_t n) {
             return store.follow(query, n).next(2 * rows).size() == expected(n, rows) && n <= rows;
         }},
        {"Store::insert tag", {}, [&](uint64_t n) {
             Store<Key> other(Limits{4, 2, 8, 8});
             return other.insert(keys.one, n) == 1 && other.snapshot().row(1).row.tag == n;
         }},
        {"Store::erase", {GIST_NO_SUCH_ROW}, [&](uint64_t n) {
             Store<Key> other(Limits{4, 2, 8, 8});
             other.insert({{keys.one, 1}, {keys.two, 2}});
             return other.erase(n) == 3 && n >= 1 && n <= 2;
         }},
        {"Store::erase many", {GIST_NO_SUCH_ROW}, [&](uint64_t n) {
             Store<Key> other(Limits{4, 2, 8, 8});
             other.insert({{keys.one, 1}, {keys.two, 2}, {keys.two, 3}});
             return other.erase({3, n}) == 4 && n >= 1 && n <= 2;
         }},
        {"Store::move", {GIST_NO_SUCH_ROW}, [&](uint64_t n) {
             Store<Key> other(Limits{4, 2, 8, 8});
             other.insert({{keys.one, 1}, {keys.two, 2}});
             return other.move(n, keys.two) == 3 && n >= 1 && n <= 2;
         }},
        {"Feed::subscribe", {}, [&](uint64_t n) {
             Feed<Key> feed;
             std::vector<gist::Told<Key>> items;
             feed.subscribe(query, n);
             return feed.advance(now, items) == rows && items.size() == expected(n, rows);
         }},
        {"Feed::unsubscribe", {GIST_NOT_SUBSCRIBED}, [&](uint64_t n) {
             Feed<Key> feed;
             feed.subscribe(query, 0);
             feed.unsubscribe(n);
             return n == 1;
         }},
        {"Feed::advance", {}, [&](uint64_t n) {
             Feed<Key> feed;
             std::vector<gist::Told<Key>> items;
             feed.subscribe(query, 0);
             return feed.advance(now, items, n) == expected(0, n) && items.size() == expected(0, n);
         }},
        {"Relation", {GIST_BAD_CONFIG}, [&](uint64_t n) {
             const auto relation = Relation(uint32_t(n));
             return now.find_each(relation, {keys.one})[0].size() == now.count(Query<Key>(relation, keys.one));
         }},
        {"Store::Store pages and commits", {GIST_BAD_LIMITS}, [&](uint64_t n) {
             const auto limit = uint32_t(std::min<uint64_t>(n, UINT32_MAX));
             return Store<Key>(Limits{4, 2, 8, limit}).stats().commit_limit == n &&
                    Store<Key>(Limits{4, 2, limit, 8}).stats().page_limit == n;
         }},
        {"Store::Store fan and least", {GIST_BAD_LIMITS}, [&](uint64_t n) {
             const auto limit = uint32_t(std::min<uint64_t>(n, UINT32_MAX));
             return Store<Key>(Limits{limit, 2, 8, 8}).stats().commits + Store<Key>(Limits{64, limit, 8, 8}).stats().commits == 0;
         }},
        {"Store::Store renewed", {GIST_BAD_LIMITS, GIST_COMMITS_FULL}, [&](uint64_t n) {
             std::vector<uint64_t> before;
             const Store<Key> renewed(now, before, Limits{32, 12, 65536, uint32_t(std::min<uint64_t>(n, UINT32_MAX))});
             return n >= rows && before.size() == rows && before.front() == 1 && before.back() == rows;
         }},
        {"Set::insert", {}, [&](uint64_t n) {
             Set set;
             set.insert(n);
             return n < 128 && set.contains(n);
         }},
        {"Set::contains", {}, [&](uint64_t n) { return !Set{0}.contains(n) || n == 0; }},
    };
    for (const auto &call : calls)
        for (const uint64_t number : numbers)
            try_call(call, number);
}

/* No buffer that a call of the library gets is null, however little there is. */
template <class Key> void nothing(const Keys<Key> &keys) {
    Store<Key> empty;
    const auto now = empty.snapshot();
    const auto query = gist::overlaps(keys.one);
    std::vector<uint64_t> before{1, 2};
    const Store<Key> renewed(now, before);
    auto cursor = empty.open(query);
    const Call call{"an empty store", {}, [&](uint64_t n) {
                        return now.find(query).empty() && now.changes(query, 0, n).items.empty() && cursor.next(n).empty() &&
                               before.empty() && now.find_each(Relation::Same, {nullptr, 0}).empty();
                    }};
    for (const uint64_t number : numbers)
        try_call(call, number);
}

template <class Key> void reversed(const Keys<Key> &keys) {
    Store<Key> store;
    store.insert(keys.one, 1);
    for (const auto &bad : keys.bad) {
        const std::vector<Call> calls = {
            {"insert of reversed ends", {GIST_BAD_ENDS}, [&](uint64_t) { return store.insert(bad, 1) == 0; }},
            {"move to reversed ends", {GIST_BAD_ENDS}, [&](uint64_t) { return store.move(1, bad) == 0; }},
            {"find_each of reversed ends", {GIST_BAD_ENDS}, [&](uint64_t) {
                 return store.snapshot().find_each(Relation::Same, {keys.one, bad}).empty();
             }},
            {"overlaps of reversed ends", {GIST_BAD_ENDS}, [&](uint64_t) { return gist::overlaps(bad).raw() == nullptr; }},
            {"within of reversed ends", {GIST_BAD_ENDS}, [&](uint64_t) { return gist::within(bad).raw() == nullptr; }},
            {"holds of reversed ends", {GIST_BAD_ENDS}, [&](uint64_t) { return gist::holds(bad).raw() == nullptr; }},
            {"same of reversed ends", {GIST_BAD_ENDS}, [&](uint64_t) { return gist::same(bad).raw() == nullptr; }},
        };
        for (const auto &call : calls)
            try_call(call, 0);
    }
    if (store.stats().commits != 1)
        fail("reversed ends", 0, "a row was stored");
}

/* A moved-from object may be assigned to or destroyed. */
template <class Object> void moved(Object one, Object other) {
    Object taken = std::move(one);
    one = std::move(other);
    taken = std::move(one);
    Object last = std::move(taken);
}

template <class Key> void moved_from(const Keys<Key> &keys) {
    Store<Key> store;
    store.insert(keys.one, 1);
    const auto query = gist::overlaps(keys.one);
    moved(Store<Key>(), Store<Key>());
    moved(store.snapshot(), store.snapshot());
    moved(gist::overlaps(keys.one), gist::same(keys.two));
    moved(store.open(query), store.follow(query, 0));
    moved(Feed<Key>(), Feed<Key>());
    if (store.stats().cursors != 0)
        fail("cursors that were moved", 0, "they are still open");
}

template <class Key> void all(const Keys<Key> &keys) {
    numbered(keys);
    nothing(keys);
    reversed(keys);
    moved_from(keys);
}

} // namespace

/* Every allocation of gist.hpp comes through here. (g++ takes an inlined `free` for one that doesn't fit to `new`.) */
#define NOT_INLINE __attribute__((noinline))
NOT_INLINE void *operator new(size_t bytes) {
    largest = std::max(largest, bytes);
    void *const room = bytes > most_bytes ? nullptr : std::malloc(bytes ? bytes : 1);
    if (!room)
        throw std::bad_alloc();
    return room;
}
NOT_INLINE void operator delete(void *room) noexcept { std::free(room); }
NOT_INLINE void operator delete(void *room, size_t) noexcept { std::free(room); }

int main() {
    all(Keys<Interval>{{-5, 9}, {9, INT64_MAX}, {{1, 0}, {INT64_MAX, INT64_MIN}, {0, -1}}});
    all(Keys<Box>{{-3, -3, 4, INT32_MAX}, {4, 0, 9, 0}, {{1, 0, 0, 0}, {0, 1, 0, 0}, {INT32_MAX, 0, INT32_MIN, 0}}});
    all(Keys<Set>{{1, 2}, {2, 64}, {}});
    return failures ? 1 : 0;
}
