/*
 * gist.hpp: every call that allocates memory, for each class. A call that runs out of memory is made again; then it has to
 * succeed, and nothing is lost or done twice. tests/examples runs this with each request for memory refused, one in each
 * run.
 *
 * It prints nothing, and ends with status 0, or reports the line of the first thing that differs.
 */
#include "gist.hpp"

#include <cstdio>
#include <cstdlib>
#include <new>

using gist::Box, gist::Error, gist::Interval, gist::Limits, gist::Query, gist::Relation, gist::Set, gist::Store;

namespace {

#define HOLDS(what) ((what) ? (void)0 : (std::fprintf(stderr, "line %d: %s\n", __LINE__, #what), std::exit(1)))

/* How many rows a store gets: few, or more than one buffer of gist.hpp has places for. */
constexpr uint64_t few = 5, many = 260;

/* Makes a call, and makes it again if memory ran out: one request is refused in a run. */
template <class Call> auto again(Call call) {
    try {
        return call();
    } catch (const std::bad_alloc &) {
    } catch (const Error &error) {
        HOLDS(error.number == GIST_OUT_OF_MEMORY);
    }
    return call();
}

/* Inserts rows, however many calls that takes. */
template <class Key> void insert(Store<Key> &store, const std::vector<gist::Entry<Key>> &entries) {
    for (size_t done = 0; done < entries.size();) {
        try {
            store.insert({entries.data() + done, entries.size() - done});
            return;
        } catch (const std::bad_alloc &) {
        } catch (const Error &error) {
            HOLDS(error.number == GIST_OUT_OF_MEMORY);
            done += size_t(error.done);
        }
    }
}

/* All that a cursor has to deliver. */
template <class Key> std::vector<gist::Item<Key>> all_of(gist::Cursor<Key> &cursor) {
    std::vector<gist::Item<Key>> all;
    again([&] { all.reserve(2 * many); });
    while (true) {
        const auto items = again([&] { return cursor.next(gist::no_limit); });
        if (items.empty())
            return all;
        all.insert(all.end(), items.begin(), items.end());
    }
}

/* Whether items have the numbers of the rows, one after the other, or for the rows of an opening in some order. */
template <class Items> bool are_rows(const Items &items, uint64_t rows, bool is_sorted) {
    uint64_t sum = 0, place = 0;
    for (const auto &it : items) {
        sum += it.number;
        if (++place != it.number && is_sorted)
            return false;
    }
    return place == rows && sum == rows * (rows + 1) / 2;
}

template <class Key> void calls(const Key &one, const Key &other, uint64_t rows) {
    const auto entries = again([&] { return std::vector<gist::Entry<Key>>(size_t(rows), {one, 7}); });
    auto store = again([] { return Store<Key>(Limits{32, 12, 256, 1000}); });
    auto feed = again([] { return gist::Feed<Key>(); });
    const auto query = again([&] { return gist::overlaps(one); });
    HOLDS(again([&] { return feed.subscribe(query, 0); }) == 1);
    insert(store, entries);
    HOLDS(store.stats().commits == rows);
    const auto now = again([&] { return store.snapshot(); });

    const auto none = again([&] { return !(query | gist::same(other)); });
    const auto both = again([&] { return gist::any_of(query, none) & Query<Key>("not " + gist::same(other).spelling().text()); });
    HOLDS(again([&] { return now.count(none); }) == 0 && again([&] { return now.count(both); }) == rows);
    HOLDS(again([&] { return now.find(query); }).size() == rows && again([&] { return now.count(query); }) == rows);
    const auto each = again([&] { return now.find_each(Relation::Same, {one, other, one}); });
    HOLDS(each.size() == 3 && each[0].size() == rows && each[1].empty() && each[2].size() == rows);
    HOLDS(again([&] { return now.row(rows); }).row.tag == 7);
    const auto changes = again([&] { return now.changes(query, 0, gist::no_limit); });
    HOLDS(are_rows(changes.items, rows, true) && changes.upto == rows);

    auto cursor = again([&] { return store.open(query); });
    auto follower = again([&] { return store.follow(query, 0); });
    HOLDS(are_rows(all_of(cursor), rows, false) && are_rows(all_of(follower), rows, true));
    HOLDS(again([&] { return store.standings(); }).size() == 2);

    std::vector<gist::Told<Key>> told;
    HOLDS(again([&] { return feed.advance(now, told); }) == rows);
    const auto items = again([&] { return gist::Span(told).made([](const auto &it) { return it.item; }); });
    HOLDS(are_rows(items, rows, true));

    HOLDS(again([&] { return store.move(1, other); }) == rows + 1 && again([&] { return store.erase(2); }) == rows + 2);
    again([&] { return store.sweep(); });
    const auto later = again([&] { return store.snapshot(); });
    auto numbers = again([] { return std::vector<uint64_t>{71}; });
    const auto renew = [&] { return Store<Key>(later, numbers, Limits{32, 12, 256, 1000}); };
    try {
        HOLDS(renew().stats().commits == rows - 1);
    } catch (const std::exception &) {
        HOLDS(numbers.size() == 1 && numbers[0] == 71 && renew().stats().commits == rows - 1);
    }
    HOLDS(numbers.size() == rows - 1 && numbers.front() == 3 && numbers.back() == rows + 1);
}

} // namespace

int main() {
    calls(Interval{1, 5}, Interval{9, 9}, many);
    calls(Box{1, 1, 5, 5}, Box{9, 9, 9, 9}, few);
    calls(Set{1, 64}, Set{9}, few);
    return 0;
}
