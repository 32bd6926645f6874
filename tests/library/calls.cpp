/*
 * gist.hpp: each call, refusal, relation, kind, field and limit by its name, for each class of keys.
 *
 *     c++ -std=c++17 -Wall -Wextra -pedantic tests/library/calls.cpp -IFOLDER FOLDER/libgist.a && ./a.out
 *
 * It prints nothing, and ends with status 0, or tells the line of the first thing that isn't as it should be.
 */
#include "checks.hpp"
#include "gist.hpp"

#include <thread>
#include <type_traits>

using gist::Box, gist::Error, gist::Feed, gist::Interval, gist::Kind, gist::Limits, gist::Query, gist::Relation, gist::Set, gist::Store;

namespace {

/* Whether a call is refused so, after so many were done. */
template <class Call> void refused(int line, uint32_t number, const char *name, Call call, uint64_t done = 0) {
    try {
        call();
    } catch (const Error &error) {
        if (error.number != number || error.name != name || error.done != done)
            fail(line, "refused as " + std::string(error.what()) + ", after " + std::to_string(error.done));
        return;
    }
    fail(line, "not refused");
}

#define REFUSED(name, number, ...) refused(__LINE__, number, name, [&] { (void)(__VA_ARGS__); })
#define REFUSED_AFTER(done, name, number, ...) refused(__LINE__, number, name, [&] { (void)(__VA_ARGS__); }, done)

/* Some keys of a class: the first overlaps the second, and neither overlaps the third. */
template <class Key> struct Keys {
    Key one, two, far;
    const char *text; /* asks for what overlaps the first */
};

template <class Key> bool is(const gist::Row<Key> &it, uint64_t row, const Key &key, uint64_t tag) {
    return it.row == row && it.key == key && it.tag == tag;
}

template <class Key> bool is(const gist::Item<Key> &it, Kind kind, uint64_t number, uint64_t ended, uint64_t tag, const Key &key) {
    return it.kind == kind && it.number == number && it.ended == ended && it.tag == tag && it.key == key;
}

template <class Key> Store<Key> three(const Keys<Key> &keys) {
    Store<Key> store(Limits{4, 2, 64, 12});
    const std::vector<gist::Entry<Key>> entries{{keys.one, 10}, {keys.two, 20}, {keys.far, 30}};
    HOLDS(store.insert(entries) == 1);
    return store;
}

template <class Key> void snapshots(const Keys<Key> &keys) {
    auto store = three(keys);
    const auto now = store.snapshot();
    const auto near = now.find(Query<Key>(keys.text));
    HOLDS(near.size() == 2 && is(near[0], 1, keys.one, 10) && is(near[1], 2, keys.two, 20));
    const auto any = now.find_any(Query<Key>(keys.text));
    HOLDS(any.size() == 2 && any[0].row + any[1].row == 3 && now.find_any(gist::within(keys.far))[0].row == 3);
    HOLDS(now.find(gist::overlaps(keys.one)).size() == 2 && now.find(gist::same(keys.two))[0].row == 2);
    HOLDS(now.find(gist::within(keys.far))[0].row == 3 && now.find(gist::holds(keys.far))[0].row == 3);
    for (const auto relation : {Relation::Overlaps, Relation::Within, Relation::Holds, Relation::Same})
        HOLDS(now.find(Query<Key>(relation, keys.far)).size() == 1 && now.find_each(relation, {keys.far})[0][0].row == 3);
    const auto each = now.find_each(Relation::Overlaps, {keys.one, keys.far});
    HOLDS(each.size() == 2 && each[0].size() == 2 && each[1].size() == 1 && is(each[1][0], 3, keys.far, 30));
    HOLDS(now.count(gist::everything<Key>()) == 3);
    HOLDS(now.find_each(Relation::Same, {nullptr, 0}).empty() && now.count(Query<Key>(keys.text)) == 2);

    HOLDS(store.move(1, keys.far) == 4 && store.erase(2) == 5);
    const auto later = store.snapshot();
    HOLDS(now.commits() == 3 && later.commits() == 5 && later.count(Query<Key>(keys.text)) == 0);
    HOLDS(is(later.row(1).row, 1, keys.one, 10) && !later.row(1).lives && later.row(4).lives);
    REFUSED("NoSuchRow", GIST_NO_SUCH_ROW, later.row(5));
    HOLDS(is(*later.commit(1), Kind::Inserted, 1, 0, 10, keys.one) && is(*later.commit(4), Kind::Moved, 4, 1, 10, keys.far));
    HOLDS(is(*later.commit(5), Kind::Deleted, 5, 2, 20, keys.two) && !later.commit(0) && !later.commit(6));

    const Query<Key> query(keys.text);
    const auto all = later.changes(query, 0);
    HOLDS(all.items.size() == 4 && all.upto == 5 && is(all.items[2], Kind::Deleted, 4, 1, 10, keys.one));
    const auto some = later.changes(query, 0, 3);
    HOLDS(some.items.size() == 3 && some.upto == 4 && later.changes(query, 4).items.size() == 1);
    HOLDS(later.changes(query, 0, 0).items.empty());
    REFUSED("FromFuture", GIST_FROM_FUTURE, later.changes(query, 6));

    std::vector<uint64_t> numbers;
    Store<Key> renewed(later, numbers, Limits{4, 2, 64, 2});
    HOLDS((numbers == std::vector<uint64_t>{3, 4}) && is(renewed.snapshot().row(2).row, 2, keys.far, 10));
    REFUSED("CommitsFull", GIST_COMMITS_FULL, renewed.insert(keys.one, 1));
    REFUSED("CommitsFull", GIST_COMMITS_FULL, Store<Key>(later, numbers, Limits{4, 2, 64, 1}));
    REFUSED("BadLimits", GIST_BAD_LIMITS, Store<Key>(later, numbers, Limits{4, 2, 64, 0}));
}

template <class Key> void cursors(const Keys<Key> &keys) {
    auto store = three(keys);
    const Query<Key> query(keys.text);
    auto cursor = store.open(query);
    auto follower = store.follow(query, 1);
    HOLDS(store.stats().cursors == 2);
    const auto there = cursor.next();
    HOLDS(there.size() == 2 && there[0].kind == Kind::Row && there[0].number + there[1].number == 3);
    HOLDS(cursor.next().empty());
    store.move(1, keys.far);
    cursor.mark();
    const auto items = cursor.next();
    HOLDS(items.size() == 2 && is(items[0], Kind::Deleted, 4, 1, 10, keys.one));
    HOLDS(items[1].kind == Kind::Mark && items[1].number == 4 && cursor.next(0).empty());
    HOLDS(follower.next(1)[0].number == 2 && follower.next().size() == 1);
    store.insert(keys.one, 30);
    const auto standings = store.standings();
    HOLDS(standings.size() == 2 && standings[0].cursor == 1 && standings[0].opened == 3 && standings[0].lag == 1);
    HOLDS(standings[1].cursor == 2 && standings[1].opened == 1 && standings[1].lag == 1 && !standings[1].is_scanning);
    follower = std::move(cursor);
    HOLDS(follower.next().size() == 1 && follower.next().empty());
    REFUSED("FromFuture", GIST_FROM_FUTURE, store.follow(query, 6));
    HOLDS(store.sweep() == 1);

    std::vector<gist::Cursor<Key>> many;
    while (store.stats().cursors < 256)
        many.push_back(store.open(query));
    REFUSED("CursorsFull", GIST_CURSORS_FULL, store.open(query));
    many.clear();
    gist_close(store.raw(), 1);
    REFUSED("CursorClosed", GIST_CURSOR_CLOSED, follower.next());
    REFUSED("CursorClosed", GIST_CURSOR_CLOSED, follower.mark());

    /* a cursor is an owner of its store */
    auto last = three(keys).open(query);
    HOLDS(last.next().size() == 2);
}

template <class Key> void refusals(const Keys<Key> &keys) {
    auto store = three(keys);
    REFUSED("NoSuchRow", GIST_NO_SUCH_ROW, store.erase(4));
    REFUSED("NoSuchRow", GIST_NO_SUCH_ROW, store.move(0, keys.one));
    REFUSED_AFTER(2, "AlreadyDeleted", GIST_ALREADY_DELETED, store.erase({1, 2, 2, 3}));
    REFUSED("AlreadyDeleted", GIST_ALREADY_DELETED, store.move(1, keys.one));
    HOLDS(store.insert({nullptr, 0}) == 6 && store.erase(std::vector<uint64_t>{}) == 6);
    const std::vector<gist::Entry<Key>> nine(9, {keys.one, 0});
    REFUSED_AFTER(7, "CommitsFull", GIST_COMMITS_FULL, store.insert({nine.data(), nine.size()}));
    REFUSED("CommitsFull", GIST_COMMITS_FULL, store.erase(3));
}

template <class Key> void feeds(const Keys<Key> &keys) {
    Store<Key> store;
    Feed<Key> feed;
    const auto near = feed.subscribe(Query<Key>(keys.text), 0), far = feed.subscribe(gist::same(keys.far), 2);
    HOLDS(near == 1 && far == 2);
    store.insert({{keys.one, 10}, {keys.two, 20}, {keys.far, 30}});
    std::vector<gist::Told<Key>> told;
    HOLDS(feed.advance(store.snapshot(), told, 2) == 2 && told.size() == 2);
    HOLDS(feed.advance(store.snapshot(), told) == 3 && told.size() == 3);
    HOLDS(told[0].subscription == near && told[2].subscription == far);
    HOLDS(is(told[2].item, Kind::Inserted, 3, 0, 30, keys.far));
    feed.unsubscribe(far);
    REFUSED("NotSubscribed", GIST_NOT_SUBSCRIBED, feed.unsubscribe(far));
    const Store<Key> other;
    REFUSED("FromFuture", GIST_FROM_FUTURE, feed.advance(other.snapshot(), told));
    HOLDS(told.size() == 3);

    /* more than a buffer has room for */
    Feed<Key> crowd;
    for (int i = 0; i < 300; i++)
        crowd.subscribe(Query<Key>(keys.text), 0);
    told.clear();
    HOLDS(crowd.advance(store.snapshot(), told) == 3 && told.size() == 600);
}

void limits() {
    constexpr Limits least{4, 2, 1, 1}, greatest{64, 32, 65536, 16777216};
    for (const auto &it : {least, greatest, Limits GIST_LIMITS}) {
        const auto figures = Store<Set>(it).stats();
        HOLDS(figures.commit_limit == it.commits && figures.page_limit == it.pages && figures.commits == 0);
    }
    for (const auto &it : {Limits{3, 2, 1, 1}, Limits{65, 32, 65536, 16777216}, Limits{4, 1, 1, 1}, Limits{4, 3, 1, 1},
                           Limits{64, 33, 65536, 16777216}, Limits{4, 2, 0, 1}, Limits{4, 2, 65537, 1}, Limits{4, 2, 1, 0},
                           Limits{4, 2, 1, 16777217}})
        REFUSED("BadLimits", GIST_BAD_LIMITS, Store<Set>(it));
    Store<Interval> few(Limits{4, 2, 6, 1000});
    REFUSED("PagesFull", GIST_PAGES_FULL, [&] {
        for (int64_t n = 0; n < 1000; n++)
            few.insert({n, n}, 0);
    }());
    HOLDS(few.stats().pages + 2 > few.stats().page_limit && few.stats().horizon == few.stats().commits);
}

void keys_and_texts() {
    Store<Interval> store;
    REFUSED("BadEnds", GIST_BAD_ENDS, store.insert({2, 1}, 0));
    REFUSED_AFTER(1, "BadEnds", GIST_BAD_ENDS, store.insert({{{0, 0}, 0}, {{2, 1}, 0}}));
    REFUSED("BadEnds", GIST_BAD_ENDS, store.move(1, {2, 1}));
    REFUSED("BadEnds", GIST_BAD_ENDS, gist::same(Box{0, 1, 0, 0}));
    REFUSED_AFTER(1, "BadEnds", GIST_BAD_ENDS, store.snapshot().find_each(Relation::Same, {Interval{1, 2}, Interval{2, 1}}));
    REFUSED("BadConfig", GIST_BAD_CONFIG, Query<Interval>(Relation(5), Interval{1, 2}));
    try {
        Query<Interval>("overlaps ?");
        fail(__LINE__, "not refused");
    } catch (const Error &error) {
        HOLDS(error.number == GIST_QUERY_TEXT && error.fault == 9 && std::string(error.what()).find("gist: QueryText (21): query text is wrong at byte 9: expected") == 0);
    }
    Set set{1, 64};
    set.insert(127);
    HOLDS(set.low == 2 && set.high == (1 | uint64_t{1} << 63) && set.contains(64) && !set.contains(0) && !set.contains(128));
    try {
        set.insert(128);
        fail(__LINE__, "not refused");
    } catch (const std::out_of_range &) {
    }
    Store<Interval> moved = std::move(store);
    HOLDS(moved.stats().commits == 1);
    constexpr Box corner = Box::point(-5, 7);
    HOLDS((corner == Box{-5, 7, -5, 7} && Interval::point(9) == Interval{9, 9}));
    HOLDS(corner.text() == "(-5 7 -5 7)" && Interval::widest().text() == "(-9223372036854775808 9223372036854775807)");
    HOLDS((Set{127, 5}.text() == "{5 127}" && Set().text() == "{}" && Set::widest().contains(127)));

    /* more rows than a find has room for at first */
    std::vector<gist::Entry<Interval>> entries;
    std::vector<Interval> asked;
    for (int64_t n = 0; n < 1000; n++)
        entries.push_back({{n, n + n % 5}, uint64_t(n)}), asked.push_back({n / 9, n});
    Store<Interval> many;
    many.insert(entries);
    const auto now = many.snapshot();
    HOLDS(now.find(gist::within(Interval{0, 2000})).size() == 1000);
    const auto each = now.find_each(Relation::Overlaps, asked);
    for (size_t i = 0; i < asked.size(); i++)
        HOLDS(each[i].size() == now.count(gist::overlaps(asked[i])));
}

/* Threads read one snapshot and one query at once, while rows are added. */
void readers() {
    Store<Interval> store;
    for (int64_t n = 0; n < 500; n++)
        store.insert({n, n + 5}, uint64_t(n));
    const auto now = store.snapshot();
    const auto query = gist::overlaps(Interval{100, 199});
    std::vector<uint64_t> counts(4);
    std::vector<std::thread> threads;
    for (auto &count : counts)
        threads.emplace_back([&] {
            for (int i = 0; i < 50; i++)
                count += now.count(query) + now.find(query).size() + now.row(1).row.row;
        });
    for (int64_t n = 0; n < 500; n++)
        store.insert({n, n}, 0);
    for (auto &thread : threads)
        thread.join();
    for (const auto count : counts)
        HOLDS(count == 50 * (105 + 105 + 1));
}

void names() {
    const char *const all[] = {"OutOfMemory", "BadConfig", "PagesFull", "CommitsFull", "CursorsFull", "FindersFull", "NoSuchRow",
                               "AlreadyDeleted", "NoSuchCursor", "CursorClosed", "QueryText", "FromFuture", "FeedFull",
                               "NotSubscribed", "BadEnds", "OtherClass", "NoHandle", "BadLimits", "Compacted",
                               "OtherStore"};
    const uint32_t numbers[] = {GIST_OUT_OF_MEMORY, GIST_BAD_CONFIG, GIST_PAGES_FULL, GIST_COMMITS_FULL, GIST_CURSORS_FULL,
                                GIST_FINDERS_FULL, GIST_NO_SUCH_ROW, GIST_ALREADY_DELETED, GIST_NO_SUCH_CURSOR,
                                GIST_CURSOR_CLOSED, GIST_QUERY_TEXT, GIST_FROM_FUTURE, GIST_FEED_FULL, GIST_NOT_SUBSCRIBED,
                                GIST_BAD_ENDS, GIST_OTHER_CLASS, GIST_NO_HANDLE, GIST_BAD_LIMITS, GIST_COMPACTED,
                                GIST_OTHER_STORE};
    for (size_t i = 0; i < std::size(all); i++) {
        HOLDS(Error::name_of(numbers[i]) == all[i]);
        /* what is wrong, and then what to do */
        const std::string what = Error(numbers[i], 9, 0).what(), front = "gist: " + std::string(all[i]) + " (" + std::to_string(numbers[i]) + "): ";
        HOLDS(what.compare(0, front.size(), front) == 0 && what.find_first_of(":;", front.size()) < what.size() - 8);
    }
    HOLDS(Error::name_of(0).empty() && Error::name_of(32).empty());
    HOLDS(std::string(Error(GIST_CURSORS_FULL, 0, 2).what()) ==
          "gist: CursorsFull (5) after 2 done: too many cursors: 256 are open, or 4,294,967,295 were opened; close one, or renew the store");
    static_assert(!std::is_copy_constructible_v<gist::Snapshot<Set>> && !std::is_copy_constructible_v<Query<Set>>);
    static_assert(!std::is_default_constructible_v<Interval> && !std::is_default_constructible_v<Box>);
    static_assert(std::is_trivially_copyable_v<Interval> && std::is_trivially_copyable_v<Box> && sizeof(Box) == 16);
    static_assert(!std::is_copy_constructible_v<gist::Cursor<Set>> && std::is_nothrow_move_constructible_v<gist::Snapshot<Set>>);
}

template <class Key> void all_of(const Keys<Key> &keys) {
    snapshots(keys);
    cursors(keys);
    refusals(keys);
    feeds(keys);
}

} // namespace

int main() {
    all_of(Keys<Interval>{{-5, 9}, {9, INT64_MAX}, {INT64_MIN, -6}, "overlaps (-5 9)"});
    all_of(Keys<Box>{{-3, -3, 4, INT32_MAX}, {4, 0, 9, 0}, {INT32_MIN, INT32_MIN, -4, INT32_MAX}, "overlaps (-3 -3 4 2147483647)"});
    all_of(Keys<Set>{{1, 2}, {2, 64}, {127}, "overlaps {1 2}"});
    limits();
    keys_and_texts();
    readers();
    names();
    return 0;
}
