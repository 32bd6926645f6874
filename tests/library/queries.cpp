/*
 * gist.hpp: queries that are combined by any_of, all_of, |, & and !, for each class of keys, and why a query is refused.
 *
 *     c++ -std=c++17 -Wall -Wextra -pedantic tests/library/queries.cpp -IFOLDER FOLDER/libgist.a && ./a.out
 *
 * It prints nothing and ends with status 0, or reports the line of the first thing that differs.
 */
#include "checks.hpp"
#include "gist.hpp"

#include <array>
#include <list>
#include <random>

using gist::Box, gist::Error, gist::Interval, gist::Query, gist::Relation, gist::Set, gist::Snapshot, gist::Store;

namespace {

/* What an exception says, or an empty text if there is none. */
template <class Call> std::string said(Call call) {
    try {
        call();
        return "";
    } catch (const std::exception &error) {
        return error.what();
    }
}

#define SAYS(part, ...) \
    [&](const std::string &what) { \
        if (what.find(part) == what.npos) \
            fail(__LINE__, "says \"" + what + '"'); \
    }(said([&] { (void)(__VA_ARGS__); }))

constexpr unsigned rows = 40;

/* Which of the rows match: bit n - 1 for row n. */
using Mask = uint64_t;
constexpr Mask all_rows = (Mask{1} << rows) - 1;

template <class Key> Mask matches(const Snapshot<Key> &now, const Query<Key> &query) {
    Mask mask = 0;
    for (const auto &row : now.find(query))
        mask |= Mask{1} << (row.row - 1);
    return mask;
}

/* A query and the rows that it has to match. */
template <class Key> struct Known {
    Query<Key> query;
    Mask mask;
};

template <class Key> void combined(Key (*key_of)(int)) {
    Store<Key> store;
    for (unsigned n = 0; n < rows; n++)
        store.insert(key_of(int(n)), n);
    const auto now = store.snapshot();
    HOLDS(matches(now, gist::everything<Key>()) == all_rows && matches(now, !gist::everything<Key>()) == 0);

    /* forty alternatives, which `a or b or c` would make 40 deep */
    std::vector<Query<Key>> each;
    for (unsigned n = 0; n < rows; n++)
        each.push_back(gist::same(key_of(int(n))));
    HOLDS(matches(now, gist::any_of(each)) == all_rows && matches(now, !gist::any_of(each)) == 0);
    auto chained = !gist::everything<Key>();
    for (const auto &one : each)
        chained = chained | one;
    HOLDS(matches(now, chained) == all_rows);
    std::list<Query<Key>> nots;
    auto chain = gist::everything<Key>();
    for (unsigned n = 1; n < rows; n++) {
        nots.push_back(!each[n]);
        chain = chain & nots.back();
    }
    HOLDS(matches(now, gist::all_of(nots)) == 1 && matches(now, chain) == 1);
    const std::array<Query<Key>, 1> one{gist::same(key_of(3))};
    HOLDS(matches(now, gist::any_of(one)) == 8 && matches(now, gist::all_of(one)) == 8);
    HOLDS(matches(now, gist::any_of(each[4], each[0], each[2])) == 21 && matches(now, gist::all_of(each[5])) == 32);
    HOLDS(matches(now, gist::any_of(gist::same(key_of(0)), each[1])) == 3);
    HOLDS(matches(now, gist::all_of(gist::same(key_of(0)), each[1])) == 0);

    /* a text is an operand, too, whatever it joins */
    const Query<Key> text("same " + key_of(0).text() + " or same " + key_of(1).text());
    HOLDS(matches(now, text & each[1]) == 2 && matches(now, each[1] & text) == 2 && matches(now, !text) == (all_rows & ~Mask{3}));
    HOLDS(matches(now, text | each[2]) == 7 && matches(now, !(!text)) == 3 && matches(now, text) == 3 && matches(now, each[1]) == 2);

    /* random trees mean what their parts mean, and leave these as they are */
    std::mt19937 random(1);
    std::vector<Known<Key>> known;
    for (unsigned n = 0; n < rows; n += 4)
        for (const auto relation : {Relation::Overlaps, Relation::Within, Relation::Holds, Relation::Same}) {
            Query<Key> query(relation, key_of(int(n)));
            const Mask mask = matches(now, query);
            known.push_back({std::move(query), mask});
        }
    for (int i = 0; i < 600; i++) {
        const auto &left = known[random() % known.size()], &right = known[random() % known.size()];
        const auto kind = random() % 4;
        try {
            if (kind == 0)
                known.push_back({left.query | right.query, left.mask | right.mask});
            else if (kind == 1)
                known.push_back({left.query & right.query, left.mask & right.mask});
            else if (kind == 2)
                known.push_back({!left.query, all_rows & ~left.mask});
            else
                known.push_back({gist::any_of(!left.query, left.query & right.query, !(!right.query)),
                                 (all_rows & ~left.mask) | right.mask});
        } catch (const Error &error) { /* the text may become too long */
            HOLDS(error.number == GIST_QUERY_TEXT && std::string(error.what()).find("query text has ") != std::string::npos);
        }
    }
    HOLDS(known.size() > 300);
    for (const auto &it : known)
        HOLDS(matches(now, it.query) == it.mask);
}

/* A text of a random query, with some brackets that it doesn't need, and its depth. */
struct Text {
    std::string text;
    unsigned depth;
};

Text random_text(std::mt19937 &random, unsigned most) {
    const auto bracketed = [&](const Text &it) { return random() % 2 ? "(" + it.text + ")" : "( (" + it.text + " ))"; };
    if (most <= 1 || random() % 12 == 0)
        return {random() % 2 ? "same (1 2)" : "overlaps ( -3  4 )", 1};
    if (random() % 3 == 0) {
        const auto part = random_text(random, most - 1);
        return {"not " + bracketed(part), part.depth + 1};
    }
    const auto deep = random_text(random, most - 1), other = random_text(random, 1 + unsigned(random() % 3));
    const bool is_left = random() % 2;
    return {(is_left ? bracketed(deep) : bracketed(other)) + (random() % 2 ? " and " : " or ") + (is_left ? bracketed(other) : bracketed(deep)),
            1 + std::max(deep.depth, other.depth)};
}

std::string repeated(const std::string &text, const std::string &between, unsigned n) {
    std::string all = text;
    for (unsigned i = 1; i < n; i++)
        all += between + text;
    return all;
}

/* A query that is too deep is refused as such, with its depth, and no other query is. */
void depths() {
    std::mt19937 random(2);
    unsigned deep = 0, good = 0;
    for (int i = 0; i < 3000; i++) {
        const auto it = random_text(random, 20 + unsigned(random() % 30));
        if (it.text.size() > 4096)
            continue;
        HOLDS(gist::detail::depth_of(it.text) == it.depth);
        const auto why = said([&] { Query<Interval> query(it.text); });
        if (it.depth <= 32) {
            HOLDS(why.empty());
            good++;
        } else {
            HOLDS(why == "gist: QueryText (21): query is " + std::to_string(it.depth) +
                             " deep; at most 32: combine alternatives with any_of or all_of, or split it into several queries");
            deep++;
        }
    }
    HOLDS(deep > 100 && good > 100);
    for (const auto *const word : {" or ", " and "}) {
        HOLDS(said([&] { Query<Interval> query(repeated("same (1 2)", word, 32)); }).empty());
        SAYS("query is 33 deep", Query<Interval>(repeated("same (1 2)", word, 33)));
        SAYS("query is 41 deep", Query<Interval>("  " + repeated("same (1 2)", word, 41)));
    }
    HOLDS(said([&] { Query<Set> query(repeated("not ", "", 31) + "same {}"); }).empty());
    SAYS("query is 33 deep", Query<Set>(repeated("not ", "", 32) + "same {1 2}"));
    /* `and` binds closer than `or`, and `not` closer than both */
    SAYS("query is 34 deep", Query<Set>(repeated("not same {} and same {}", " or ", 32)));
    HOLDS(said([&] { Query<Set> query(repeated("not same {} and same {}", " or ", 30)); }).empty());
    /* another fault of a deep text is reported where it is */
    SAYS("wrong at byte 559: expected", Query<Interval>(repeated("same (1 2)", " or ", 40) + " or"));
    SAYS("wrong at byte 0: expected", Query<Interval>("nothing"));
    SAYS("wrong at byte 0: expected", Query<Interval>(""));
    SAYS("wrong at byte 2: expected", Query<Interval>("  "));
    SAYS("query text has 4201 bytes; at most 4,096", Query<Interval>("same (1 2)" + std::string(4191, ' ')));

    auto query = gist::same(Interval{1, 2}) | gist::same(Interval{5, 6});
    for (int i = 2; i < 32; i++)
        query = !query;
    SAYS("query is 33 deep; at most 32", !query);
    SAYS("query is 33 deep; at most 32", query & gist::same(Interval{1, 2}));
    std::vector<Query<Interval>> many;
    for (int i = 0; i < 300; i++)
        many.push_back(gist::same(Interval{i, i}));
    SAYS("query text has ", gist::any_of(many));
    SAYS("; at most 4,096: split it into several queries", gist::any_of(many));
    many.clear();
    SAYS("queries is empty", gist::any_of(many));
    SAYS("queries is empty", gist::all_of(std::list<Query<Set>>{}));
    SAYS("queries is empty", gist::any_of(std::array<Query<Box>, 0>{}));
}

void moved_from() {
    auto query = gist::same(Interval{1, 2});
    Store<Interval> store;
    auto cursor = store.open(query);
    auto now = store.snapshot();
    gist::Feed<Interval> feed;
    const auto taken = std::move(query);
    const auto taken_cursor = std::move(cursor);
    SAYS("NoHandle (28): object is empty", store.open(query));
    SAYS("NoHandle (28): object is empty", !query);
    SAYS("NoHandle (28): object is empty", now.find(query));
    SAYS("NoHandle (28): object is empty", taken | query);
    SAYS("NoHandle (28): object is empty", feed.subscribe(query, 0));
    SAYS("NoHandle (28): object is empty", cursor.next());
    SAYS("NoHandle (28): object is empty", cursor.mark());
    std::vector<gist::Told<Interval>> items;
    const auto taken_now = std::move(now);
    SAYS("NoHandle (28): object is empty", now.commits());
    SAYS("NoHandle (28): object is empty", feed.advance(now, items));
    const auto taken_feed = std::move(feed);
    SAYS("NoHandle (28): object is empty", feed.advance(taken_now, items));
    const auto taken_store = std::move(store);
    SAYS("NoHandle (28): object is empty", store.insert({1, 2}, 0));
    SAYS("NoHandle (28): object is empty", store.stats());
    SAYS("NoHandle (28): object is empty", store.snapshot());
    HOLDS(store.raw() == nullptr && now.raw() == nullptr && taken_store.stats().cursors == 1);
}

} // namespace

int main() {
    combined<Interval>([](int n) { return Interval{n, n + n % 7}; });
    combined<Box>([](int n) { return Box{n - 20, n % 3, n - 20 + n % 7, 2 + n % 5}; });
    combined<Set>([](int n) { return Set{uint64_t(n), uint64_t(127 - n % 7), uint64_t(n / 3)}; });
    depths();
    moved_from();
    return 0;
}
