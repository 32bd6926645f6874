/*
 * gist for C++17: the stores, queries, snapshots, cursors and feeds of gist.h, as objects that free what they own.
 *
 *     gist::Store<gist::Interval> rooms;
 *     rooms.insert({9, 17}, 4711);
 *     for (const auto &row : rooms.snapshot().find(gist::overlaps(gist::Interval{12, 13})))
 *         std::cout << row.tag << '\n';
 *
 * See gist.h for what each call does and when it fails. A refused call throws a gist::Error. Objects can be moved but not
 * copied. A moved-from object may be assigned to or destroyed; any other call on it throws an Error with GIST_NO_HANDLE.
 * The obligations of gist.h about threads hold for these objects, too; a const function only reads its handle.
 */
#ifndef GIST_HPP
#define GIST_HPP

#include "gist_values.hpp"

#include <memory>
#include <optional>
#include <string_view>
#include <type_traits>
#include <utility>
#include <variant>

namespace gist {

namespace detail {
constexpr size_t room = 256; /* how many places a buffer has at first, or for each of several calls */

inline void need(uint32_t answer, uint64_t fault = 0, uint64_t done = 0) {
    if (answer != GIST_OK)
        throw Error(answer, fault, done);
}
/* The value that a call returns through its last pointer. */
template <class Call, class... Parts> uint64_t given(Call call, Parts... parts) {
    uint64_t number = 0;
    need(call(parts..., &number));
    return number;
}
/* A count of the library as a size, which may have fewer bits. */
inline size_t size_of(uint64_t count) {
    if (size_t(count) != count)
        throw std::length_error("gist: a result of " + std::to_string(count) + " rows doesn't fit into memory; ask for fewer");
    return size_t(count);
}
/* How many places a call gets when `done` items of at most `most` are there: never more than one buffer has. */
inline size_t next_room(uint64_t most, size_t done) { return size_t(std::min<uint64_t>(most - done, room)); }

/* Owns a handle, whose address never changes, and frees what the handle holds. */
template <class Raw, void (*drop)(Raw *)> class Owner {
    struct Drop {
        void operator()(Raw *raw) const noexcept {
            drop(raw);
            delete raw;
        }
    };
    std::unique_ptr<Raw, Drop> handle{new Raw GIST_NONE};

  public:
    Raw *raw() const noexcept { return handle.get(); } /* for calls of gist.h; null if it was moved from */
    Raw *held() const {
        if (!handle)
            throw Error(GIST_NO_HANDLE, 0, 0);
        return handle.get();
    }
};
using OwnStore = Owner<gist_store, gist_destroy>;
using SharedStore = std::shared_ptr<OwnStore>;

inline gist_store *held(const SharedStore &store) {
    if (!store)
        throw Error(GIST_NO_HANDLE, 0, 0);
    return store->held();
}

template <class Key> Row<Key> row_of(const gist_row &it) { return {it.row, it.tag, Key::of(it.key)}; }
template <class Key> Item<Key> item_of(const gist_item &it) {
    return {Kind(it.kind), it.number, it.ended, it.tag, Key::of(it.key)};
}

/*
 * How deep the text of a query is: 1 for a key, and 1 more for each word around it. The text is one that the library
 * accepts, or refuses only as too deep. As the library does, it reads the text with a stack of what is pending.
 */
inline size_t depth_of(std::string_view text) {
    struct Pending {
        char what; /* as in `not`, `(`, `and` and `or` */
        size_t left;
    };
    std::vector<Pending> stack;
    size_t last = 0;
    const auto join = [&](std::string_view which) {
        for (; !stack.empty() && which.find(stack.back().what) != which.npos; stack.pop_back())
            last = 1 + std::max(last, stack.back().left);
    };
    for (size_t at = 0; at < text.size();) {
        const size_t end = std::min(text.size(), text.find_first_not_of("abcdefghijklmnopqrstuvwxyz", at));
        const std::string_view word = text.substr(at, std::max(end - at, size_t{1}));
        at += word.size();
        if (word == "not" || word == "(") {
            stack.push_back({word[0], 0});
        } else if (word == "and" || word == "or") {
            join(word == "and" ? "na" : "nao");
            stack.push_back({word[0], last});
        } else if (word == ")") {
            join("nao");
            if (!stack.empty())
                stack.pop_back();
        } else if (word != " ") { /* a relation, and a key up to its bracket */
            at = std::min(text.size(), text.find_first_of(")}", at)) + 1;
            last = 1;
        }
    }
    join("nao");
    return last;
}
/* Why a query's text is refused at a byte. */
inline Error refused_text(std::string_view text, uint64_t at) {
    if (text.size() > 4096)
        return Error(GIST_QUERY_TEXT, at, 0,
                     "query text has " + std::to_string(text.size()) + " bytes; at most 4,096: split it into several queries");
    /* a text that is right, but too deep, is refused at its first word */
    const size_t depth = at == text.find_first_not_of(' ') ? depth_of(text) : 0;
    if (depth > 32)
        return Error(GIST_QUERY_TEXT, at, 0,
                     "query is " + std::to_string(depth) +
                         " deep; at most 32: combine alternatives with any_of or all_of, or split it into several queries");
    return Error(GIST_QUERY_TEXT, at, 0);
}

/* A query as text: parts that `and` or `or` joins, or a single one. */
struct Spelling {
    enum Form { single, all, any };
    Form form = single;
    std::vector<std::string> parts;

    /* A text that the caller wrote. Nobody looks at what it joins, so it gets brackets. */
    static Spelling of(std::string_view text) {
        const bool joins = text.find("and") != text.npos || text.find("or") != text.npos;
        return {single, {joins ? '(' + std::string(text) + ')' : std::string(text)}};
    }
    /* Adds what another query matches: its parts, if it is of the same form. */
    void add(const Spelling &it) {
        if (it.form == form && form != single)
            parts.insert(parts.end(), it.parts.begin(), it.parts.end());
        else
            parts.push_back(it.form == any ? '(' + it.text() + ')' : it.text());
    }
    Spelling negated() const { return {single, {form == single ? "not " + parts[0] : "not (" + text() + ')'}}; }
    std::string text() const {
        std::string made;
        write(made, 0, parts.size());
        return made;
    }

  private:
    /* The parts from one place to another, joined by halves, so that n parts make the query only log2 n deeper. The left
     * half needs no brackets. */
    void write(std::string &made, size_t from, size_t end) const {
        if (end - from == 1) {
            made += parts[from];
            return;
        }
        const size_t middle = from + (end - from + 1) / 2;
        const bool is_pair = end - middle > 1;
        write(made, from, middle);
        made += form == all ? " and " : " or ";
        made += is_pair ? "(" : "";
        write(made, middle, end);
        made += is_pair ? ")" : "";
    }
};
} // namespace detail

/*
 * A query, which is made once and may be used any number of times. Queries are combined by any_of, all_of, &, | and !, which
 * leave them as they are:
 *
 *     const auto day = gist::overlaps(gist::Interval{8, 17}), noon = gist::holds(gist::Interval::point(12));
 *     const auto query = (day | gist::Query<gist::Interval>("same (20 21)")) & !noon;
 */
template <class Key> class Query : public detail::Owner<gist_query, gist_forget> {
    std::variant<std::pair<Relation, Key>, detail::Spelling> meaning; /* from which others are made */

    void prepare(std::string_view text) {
        uint64_t at = 0;
        const char *const first = text.empty() ? "" : text.data();
        const auto answer = gist_prepare(raw(), Key::key_class, first, text.size(), &at);
        if (answer == GIST_QUERY_TEXT)
            throw detail::refused_text(text, at);
        detail::need(answer);
    }

  public:
    using query_key = Key;

    explicit Query(std::string_view text) : meaning(detail::Spelling::of(text)) { prepare(text); }
    Query(Relation relation, const Key &key) : meaning(std::pair(relation, key)) {
        detail::need(gist_ask(raw(), Key::key_class, uint32_t(relation), key.key()));
    }
    explicit Query(detail::Spelling spelling) : meaning(std::move(spelling)) { prepare(std::get<1>(meaning).text()); }

    detail::Spelling spelling() const {
        held();
        if (const auto *const spelling = std::get_if<1>(&meaning))
            return *spelling;
        static const char *const words[] = {"overlaps ", "within ", "holds ", "same "};
        const auto &[relation, key] = std::get<0>(meaning);
        return {detail::Spelling::single, {words[size_t(relation) - 1] + key.text()}};
    }
};
template <class Key> Query<Key> overlaps(const Key &key) { return {Relation::Overlaps, key}; }
template <class Key> Query<Key> within(const Key &key) { return {Relation::Within, key}; }
template <class Key> Query<Key> holds(const Key &key) { return {Relation::Holds, key}; }
template <class Key> Query<Key> same(const Key &key) { return {Relation::Same, key}; }
/* Matches every row. */
template <class Key> Query<Key> everything() { return {Relation::Within, Key::widest()}; }

namespace detail {
/* The query that others make, if they are all for keys of one class. */
template <class Key, class... More>
using QueryOf = std::enable_if_t<(std::is_same_v<More, Query<Key>> && ...), Query<Key>>;
/* The key of the queries in a range. There is none if the range has no queries. */
template <class Range>
using KeyOf = typename std::decay_t<decltype(*std::begin(std::declval<const Range &>()))>::query_key;

template <class Range> Query<KeyOf<Range>> joined(Spelling::Form form, const Range &queries) {
    Spelling all{form, {}};
    for (const auto &it : queries)
        all.add(it.spelling());
    if (all.parts.empty())
        throw std::invalid_argument("gist: queries is empty: pass at least one query");
    return Query<KeyOf<Range>>(std::move(all));
}
template <class Key, class... More> Query<Key> joined(Spelling::Form form, const Query<Key> &first, const More &...more) {
    Spelling all{form, {}};
    all.add(first.spelling());
    (all.add(more.spelling()), ...);
    return Query<Key>(std::move(all));
}
} // namespace detail

/*
 * Matches what any of some queries matches: any_of(a, b, c), or those of a vector or another range. Alternatives are joined
 * as a balanced tree, as by |, so n of them make the query only log2 n deeper: a query is at most 32 deep, and its text
 * has at most 4,096 bytes; an Error with GIST_QUERY_TEXT says which it exceeds. std::invalid_argument if a range is empty.
 */
template <class Range> Query<detail::KeyOf<Range>> any_of(const Range &queries) {
    return detail::joined(detail::Spelling::any, queries);
}
template <class Key, class... More> detail::QueryOf<Key, More...> any_of(const Query<Key> &first, const More &...more) {
    return detail::joined(detail::Spelling::any, first, more...);
}
/* Matches what all of some queries match; otherwise as any_of. */
template <class Range> Query<detail::KeyOf<Range>> all_of(const Range &queries) {
    return detail::joined(detail::Spelling::all, queries);
}
template <class Key, class... More> detail::QueryOf<Key, More...> all_of(const Query<Key> &first, const More &...more) {
    return detail::joined(detail::Spelling::all, first, more...);
}
template <class Key> Query<Key> operator|(const Query<Key> &left, const Query<Key> &right) { return any_of(left, right); }
template <class Key> Query<Key> operator&(const Query<Key> &left, const Query<Key> &right) { return all_of(left, right); }
template <class Key> Query<Key> operator!(const Query<Key> &query) { return Query<Key>(query.spelling().negated()); }

/* A store's commits at the moment when Store::snapshot took it. */
template <class Key> struct Snapshot : detail::Owner<gist_snapshot, gist_drop> {
    uint64_t commits() const { return detail::given(gist_commits, this->held()); }
    uint64_t count(const Query<Key> &query) const { return detail::given(gist_count, this->held(), query.held()); }
    /* The row with a number, and whether it was live. */
    Known<Key> row(uint64_t number) const {
        gist_row row;
        bool lives = false;
        detail::need(gist_row_of(this->held(), number, &row, &lives));
        return {detail::row_of<Key>(row), lives};
    }
    /* The commit with a number, if there was one. */
    std::optional<Item<Key>> commit(uint64_t number) const {
        gist_item item;
        detail::need(gist_commit_of(this->held(), number, &item));
        return item.kind == GIST_NOTHING ? std::nullopt : std::optional(detail::item_of<Key>(item));
    }
    /* The live rows that match a query, by rising number. */
    std::vector<Row<Key>> find(const Query<Key> &query) const { return found_by(gist_find, query); }
    /* The same in any order, which takes less time. */
    std::vector<Row<Key>> find_any(const Query<Key> &query) const { return found_by(gist_find_any, query); }
    /* For each key, the live rows that have a relation to it. If it throws, Error::done keys were answered. */
    std::vector<std::vector<Row<Key>>> find_each(Relation relation, Span<Key> keys) const {
        const auto asked = keys.made([](const Key &it) { return it.key(); });
        std::vector<gist_row> rows(detail::room);
        std::vector<uint64_t> ends(keys.size);
        std::vector<std::vector<Row<Key>>> all;
        while (all.size() < keys.size) {
            const size_t done = all.size();
            uint64_t answered = 0, first = 0;
            detail::need(gist_find_each(this->held(), uint32_t(relation), &asked[done], keys.size - done,
                                        rows.data(), rows.size(), ends.data(), ends.size(), &answered), 0, done);
            for (size_t i = 0; i < answered; first = ends[i++])
                all.push_back(Span<gist_row>(rows.data() + first, size_t(ends[i] - first)).made(detail::row_of<Key>));
            if (answered == 0) /* the rows of one key don't fit */
                rows.resize(detail::size_of(count(Query<Key>(relation, keys.data[done]))));
        }
        return all;
    }
    /* The next changes after a commit, at most `most`, and the commit from which a further call goes on. With no_limit
     * they are all. */
    Changes<Key> changes(const Query<Key> &query, uint64_t from, uint64_t most = 4096) const {
        gist_item buffer[detail::room];
        Changes<Key> all{{}, from};
        for (size_t room = detail::room, count = room; count == room && room != 0;) {
            room = detail::next_room(most, all.items.size());
            uint64_t written = 0;
            detail::need(gist_changes(this->held(), query.held(), all.upto, buffer, room, &written, &all.upto));
            count = size_t(written);
            std::transform(buffer, buffer + count, std::back_inserter(all.items), detail::item_of<Key>);
        }
        return all;
    }

  private:
    std::vector<Row<Key>> found_by(decltype(gist_find) find, const Query<Key> &query) const {
        std::vector<gist_row> rows(detail::room);
        for (uint64_t found = 0;; rows.resize(detail::size_of(found))) {
            detail::need(find(this->held(), query.held(), rows.data(), rows.size(), &found));
            if (found <= rows.size())
                return Span<gist_row>(rows.data(), size_t(found)).made(detail::row_of<Key>);
        }
    }
};

/* A cursor of Store::open or Store::follow. Destroying it closes the cursor. It shares the ownership of the store. */
template <class Key> class Cursor {
    detail::SharedStore store;
    uint64_t number;

  public:
    Cursor(detail::SharedStore of, uint64_t opened) : store(std::move(of)), number(opened) {}
    Cursor(Cursor &&) = default;
    Cursor &operator=(Cursor &&it) noexcept {
        std::swap(store, it.store);
        std::swap(number, it.number);
        return *this;
    }
    ~Cursor() {
        if (store)
            gist_close(store->raw(), number);
    }
    void mark() { detail::need(gist_mark(detail::held(store), number)); }
    /* The next items, at most `most`; with no_limit all that are left now. There are none only if nothing is left. If it
     * throws, no item is lost: the next call goes on. */
    std::vector<Item<Key>> next(uint64_t most = detail::room) {
        gist_item buffer[detail::room];
        std::vector<Item<Key>> all;
        for (size_t room = detail::room, count = room; count == room && room != 0;) {
            room = detail::next_room(most, all.size());
            uint64_t written = 0;
            try {
                /* space before the call, so that no item is lost when memory runs out */
                if (all.capacity() - all.size() < room)
                    all.reserve(std::max(all.size() + room, 2 * all.size()));
                detail::need(gist_next(detail::held(store), number, buffer, room, &written));
            } catch (...) {
                if (all.empty())
                    throw;
            }
            count = size_t(written);
            std::transform(buffer, buffer + count, std::back_inserter(all), detail::item_of<Key>);
        }
        return all;
    }
};

template <class Key> class Store {
    detail::SharedStore owner = std::make_shared<detail::OwnStore>();
    gist_store *held() const { return detail::held(owner); }
    /* Repeats a call until all rows are done, and returns the number of the first commit. */
    template <class Call, class Each> uint64_t all(Call call, Span<Each> each) {
        const uint64_t first = stats().commits + 1;
        for (size_t done = 0; done < each.size;) {
            uint64_t more = 0;
            detail::need(call(held(), each.data + done, each.size - done, &more), 0, done);
            done += size_t(more);
        }
        return first;
    }

  public:
    explicit Store(const Limits &limits = GIST_LIMITS) { detail::need(gist_create(raw(), Key::key_class, &limits)); }
    /* By gist_renew: the rows that were live in a snapshot become rows 1, 2 and so on, and `numbers` gets their old
     * numbers. If it throws, `numbers` is as before. */
    Store(const Snapshot<Key> &from, std::vector<uint64_t> &numbers, const Limits &limits = GIST_LIMITS) {
        const size_t living = detail::size_of(from.count(everything<Key>()));
        std::vector<uint64_t> before(std::max(living, size_t{1}));
        detail::given(gist_renew, from.held(), &limits, raw(), before.data(), before.size());
        before.resize(living);
        numbers.swap(before);
    }
    gist_store *raw() const noexcept { return owner ? owner->raw() : nullptr; }
    Figures stats() const {
        Figures figures;
        detail::need(gist_stats(held(), &figures));
        return figures;
    }
    std::vector<Standing> standings() const {
        std::vector<Standing> all(detail::size_of(stats().cursors));
        for (size_t place = 0; place < all.size(); place++)
            detail::need(gist_standing_of(held(), place, &all[place]));
        return all;
    }
    Snapshot<Key> snapshot() const {
        Snapshot<Key> now;
        detail::need(gist_take(held(), now.raw()));
        return now;
    }
    /* Adds rows one after the other, and returns the number of the first. If it throws, Error::done were added. */
    uint64_t insert(Span<Entry<Key>> entries) {
        return all(gist_insert, Span(entries.made([](const auto &it) { return gist_entry{it.key.key(), it.tag}; })));
    }
    uint64_t insert(const Key &key, uint64_t tag) { return insert({{key, tag}}); }
    /* Deletes rows one after the other, and returns the number of the first commit. If it throws, Error::done were
     * deleted. */
    uint64_t erase(Span<uint64_t> rows) { return all(gist_delete, rows); }
    uint64_t erase(uint64_t row) { return erase({&row, 1}); }
    uint64_t move(uint64_t row, const Key &key) { return detail::given(gist_move, held(), row, key.key()); }
    uint64_t sweep() { return detail::given(gist_sweep, held()); }
    Cursor<Key> open(const Query<Key> &query) { return {owner, detail::given(gist_open, held(), query.held())}; }
    Cursor<Key> follow(const Query<Key> &query, uint64_t commit) {
        return {owner, detail::given(gist_follow, held(), query.held(), commit)};
    }
};

template <class Key> class Feed : public detail::Owner<gist_feed, gist_end> {
  public:
    Feed() { detail::need(gist_begin(this->raw(), Key::key_class)); }
    uint64_t subscribe(const Query<Key> &query, uint64_t from) {
        return detail::given(gist_subscribe, this->held(), query.held(), from);
    }
    void unsubscribe(uint64_t subscription) { detail::need(gist_unsubscribe(this->held(), subscription)); }
    /* Processes at most `most` commits, appends their items for each subscription to `told`, and returns the last commit
     * that the feed has processed. If it throws, what was delivered before is in `told`, and the next call delivers the
     * rest. */
    uint64_t advance(const Snapshot<Key> &snapshot, std::vector<Told<Key>> &told, uint64_t most = no_limit) {
        if (waits) /* items that an earlier call left: the feed processes no commit before they are taken */
            take(snapshot, told, 0);
        return take(snapshot, told, most);
    }

  private:
    bool waits = false; /* whether the feed may have items that were not taken */

    /* Processes commits, and takes all items that then wait. */
    uint64_t take(const Snapshot<Key> &snapshot, std::vector<Told<Key>> &told, uint64_t most) {
        gist_told buffer[detail::room];
        uint64_t upto = 0;
        for (uint64_t count = detail::room; count == detail::room; most = 0) {
            /* space before the call, so that no item is lost when memory runs out */
            if (told.capacity() - told.size() < detail::room)
                told.reserve(std::max(told.size() + detail::room, 2 * told.size()));
            detail::need(gist_advance(this->held(), snapshot.held(), most, buffer, detail::room, &count, &upto));
            waits = count == detail::room;
            std::transform(buffer, buffer + count, std::back_inserter(told), [](const gist_told &it) {
                return Told<Key>{it.subscription, detail::item_of<Key>(it.item)};
            });
        }
        return upto;
    }
};

} // namespace gist

#endif
