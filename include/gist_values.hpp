/*
 * The values of gist.hpp: keys of the three classes, rows, items and refusals.
 */
#ifndef GIST_VALUES_HPP
#define GIST_VALUES_HPP

#include "gist.h"

#include <algorithm>
#include <cstddef>
#include <cstdint>
#include <initializer_list>
#include <iterator>
#include <stdexcept>
#include <string>
#include <vector>

namespace gist {

/* No limit, for the calls that take one: Snapshot::changes, Cursor::next and Feed::advance. -1 converts to it. */
inline constexpr uint64_t no_limit = UINT64_MAX;

namespace detail {
/* What is wrong, then what to do. bindings/rust/src/error.rs has the same words. */
inline std::string advice(uint32_t refusal, uint64_t at) {
    switch (refusal) {
    case GIST_OUT_OF_MEMORY:
        return "out of memory: free some and try again";
    case GIST_BAD_CONFIG:
        return "no such class or relation, or the handle is in use: pass a named constant, and an empty handle";
    case GIST_PAGES_FULL:
        return "store is full: fewer than two of its pages are left; sweep it, or renew it with a higher page limit";
    case GIST_COMMITS_FULL:
        return "store is full: it has as many commits as its limit; renew it with a limit above its number of live rows";
    case GIST_CURSORS_FULL:
        return "too many cursors: 256 are open, or 4,294,967,295 were opened; close one, or renew the store";
    case GIST_FINDERS_FULL:
        return "store has used up its 4,294,967,295 deletes and moves: renew it";
    case GIST_NO_SUCH_ROW:
        return "no such row: pass the number of an insert or a move that the store or the snapshot has";
    case GIST_ALREADY_DELETED:
        return "row was deleted or moved: pass the number of a live row; a move returns the row's new number";
    case GIST_NO_SUCH_CURSOR:
        return "no such cursor: use one that this store opened";
    case GIST_CURSOR_CLOSED:
        return "cursor is closed: open another, or follow the last mark";
    case GIST_QUERY_TEXT:
        return "query text is wrong at byte " + std::to_string(at) +
               ": expected overlaps, within, holds or same with a key, joined by and, or, not and round brackets, "
               "at most 32 deep and 4,096 bytes long";
    case GIST_FROM_FUTURE:
        return "no such commit yet: the store or the snapshot has fewer; pass one that it has, or a later snapshot";
    case GIST_FEED_FULL:
        return "too many subscriptions: 1,000,000 are open, or 4,294,967,295 were opened; end one, or begin another feed";
    case GIST_NOT_SUBSCRIBED:
        return "no such subscription: pass the number of one that is open";
    case GIST_BAD_ENDS:
        return "key's lower end exceeds its upper end: pass the lower end first; an empty range is no key";
    case GIST_OTHER_CLASS:
        return "different classes of keys: use a query, a feed and a snapshot of the same class";
    case GIST_NO_HANDLE:
        return "object is empty: it was moved from, closed or never made; make another";
    case GIST_BAD_LIMITS:
        return "limit is out of range: use a fan of 4 to 64, a least of 2 to half of it, 1 to 65,536 pages and 1 to 16,777,216 "
               "commits";
    case GIST_COMPACTED:
        return "map's changes after that revision are no longer kept: find again, and go on from that snapshot's revision";
    case GIST_OTHER_STORE:
        return "snapshot is of another map: pass one of the map whose identity the feed has";
    default:
        return "refusal " + std::to_string(refusal) + " of another version of the library: see the gist.h of that version";
    }
}
} // namespace detail

/* A refused call. what() is such as "gist: CursorClosed (17): cursor is closed: open another, or follow the last mark". */
class Error : public std::runtime_error {
  public:
    const uint32_t number;  /* as GIST_COMMITS_FULL */
    const std::string name; /* as "CommitsFull" */
    const uint64_t fault;   /* of GIST_QUERY_TEXT: the place of the first wrong byte, counted from 0 */
    const uint64_t done;    /* of a call for many rows or keys: how many were done before the refused one */

    Error(uint32_t refusal, uint64_t at, uint64_t before) : Error(refusal, at, before, detail::advice(refusal, at)) {}
    Error(uint32_t refusal, uint64_t at, uint64_t before, const std::string &why)
        : std::runtime_error("gist: " + name_of(refusal) + " (" + std::to_string(refusal) + ")" +
                             (before ? " after " + std::to_string(before) + " done: " : ": ") + why),
          number(refusal), name(name_of(refusal)), fault(at), done(before) {}
    static std::string name_of(uint32_t refusal) {
        char buffer[16];
        return std::string(buffer, gist_refusal_name(refusal, buffer, sizeof buffer));
    }
};

/* A class of keys: the whole numbers from lo to hi, both inside. It has no default: a key needs all its numbers.
 * Interval{lo, hi} doesn't compile with a number that may not fit. */
struct Interval {
    int64_t lo, hi;
    constexpr Interval(int64_t lowest, int64_t highest) : lo(lowest), hi(highest) {}
    static constexpr Interval point(int64_t number) { return {number, number}; }
    static constexpr Interval widest() { return {INT64_MIN, INT64_MAX}; }
    static constexpr uint32_t key_class = GIST_INTERVALS;
    static Interval of(const gist_key &it) { return {it.interval.lo, it.interval.hi}; }
    gist_key key() const { return gist_interval(lo, hi); }
    /* The key as the text of a query has it: "(9 17)". */
    std::string text() const { return '(' + std::to_string(lo) + ' ' + std::to_string(hi) + ')'; }
    bool operator==(const Interval &it) const { return lo == it.lo && hi == it.hi; }
};
/* A class of keys: the whole points (x, y) with x1 <= x <= x2 and y1 <= y <= y2. As Interval, it has no default. */
struct Box {
    int32_t x1, y1, x2, y2;
    constexpr Box(int32_t left, int32_t low, int32_t right, int32_t high) : x1(left), y1(low), x2(right), y2(high) {}
    static constexpr Box point(int32_t x, int32_t y) { return {x, y, x, y}; }
    static constexpr Box widest() { return {INT32_MIN, INT32_MIN, INT32_MAX, INT32_MAX}; }
    static constexpr uint32_t key_class = GIST_BOXES;
    static Box of(const gist_key &it) { return {it.box.x1, it.box.y1, it.box.x2, it.box.y2}; }
    gist_key key() const { return gist_box(x1, y1, x2, y2); }
    std::string text() const {
        return '(' + std::to_string(x1) + ' ' + std::to_string(y1) + ' ' + std::to_string(x2) + ' ' + std::to_string(y2) + ')';
    }
    bool operator==(const Box &it) const { return x1 == it.x1 && y1 == it.y1 && x2 == it.x2 && y2 == it.y2; }
};
/* A class of keys: sets of the numbers from 0 to 127, with bit e of low for the element e, and bit e - 64 of high. */
struct Set {
    uint64_t low = 0, high = 0;
    Set(std::initializer_list<uint64_t> elements = {}) {
        for (const uint64_t it : elements)
            insert(it);
    }
    void insert(uint64_t it) {
        if (it >= 128)
            throw std::out_of_range("gist::Set: element " + std::to_string(it) + " is out of range; use 0 to 127");
        (it < 64 ? low : high) |= uint64_t{1} << it % 64;
    }
    bool contains(uint64_t it) const { return it < 128 && (it < 64 ? low : high) >> it % 64 & 1; }
    static Set widest() {
        Set set;
        set.low = set.high = UINT64_MAX;
        return set;
    }
    static constexpr uint32_t key_class = GIST_SETS;
    static Set of(const gist_key &it) {
        Set set;
        set.low = it.set.low;
        set.high = it.set.high;
        return set;
    }
    gist_key key() const { return gist_set(low, high); }
    std::string text() const {
        std::string all;
        for (uint64_t it = 0; it < 128; it++)
            if (contains(it))
                all += (all.empty() ? "" : " ") + std::to_string(it);
        return '{' + all + '}';
    }
    bool operator==(const Set &it) const { return low == it.low && high == it.high; }
};

enum class Relation : uint32_t { Overlaps = GIST_OVERLAPS, Within, Holds, Same };
enum class Kind : uint32_t { Row = GIST_ROW, Inserted, Deleted, Moved, Mark };

using Limits = gist_limits;
using Figures = gist_figures;
using Standing = gist_standing;
template <class Key> struct Entry { Key key; uint64_t tag; };
template <class Key> struct Row { uint64_t row, tag; Key key; };
template <class Key> struct Item { Kind kind; uint64_t number, ended, tag; Key key; };
template <class Key> struct Told { uint64_t subscription; Item<Key> item; };
template <class Key> struct Known { Row<Key> row; bool lives; };
template <class Key> struct Changes { std::vector<Item<Key>> items; uint64_t upto; };

/* A view of contiguous values: (pointer, size), a vector or {a, b, c}. */
template <class T> struct Span {
    const T *data;
    size_t size;
    Span(const T *first, size_t n) : data(first), size(n) {}
    Span(const std::vector<T> &all) : Span(all.data(), all.size()) {}
    Span(std::initializer_list<T> all) : Span(all.begin(), all.size()) {}
    template <class Make> auto made(Make make) const { /* the values, each converted */
        std::vector<decltype(make(*data))> all;
        all.reserve(size);
        std::transform(data, data + size, std::back_inserter(all), make);
        return all;
    }
};

} // namespace gist

#endif
