/*
 * Keys that must not compile: each CASE by itself is refused, at its own line. Without a CASE the rest compiles.
 *
 *     c++ -std=c++17 -fsyntax-only -DCASE=1 tests/library/refused/keys.cpp -Iinclude
 */
#include "gist.hpp"

using gist::Box, gist::Interval, gist::Set;

void uses(gist::Store<Box> &boxes, gist::Store<Interval> &intervals, gist::Store<Set> &sets, int64_t wide, double real) {
    boxes.insert({-5, -5, 5, 5}, 71);
    boxes.insert(Box::point(-5, -5), 71);
    boxes.insert({{{-5, -5, 5, 5}, 71}, {Box::point(0, 0), 72}});
    intervals.insert({5, wide}, 71);
    intervals.insert(Interval::point(5), 71);
    sets.insert({}, 71);
    sets.insert({5, 64}, 71);
    (void)real;

#if CASE == 1 /* a box of two numbers */
    boxes.insert({-5, -5}, 71);
#elif CASE == 2 /* a box of three numbers */
    boxes.insert({-5, -5, 5}, 71);
#elif CASE == 3 /* a box of no numbers */
    boxes.insert({}, 71);
#elif CASE == 4 /* a box by default */
    [[maybe_unused]] Box box;
#elif CASE == 5 /* the same, with braces */
    boxes.insert(Box{}, 71);
#elif CASE == 6 /* an interval of one number */
    intervals.insert({5}, 71);
#elif CASE == 7 /* the same by name */
    intervals.insert(Interval{5}, 71);
#elif CASE == 8 /* the same with round brackets */
    intervals.insert(Interval(5), 71);
#elif CASE == 9 /* a number for an interval */
    intervals.insert(5, 71);
#elif CASE == 10 /* an interval by default */
    [[maybe_unused]] Interval interval;
#elif CASE == 11 /* an interval of three numbers */
    intervals.insert({5, 6, 7}, 71);
#elif CASE == 12 /* entries with too few numbers */
    boxes.insert({{{-5, -5}, 71}, {{0, 0}, 72}});
#elif CASE == 13 /* a number of 64 bits for one of 32 */
    boxes.insert({wide, 0, 0, 0}, 71);
#elif CASE == 14 /* a constant that doesn't fit */
    boxes.insert({0, 0, 2147483648, 0}, 71);
#elif CASE == 15 /* a fraction for a whole number */
    intervals.insert({real, real}, 71);
#elif CASE == 16 /* a negative element of a set */
    sets.insert({-1}, 71);
#elif CASE == 17 /* a query of one class for rows of another */
    boxes.snapshot().find(gist::overlaps(Interval{1, 2}));
#elif CASE == 18 /* queries of two classes */
    gist::overlaps(Interval{1, 2}) | gist::overlaps(Set{1});
#elif CASE == 19 /* a range without queries */
    gist::any_of(std::vector<int>{1});
#elif CASE == 20 /* a copy of a query */
    const auto query = gist::overlaps(Set{1});
    const auto copy = query;
#elif CASE == 21 /* alternatives of two classes */
    gist::any_of(gist::overlaps(Interval{1, 2}), gist::overlaps(Set{1}));
#endif
}
