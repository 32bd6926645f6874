"""Tests of gist.py: each call, refusal, relation, kind, field and limit by its name, for each class of keys.

    GIST_LIB_DIR=FOLDER python -m unittest -q test_gist     in this folder
"""
import copy
import ctypes
import doctest
import functools
import gc
import operator
import os
import pickle
import random
import re
import subprocess
import sys
import threading
import time
import unittest
from typing import Any, NamedTuple

import gist
from gist import Box, Error, Feed, Interval, Kind, Limits, Query, Refusal, Relation, Row, Set, Store, all_of, any_of, holds, overlaps, same, within


class Keys(NamedTuple):
    """Some keys of a class: the first overlaps the second, and neither overlaps the third."""

    key_class: Any
    one: Any
    two: Any
    far: Any
    text: str
    other: Any


CLASSES = (
    Keys(Interval, Interval(-5, 9), Interval(9, 2**63 - 1), Interval(-2**63, -6), "overlaps (-5 9)", Box),
    Keys(Box, Box(-3, -3, 4, 2**31 - 1), Box(4, 0, 9, 0), Box(-2**31, -2**31, -4, 2**31 - 1), "overlaps (-3 -3 4 2147483647)", Set),
    Keys(Set, Set({1, 2}), Set({2, 64}), Set({127}), "overlaps {1 2}", Interval),
)


class Case(unittest.TestCase):
    """Helpers that all tests share."""

    def refused(self, refusal: Refusal, call: Any, *values: Any, done: int = 0, at: Any = None, **more: Any) -> Error:
        """Asserts that a call is refused for this reason."""
        with self.assertRaises(Error) as caught:
            call(*values, **more)
        self.assertEqual((caught.exception.refusal, caught.exception.done, caught.exception.at), (refusal, done, at))
        return caught.exception

    def each(self) -> Any:
        """Every class of keys."""
        for keys in CLASSES:
            with self.subTest(keys.key_class.__name__):
                yield keys


class Stores(Case):
    """Stores, snapshots and cursors."""

    def store(self, keys: Keys) -> Any:
        """A store of three rows."""
        store = Store(keys.key_class, Limits(fan=4, least=2, pages=64, commits=12))
        self.assertEqual(store.insert_all([(keys.one, 10), (keys.two, 20), (keys.far, 30)]), range(1, 4))
        return store

    def test_rows_are_found_and_known(self) -> None:
        for keys in self.each():
            store = self.store(keys)
            now = store.snapshot()
            one, two, far = Row(number=1, key=keys.one, tag=10), Row(2, keys.two, 20), Row(3, keys.far, 30)
            self.assertEqual(now.find(keys.text), [one, two])
            self.assertEqual(sorted(now.find_any(keys.text), key=lambda row: row.number), [one, two])
            self.assertEqual(now.find(overlaps(keys.one)), [one, two])
            self.assertEqual(now.find(within(keys.far)), [far])
            self.assertEqual(now.find(holds(keys.far)), [far])
            self.assertEqual(now.find(same(keys.two)), [two])
            self.assertEqual(now.find(same(keys.two) | ~overlaps(keys.two)), [two, far])
            self.assertEqual(now.find(overlaps(keys.one) & overlaps(keys.two)), [one, two])
            self.assertIsInstance(now.find(same(keys.two))[0].key, keys.key_class)
            self.assertEqual(now.count(keys.text), 2)
            for relation in Relation:
                self.assertEqual(now.find_each(relation, [keys.far, keys.one])[0], [far])
            self.assertEqual(now.find_each(Relation.OVERLAPS, [keys.one, keys.far]), [[one, two], [far]])
            self.assertEqual((len(now), list(now), 3 in now, 4 in now), (3, [one, two, far], True, False))
            self.assertEqual((now[2], now.get(2), now.get(4), now.get(0)), (two, two, None, None))
            with self.assertRaises(KeyError):
                now[4]
            moved = store.move(1, keys.far)
            self.assertEqual((moved, store.delete(2)), (4, 5))
            later = store.snapshot()
            self.assertEqual((now.commits(), later.commits(), store.commits()), (3, 5, 5))
            known = later.known(1)
            self.assertEqual((known.row, known.lives), (one, False))
            self.assertEqual(later.known(4), (Row(4, keys.far, 10), True))
            self.refused(Refusal.NoSuchRow, later.known, 5)
            self.assertEqual((list(now), later.count(keys.text)), ([one, two, far], 0))

    def test_commits_and_changes_are_told(self) -> None:
        for keys in self.each():
            store = self.store(keys)
            store.move(1, keys.far)
            store.delete(2)
            now = store.snapshot()
            first, fourth, fifth = now.commit(1), now.commit(4), now.commit(5)
            self.assertEqual((first.kind, first.number, first.ended, first.tag, first.key), (Kind.INSERTED, 1, 0, 10, keys.one))
            self.assertEqual(fourth, (Kind.MOVED, 4, 1, 10, keys.far))
            self.assertEqual(fifth, (Kind.DELETED, 5, 2, 20, keys.two))
            self.assertEqual((now.commit(0), now.commit(6)), (None, None))
            changes = now.changes(keys.text, 0)
            self.assertEqual([(it.kind, it.number, it.ended) for it in changes.items], [
                (Kind.INSERTED, 1, 0), (Kind.INSERTED, 2, 0), (Kind.DELETED, 4, 1), (Kind.DELETED, 5, 2)])
            self.assertEqual(changes.upto, 5)
            some = now.changes(keys.text, 0, 3)
            self.assertEqual((some.items, some.upto), (changes.items[:3], 4))
            self.assertEqual(now.changes(keys.text, some.upto).items, changes.items[3:])
            self.assertEqual(now.changes(keys.text, 0, 0).items, [])
            self.refused(Refusal.FromFuture, now.changes, keys.text, 6)

    def test_a_cursor_gives_rows_and_changes(self) -> None:
        for keys in self.each():
            store = self.store(keys)
            with store.open(keys.text) as cursor, store.follow(Query(keys.key_class, keys.text), 1) as follower:
                self.assertEqual(store.figures().cursors, 2)
                rows = list(cursor)
                self.assertEqual({it.kind for it in rows}, {Kind.ROW})
                self.assertEqual({(it.number, it.tag) for it in rows}, {(1, 10), (2, 20)})
                self.assertEqual(list(cursor), [])
                store.move(1, keys.far)
                cursor.mark()
                self.assertEqual(list(cursor), [(Kind.DELETED, 4, 1, 10, keys.one), (Kind.MARK, 4, 0, 0, None)])
                self.assertEqual(cursor.items(0), [])
                self.assertEqual([it.number for it in follower.items(1)], [2])
                self.assertEqual([it.number for it in follower.items()], [4])
                store.insert(keys.far, 30)
                self.assertEqual(store.standings(), [(1, 3, 1, False), (2, 1, 1, False)])
            self.assertEqual(store.figures().cursors, 0)
            self.refused(Refusal.CursorClosed, list, cursor)
            self.refused(Refusal.CursorClosed, cursor.mark)
            self.refused(Refusal.NoSuchCursor, gist.Cursor(store, 9).items)
            self.refused(Refusal.FromFuture, store.follow, keys.text, 6)
            self.assertEqual(store.sweep(), 1)

    def test_a_cursor_that_nothing_refers_to_is_closed(self) -> None:
        store = Store(Interval)
        for _ in range(1000):
            store.open("overlaps (1 2)")
        gc.collect()
        self.assertEqual(store.figures().cursors, 0)
        cursors = [store.open("overlaps (1 2)") for _ in range(256)]
        self.refused(Refusal.CursorsFull, store.open, "overlaps (1 2)")
        cursors.pop().close()
        store.follow("overlaps (1 2)", 0).close()

    def test_figures(self) -> None:
        figures = self.store(CLASSES[0]).figures()
        self.assertEqual((figures.commits, figures.commit_limit, figures.page_limit, figures.cursors), (3, 12, 64, 0))
        self.assertEqual(figures.horizon, 3)
        self.assertGreaterEqual(figures.pages, 1)

    def test_rows_are_refused(self) -> None:
        for keys in self.each():
            store = self.store(keys)
            self.refused(Refusal.NoSuchRow, store.delete, 4)
            self.refused(Refusal.NoSuchRow, store.move, 0, keys.one)
            self.refused(Refusal.AlreadyDeleted, store.delete_all, [1, 2, 2, 3], done=2)
            self.refused(Refusal.AlreadyDeleted, store.move, 1, keys.one)
            self.assertEqual(store.commits(), 5)
            self.assertEqual((store.insert_all([]), store.delete_all([])), (range(6, 6), range(6, 6)))
            self.refused(Refusal.CommitsFull, store.insert_all, [(keys.one, 0)] * 9, done=7)
            self.refused(Refusal.CommitsFull, store.move, 3, keys.one)
            self.refused(Refusal.CommitsFull, store.delete, 3)

    def test_pages_run_out(self) -> None:
        store = Store(Interval, Limits(4, 2, 6, 1000))
        error = self.refused_at_last(store)
        self.assertEqual((error.refusal, error.done), (Refusal.PagesFull, store.commits()))

    def refused_at_last(self, store: Any) -> Error:
        """Refusals of calls for many rows."""
        with self.assertRaises(Error) as caught:
            store.insert_all([((n, n), 0) for n in range(1000)])
        return caught.exception

    def test_ends_out_of_order(self) -> None:
        for key_class, bad in ((Interval, (2, 1)), (Box, (1, 0, 0, 0)), (Box, (0, 1, 0, 0))):
            store, good = Store(key_class), tuple(0 for _ in bad)
            self.refused(Refusal.BadEnds, store.insert, bad, 1)
            self.refused(Refusal.BadEnds, store.insert_all, [(good, 1), (bad, 2)], done=1)
            self.refused(Refusal.BadEnds, store.move, 1, bad)
            self.refused(Refusal.BadEnds, overlaps, key_class(*bad))
            self.refused(Refusal.BadEnds, store.snapshot().find_each, Relation.SAME, [good, bad], done=1)
        self.refused(Refusal.BadEnds, Store(Interval).insert, range(5, 5), 1)

    def test_a_range_is_an_interval(self) -> None:
        store = Store(Interval)
        store.insert(range(9, 18), 1)
        self.assertEqual(store.snapshot()[1].key, Interval(lo=9, hi=17))
        with self.assertRaises(TypeError):
            store.insert(range(0, 9, 2), 1)
        with self.assertRaises(TypeError):
            Store(Box).insert(range(9), 1)

    def test_numbers_that_do_not_fit(self) -> None:
        for key_class, key in ((Interval, (0, 2**63)), (Interval, (1,)), (Box, (0, 0, 0, 2**31)), (Set, {128}), (Set, {-1})):
            with self.assertRaises(ValueError):
                Store(key_class).insert(key, 0)
        for tag in (-1, 2**64):
            with self.assertRaises(ValueError):
                Store(Interval).insert((0, 0), tag)
        with self.assertRaises(ValueError):
            Store(Interval).delete(-1)
        store = Store(Box)
        store.insert(Box(x1=-2**31, y1=-2**31, x2=2**31 - 1, y2=2**31 - 1), 2**64 - 1)
        row = store.snapshot()[1]
        self.assertEqual((row.key.x1, row.key.y1, row.key.x2, row.key.y2, row.tag), (-2**31, -2**31, 2**31 - 1, 2**31 - 1, 2**64 - 1))

    def test_limits(self) -> None:
        least = Limits(fan=4, least=2, pages=1, commits=1)
        greatest = Limits(fan=64, least=32, pages=65_536, commits=16_777_216)
        for limits in (least, greatest, Limits()):
            Store(Interval, limits)
        for wrong in (
            least._replace(fan=3), greatest._replace(fan=65), least._replace(least=1), least._replace(least=3), greatest._replace(least=33),
            least._replace(pages=0), greatest._replace(pages=65_537), least._replace(commits=0), greatest._replace(commits=16_777_217),
            least._replace(fan=-1), least._replace(pages=2**32 + 1),
        ):
            self.refused(Refusal.BadLimits, Store, Interval, wrong)

    def test_renewal(self) -> None:
        for keys in self.each():
            store = self.store(keys)
            store.move(1, keys.far)
            store.delete(2)
            now = store.snapshot()
            renewed = now.renew(Limits(commits=2))
            self.assertEqual(renewed.numbers, [3, 4])
            self.assertEqual(list(renewed.store.snapshot()), [Row(1, keys.far, 30), Row(2, keys.far, 10)])
            self.refused(Refusal.CommitsFull, renewed.store.insert, keys.one, 0)
            self.refused(Refusal.CommitsFull, now.renew, Limits(commits=1))
            self.refused(Refusal.BadLimits, now.renew, Limits(fan=3))
            self.assertEqual(Store(keys.key_class).snapshot().renew().numbers, [])

    def test_what_is_closed(self) -> None:
        store = Store(Interval)
        now, query, feed = store.snapshot(), overlaps(Interval(1, 2)), Feed(Interval)
        cursor = store.open(query)
        for it in (store, now, query, feed):
            it.close()
            it.close()
        for call in (store.commits, store.snapshot, store.sweep, now.commits, cursor.items, cursor.mark):
            self.refused(Refusal.NoHandle, call)
        cursor.close()
        self.refused(Refusal.NoHandle, Store(Interval).open, query)
        self.refused(Refusal.NoHandle, feed.subscribe, "same (1 2)", 0)
        self.assertEqual((repr(store), repr(now)), ("<Store of Interval, closed>", "<Snapshot, closed>"))

    def test_nothing_is_copied(self) -> None:
        store = Store(Interval)
        for it in (store, store.snapshot(), overlaps(Interval(1, 2)), Feed(Interval)):
            for call in (copy.copy, copy.deepcopy, pickle.dumps):
                self.assertRaises(TypeError, call, it)


class Queries(Case):
    """Queries and their texts."""

    def test_texts_are_refused_at_a_place(self) -> None:
        for key_class, text, at in (
            (Interval, "overlaps ?", 9), (Interval, "same (2 1)", 5), (Interval, "", 0), (Set, "holds {128}", 7), (Box, "within (1 2)", 11),
            (Interval, "overläps (1 2)", 0), (Interval, "not", 3), (Interval, "same (1 2) or", 13), (Interval, "(same (1 2)", 11), (Interval, "not )", 4),
        ):
            with self.subTest(text):
                error = self.refused(Refusal.QueryText, Query, key_class, text, at=at)
                self.assertIn(f"QueryText at {at} (21): expected overlaps, within", str(error))

    def test_queries_have_texts(self) -> None:
        self.assertEqual(repr(holds(Set({5, 1}))), "Query(Set, 'holds {1 5}')")
        self.assertEqual((overlaps(Box(1, 2, 3, 4)) | same(Box(0, 0, 0, 0))).text, "overlaps (1 2 3 4) or same (0 0 0 0)")
        self.assertEqual(Query.by(Relation.WITHIN, (1, 2), Interval).text, "within (1 2)")
        self.assertRaises(TypeError, overlaps, (1, 2))
        self.assertRaises(TypeError, Store, int)

    def test_a_query_is_at_most_so_deep_and_long(self) -> None:
        deep = "not " * 31 + "within (1 2)"
        self.assertEqual(Store(Interval).snapshot().count(Query(Interval, deep)), 0)
        with self.assertRaises(Error):
            Query(Interval, f"not {deep}")
        long = "within (1 2)".ljust(4096)
        self.assertEqual(Query(Interval, long).text, long)
        self.refused(Refusal.QueryText, Query, Interval, f"{long} ", at=4096)

    def test_too_deep_and_too_long_are_told_apart(self) -> None:
        atom = "within (1 2)"
        for text, at, cause in (
            (f"  ({'not ' * 32}{atom})", 2, "the query is 33 deep; at most 32: combine with any_of and all_of"),
            (" or ".join([atom] * 40), 0, "the query is 40 deep; at most 32: combine with any_of and all_of"),
            (f"{atom} and ({' and '.join([atom] * 32)})", 0, "the query is 33 deep; at most 32: "),
            (" or ".join([atom] * 300), 4096, "the query's text has 4,796 bytes; at most 4,096: split it"),
            # other causes, whose places are in the text
            (" or ".join([atom] * 40) + " or", 639, "expected overlaps, within"),
            ("(" * 40, 40, "expected overlaps, within"),
            ("not " * 40 + "within (2 1)", 167, "expected overlaps, within"),
            ("bad " * 40, 0, "expected overlaps, within"),
            (f"{atom} " * 40, 13, "expected overlaps, within"),
        ):
            with self.subTest(text[:30]):
                error = self.refused(Refusal.QueryText, Query, Interval, text, at=at)
                self.assertIn(f"QueryText at {at} (21): {cause}", str(error))
        # nobody wrote the text of a combined query, so it has no place
        query = Query(Interval, "not " * 31 + atom)
        error = self.refused(Refusal.QueryText, lambda: ~query)
        self.assertIn("QueryText (21): the query is 33 deep; at most 32: split it", str(error))
        many = [same(Set({n % 128})) for n in range(1000)]
        error = self.refused(Refusal.QueryText, any_of, many)
        self.assertRegex(str(error), r"^QueryText \(21\): the query's text has 1\d,\d\d\d bytes; at most 4,096: split it")

    def test_queries_have_no_truth_value(self) -> None:
        one, two = overlaps(Interval(1, 2)), overlaps(Interval(3, 4))
        for call in (lambda: one and two, lambda: one or two, lambda: not one, lambda: bool(one), lambda: 1 if one else 2):
            with self.assertRaises(TypeError) as caught:
                call()
            for sign in "&|~":
                self.assertIn(sign, str(caught.exception))

    def test_combined_queries_have_few_brackets(self) -> None:
        a, b, c, d = (same(Set({n})) for n in range(4))
        queries: Any
        for query, text in (
            (a | b | c | d, "same {0} or same {1} or same {2} or same {3}"),
            (a | (b | (c | d)), "same {0} or same {1} or same {2} or same {3}"),
            (any_of([a, b & c, ~d]), "same {0} or same {1} and same {2} or not same {3}"),
            (all_of([a | b, c, ~(d | a)]), "(same {0} or same {1}) and same {2} and not (same {3} or same {0})"),
            (~(a & b) & (c & d), "not (same {0} and same {1}) and same {2} and same {3}"),
            (~~a | Query(Set, "(same{1}or(same { 2  3 }))and((not(same{})))"), "not not same {0} or (same {1} or same {2 3}) and not same {}"),
            (any_of([a]), "same {0}"), (all_of(iter([a, a])), "same {0} and same {0}"),
        ):
            self.assertEqual(query.text, text)
        for count, brackets in ((32, 0), (33, 1), (62, 1), (63, 2), (91, 2), (92, 3)):
            queries = [same(Set({n})) for n in range(count)]
            self.assertEqual(any_of(queries).text.count("("), brackets, count)
            self.assertEqual(re.findall(r"\d+", all_of(queries).text), [str(n) for n in range(count)])
        # where the rest of the depth is taken, as few levels as possible
        deep = any_of([same(Set({n})) for n in range(64)])
        for _ in range(25):
            deep = ~deep
        self.assertEqual((deep.text.count("or"), gist._parsed(deep.text)[1]), (63, 32))
        self.refused(Refusal.QueryText, lambda: ~deep)

    def test_many_alternatives(self) -> None:
        store: Any = Store(Interval)
        store.insert_all([((n, n + n % 9), n) for n in range(0, 2100, 3)])
        now = store.snapshot()
        rows = list(now)
        for count in (2, 32, 40, 100, 200):
            ends = [(n * 10, n * 10 + n % 5) for n in range(count)]
            queries: Any = [overlaps(Interval(*it)) for it in ends]
            with self.subTest(count):
                if count < 200:
                    expected = [row for row in rows if any(lo <= row.key.hi and row.key.lo <= hi for lo, hi in ends)]
                    self.assertEqual(now.find(any_of(queries)), expected)
                    self.assertEqual(now.find(functools.reduce(operator.or_, queries)), expected)
                    self.assertEqual(now.find(all_of([~it for it in queries])), [row for row in rows if row not in expected])
                short = [same(Interval(n, n)) for n in range(count)]
                self.assertEqual([row.tag for row in now.find(any_of(short))], [n for n in range(0, count, 9)])
        within_all = all_of([within(Interval(-n, 500 + n)) for n in range(40)])
        self.assertEqual(now.find(within_all), [row for row in rows if row.key.hi <= 500])

    def test_combined_at_random(self) -> None:
        dice = random.Random(5)
        rows = [Set(dice.sample(range(8), dice.randrange(5))) for _ in range(60)]
        store = Store(Set)
        store.insert_all([(key, 0) for key in rows])
        now = store.snapshot()

        def some(depth: int) -> Any:
            """A query, and which rows it has to match."""
            what = dice.choice("aonkx") if depth else "k"
            if what == "k":
                key = Set(dice.sample(range(8), dice.randrange(4)))
                return dice.choice([(overlaps(key), {n for n, it in enumerate(rows) if it & key}), (within(key), {n for n, it in enumerate(rows) if it <= key})])
            parts = [some(depth - 1) for _ in range(1 if what in "nx" else dice.randrange(1, 12 if depth == 1 else 4))]
            queries, sets = zip(*parts)
            if what == "n":
                return ~queries[0], set(range(60)) - sets[0]
            if what == "x":
                # through a text
                return Query(Set, f" ( {queries[0].text.replace(' (', '(')})"), sets[0]
            return (all_of(queries), set.intersection(*sets)) if what == "a" else (any_of(queries), set.union(*sets))

        deepest = 0
        for _ in range(300):
            try:
                query, numbers = some(4)
            except Error as error:
                self.assertIn("bytes; at most", str(error))
                continue
            deepest = max(deepest, query._tree().least)
            self.assertEqual([row.number - 1 for row in now.find(query)], sorted(numbers), query.text)
            # the text may be as deep as there is room, and no deeper
            node = query._tree()
            for room in (node.least, node.least + 1, 32):
                self.assertLessEqual(gist._parsed(node.written(room))[1], room)
        self.assertGreater(deepest, 6)

    def test_what_is_not_combined(self) -> None:
        one, other = overlaps(Interval(1, 2)), overlaps(Box(1, 2, 3, 4))
        for call, kind, text in (
            (lambda: any_of([]), ValueError, "queries must have at least one query"),
            (lambda: all_of(iter(())), ValueError, "queries must have at least one query"),
            (lambda: any_of([one, other]), TypeError, "queries[1] must be a query of Interval, not of Box"),
            (lambda: any_of([one, "same (1 2)"]), TypeError, "queries[1] must be a Query, not 'same (1 2)'"),
            (lambda: any_of(one), TypeError, "queries must be an iterable of queries, not a Query"),
            (lambda: one & other, TypeError, "the right operand of & must be a query of Interval, not of Box"),
            (lambda: one | None, TypeError, "the right operand of | must be a Query, not None"),
        ):
            with self.subTest(text):
                with self.assertRaises(kind) as caught:
                    call()
                self.assertIn(text, str(caught.exception))

    def test_keys_of_another_class(self) -> None:
        for keys in self.each():
            store, other = Store(keys.key_class), overlaps(next(it for it in CLASSES if it.key_class is keys.other).one)
            self.refused(Refusal.OtherClass, store.open, other)
            self.refused(Refusal.OtherClass, store.follow, other, 0)
            self.refused(Refusal.OtherClass, store.snapshot().find, other)
            self.refused(Refusal.OtherClass, store.snapshot().count, other)
            self.refused(Refusal.OtherClass, store.snapshot().changes, other, 0)
            self.refused(Refusal.OtherClass, Feed(keys.key_class).subscribe, other, 0)
            self.refused(Refusal.OtherClass, Feed(keys.other).advance, store.snapshot())


class Feeds(Case):
    """Feeds."""

    def test_subscriptions_are_told(self) -> None:
        for keys in self.each():
            store, feed = Store(keys.key_class), Feed(keys.key_class)
            near, far = feed.subscribe(keys.text, 0), feed.subscribe(same(keys.far), 2)
            self.assertEqual((near, far), (1, 2))
            store.insert_all([(keys.one, 10), (keys.two, 20), (keys.far, 30)])
            some = feed.advance(store.snapshot(), 2)
            self.assertEqual(some.upto, 2)
            self.assertEqual([(it.subscription, it.item.kind, it.item.number, it.item.tag) for it in some.told], [
                (near, Kind.INSERTED, 1, 10), (near, Kind.INSERTED, 2, 20)])
            told, upto = feed.advance(store.snapshot())
            self.assertEqual((told, upto), ([(far, (Kind.INSERTED, 3, 0, 30, keys.far))], 3))
            feed.unsubscribe(far)
            self.refused(Refusal.NotSubscribed, feed.unsubscribe, far)
            store.move(1, keys.far)
            self.assertEqual(feed.advance(store.snapshot()).told, [(near, (Kind.DELETED, 4, 1, 10, keys.one))])
            self.refused(Refusal.FromFuture, feed.advance, Store(keys.key_class).snapshot())
            late = feed.subscribe(keys.text, 3)
            self.assertEqual([it.subscription for it in feed.advance(store.snapshot()).told], [late])

    def test_more_is_told_than_a_buffer_holds(self) -> None:
        store, feed = Store(Interval), Feed(Interval)
        for _ in range(100):
            feed.subscribe("overlaps (0 9)", 0)
        store.insert_all([((n % 10, n % 10), n) for n in range(300)])
        told, upto = feed.advance(store.snapshot(), 200)
        self.assertEqual((len(told), upto), (20_000, 200))
        self.assertEqual(len(feed.advance(store.snapshot()).told), 10_000)


class Threads(Case):
    """Threads that share objects."""

    def test_readers_beside_a_writer(self) -> None:
        store: Any = Store(Interval)
        wrong = []

        def write() -> None:
            for n in range(0, 4000, 10):
                store.insert_all([((n + i, n + i + 5), n + i) for i in range(10)])

        def read(snapshot: Any, query: Any) -> None:
            for _ in range(50):
                with store.snapshot() as now:
                    if now.count(query) != now.commits() or snapshot.count(query) != 0:
                        wrong.append(now.commits())

        shared, query = store.snapshot(), Query(Interval, "not overlaps (-9 -1)")
        threads = [threading.Thread(target=write)] + [threading.Thread(target=read, args=(shared, query)) for _ in range(3)]
        for thread in threads:
            thread.start()
        for thread in threads:
            thread.join()
        self.assertEqual((wrong, store.commits()), ([], 4000))

    def test_who_closes_waits_for_those_who_read(self) -> None:
        store: Any = Store(Interval)
        store.insert_all([((n, n), n) for n in range(2000)])
        now, query, ends = store.snapshot(), overlaps(Interval(0, 2000)), []

        def read() -> None:
            try:
                while True:
                    self.assertEqual(len(now.find(query)), 2000)
            except Error as error:
                ends.append(error.refusal)

        threads = [threading.Thread(target=read) for _ in range(3)]
        for thread in threads:
            thread.start()
        time.sleep(0.05)
        now.close()
        for thread in threads:
            thread.join()
        self.assertEqual(ends, [Refusal.NoHandle] * 3)

    def test_who_waits_is_woken(self) -> None:
        store: Any = Store(Interval)
        self.assertIsNone(store.wait_past(0, 0.01))
        threading.Timer(0.05, store.insert, ((1, 2), 3)).start()
        self.assertEqual(store.wait_past(0, 30).commits(), 1)
        self.assertEqual(store.wait_past(0).commits(), 1)
        threading.Timer(0.05, store.close).start()
        self.refused(Refusal.NoHandle, store.wait_past, 1, 30)


# Forks while other threads are inside calls, and hold the locks of all objects. Prints what the child finds.
FORK = """
import gc, gist, os, signal, sys, threading, time
from gist import *

store, busy = Store(Interval), Store(Interval)
store.insert_all([((n, n), n) for n in range(100)])
now, query, feed = store.snapshot(), overlaps(Interval(0, 9)), Feed(Interval)
cursor, unclosed = store.open(query), store.open(query)
inside, over = threading.Event(), threading.Event()

def hold():
    with store._turn, feed._turn, now._readers, query._readers, query._readers._lock:
        inside.set()
        over.wait()

def work():
    while not over.is_set():
        Store(Interval).insert_all([((n, n), n) for n in range(500)])
        busy.insert((1, 2), 3)
        busy.snapshot().find(query_of_busy)

query_of_busy = overlaps(Interval(0, 9))
for call in (hold, work, lambda: store.wait_past(10**6)):
    threading.Thread(target=call, daemon=True).start()
inside.wait()
time.sleep(0.05)

def child():
    calls = {
        "Store": [store.commits, store.figures, store.sweep, store.snapshot, lambda: store.insert((1, 2), 3), lambda: store.delete(1),
            lambda: store.open("same (1 2)"), lambda: store.wait_past(0), cursor.items, cursor.mark, lambda: next(iter(cursor)), busy.commits],
        "Snapshot": [now.commits, lambda: now.find("same (1 2)"), lambda: list(now), lambda: len(now), lambda: now[1], now.renew,
            lambda: Feed(Interval).advance(now)],
        "Query": [lambda: Store(Interval).snapshot().find(query), lambda: Store(Interval).open(query)],
        "Feed": [lambda: feed.subscribe("same (1 2)", 0), lambda: feed.advance(Store(Interval).snapshot()), lambda: feed.unsubscribe(1)],
    }
    for noun, some in calls.items():
        for call in some:
            try:
                call()
            except RuntimeError as error:
                assert str(error) == f"gist: this {noun} was made before os.fork() in a process with threads; make a new one in the child process", error
            else:
                assert False, noun
    print(store, now, query)
    with store, now, query, feed, cursor:
        pass
    for it in (store, now, query, feed, cursor):
        it.close()
    # nothing is freed that a thread may have left half changed
    dropped = []
    gist._drop_handle(dropped.append, store._handle, store._forks)
    assert not dropped
    # what the child makes works, in threads, too
    mine, its_feed = Store(Interval), Feed(Interval)
    its_feed.subscribe(query & overlaps(Interval(0, 5)), 0)
    thread = threading.Thread(target=mine.insert_all, args=([((n, n), n) for n in range(1000)],))
    thread.start()
    thread.join()
    late = mine.open("overlaps (0 9)")
    print(mine, len(late.items()), len(its_feed.advance(mine.wait_past(0)).told))
    mine.close()

def forked(call):
    sys.stdout.flush()
    number = os.fork()
    if not number:
        call()
        # with what the interpreter does at its end
        sys.exit(0)
    end = time.monotonic() + 20
    while time.monotonic() < end:
        ended, status = os.waitpid(number, os.WNOHANG)
        if ended:
            print("ended", status)
            return
        time.sleep(0.01)
    os.kill(number, signal.SIGKILL)
    os.waitpid(number, 0)
    print("the child hangs")

def grandchild():
    global store, now, query, feed, cursor, busy
    mine = store = busy = Store(Interval)
    now, query, feed, cursor = mine.snapshot(), overlaps(Interval(0, 9)), Feed(Interval), mine.open("same (1 2)")
    threading.Thread(target=time.sleep, args=(60,), daemon=True).start()
    forked(child)
    print("and here", mine.commits(), now.commits())

def leave():
    global store, now, query, feed, cursor, unclosed, busy, query_of_busy
    del store, now, query, feed, cursor, unclosed, busy, query_of_busy
    gc.collect()

forked(child)
forked(lambda: None)
forked(leave)
forked(grandchild)
over.set()
time.sleep(0.01)
print("parent", store.commits(), now.commits(), len(cursor.items()), len(store.standings()))
"""

FORK_OF_ONE = """
import os, sys
from gist import *

store = Store(Interval)
store.insert_all([((1, 2), 11), ((3, 4), 12)])
now, cursor = store.snapshot(), store.open("overlaps (0 9)")
child = os.fork()
if child:
    print("ended", os.waitpid(child, 0)[1])
else:
    store.insert((5, 6), 13)
print("parent" if child else "child", [row.tag for row in now], store.commits(), len(cursor.items(2)))
"""


class Forks(Case):
    """Processes that a process with threads forks."""

    def test_objects_of_the_parent_are_refused(self) -> None:
        # without -X dev, with which the end of any forked child of Python 3.8 crashes
        ended = subprocess.run([sys.executable, "-W", "ignore", "-c", FORK], text=True, capture_output=True, check=False, timeout=120)
        before = "<Store of Interval, made before os.fork()> <Snapshot, made before os.fork()> Query(Interval, 'overlaps (0 9)')"
        child = f"{before}\n<Store of Interval with 1000 commits> 10 6\nended 0\n"
        self.assertEqual((ended.stdout, ended.stderr), (f"{child}ended 0\nended 0\n{child}and here 0 0\nended 0\nparent 100 100 10 2\n", ""))

    def test_a_child_of_one_thread_has_copies(self) -> None:
        ended = subprocess.run([sys.executable, "-W", "ignore", "-c", FORK_OF_ONE], text=True, capture_output=True, check=False, timeout=120)
        self.assertEqual((ended.stdout, ended.stderr), ("child [11, 12] 3 2\nended 0\nparent [11, 12] 2 2\n", ""))


class Numbers(Case):
    """Numbers, names and versions."""

    def test_refusals_have_the_names_of_the_library(self) -> None:
        name = ctypes.create_string_buffer(16)
        call = gist._library.gist_refusal_name
        call.argtypes, call.restype = (ctypes.c_uint32, ctypes.c_void_p, ctypes.c_size_t), ctypes.c_size_t
        for refusal in Refusal:
            length = call(refusal, ctypes.addressof(name), 16)
            self.assertEqual(name.raw[:length].decode(), refusal.name)
            self.assertIn(f"{refusal.name} ({refusal.value}): ", str(Error(refusal)))
        self.assertEqual([call(number, ctypes.addressof(name), 16) for number in (0, 32)], [0, 0])
        error = Error(Refusal.QueryText, 7, 2)
        again = pickle.loads(pickle.dumps(error))
        self.assertEqual((again.refusal, again.at, again.done, str(again)), (Refusal.QueryText, 7, 2, str(error)))

    def test_numbers_are_those_of_the_header(self) -> None:
        header = os.path.join(os.path.dirname(os.path.abspath(__file__)), "../../include/gist.h")
        with open(header, encoding="utf-8") as file:
            text = file.read()
        for names, prefix in ((Refusal, ""), (Kind, ""), (Relation, "")):
            for it in names:
                words = "".join(f"_{letter}" if letter.isupper() and names is Refusal else letter for letter in it.name).upper().strip("_")
                self.assertIn(f"    GIST_{prefix}{words} = {it.value}", text)
        version = tuple(int(re.search(rf"define GIST_VERSION_{it} (\d+)", text)[1]) for it in ("MAJOR", "MINOR", "PATCH"))
        self.assertEqual(gist.version(), version)

    def test_all_bindings_have_the_same_texts(self) -> None:
        top = os.path.join(os.path.dirname(os.path.abspath(__file__)), "../..")
        for path, joint in (("include/gist_values.hpp", r'"\s*"'), ("bindings/rust/src/error.rs", r"\\\n\s*")):
            with open(os.path.join(top, path), encoding="utf-8") as file:
                text = re.sub(joint, "", file.read())
            for refusal in Refusal:
                with self.subTest(path=path, refusal=refusal):
                    self.assertIn(gist._EXPECTED[refusal], text)

    def test_many_boxes_in_half_a_second(self) -> None:
        dice = random.Random(1)
        places = [(dice.randrange(10**6), dice.randrange(10**6)) for _ in range(100_000)]
        rows = [(Box(x, y, x + 9, y + 9), n) for n, (x, y) in enumerate(places)]
        # processor time, since other programs may use the machine
        store, begin = Store(Box), time.process_time()
        self.assertEqual(store.insert_all(rows), range(1, 100_001))
        took = time.process_time() - begin
        self.assertEqual(len(store.snapshot()), 100_000)
        self.assertLess(took, 0.5)

    def test_the_missing_library_is_named(self) -> None:
        env = {**os.environ, "GIST_LIB_DIR": "/nowhere", "PYTHONPATH": os.path.dirname(os.path.abspath(gist.__file__))}
        ended = subprocess.run([sys.executable, "-c", "import gist"], env=env, text=True, capture_output=True, check=False)
        self.assertNotEqual(ended.returncode, 0)
        self.assertIn("GIST_LIB_DIR has to name the folder with libgist.so: `tools/library --release FOLDER`", ended.stderr)

    def test_the_folder_may_be_relative(self) -> None:
        folder, name = os.path.split(os.path.dirname(os.path.abspath(gist._library._name)))
        env = {**os.environ, "GIST_LIB_DIR": name, "PYTHONPATH": os.path.dirname(os.path.abspath(gist.__file__))}
        words = [sys.executable, "-c", "import os, gist; os.chdir('/'); print(os.path.dirname(gist._library._name))"]
        ended = subprocess.run(words, env=env, cwd=folder, text=True, capture_output=True, check=False)
        self.assertEqual((ended.stdout, ended.stderr), (os.path.join(folder, name) + "\n", ""))

    def test_documents(self) -> None:
        failed, tried = doctest.testmod(gist)
        self.assertEqual(failed, 0)
        self.assertGreater(tried, 10)


if __name__ == "__main__":
    unittest.main()
