"""Calls everything public in gist.py with wrong arguments, one at a time: each call works, or says which argument is wrong.

    GIST_LIB_DIR=FOLDER python -X dev -X faulthandler -m unittest -q test_arguments     in this folder

Under valgrind (PYTHONMALLOC=malloc) it also shows that no call reads or writes outside a buffer. More rows match than a
buffer holds, so a limit that the library gets unchecked writes past its end. The address space is limited meanwhile: a
buffer sized by an unchecked limit raises MemoryError, and doesn't take the machine's memory.
"""
import contextlib
import decimal
import enum
import inspect
import math
import pickle
import resource
import unittest
from typing import Any, Callable, Dict, Iterator, List, Tuple

import gist
from gist import Box, Cursor, Error, Feed, Interval, Limits, Query, Refusal, Relation, Set, Snapshot, Store

MOST_BYTES = 8 * 2**30

# More than a buffer has places
ROWS = 4_500

NUMBERS = (-1, 0, 1, 2**31, 2**32, 2**63 - 1, 2**64 - 1, 2**64, 1.5, math.nan)


class World:
    """Objects to call, and objects that are wrong as arguments."""

    def __init__(self) -> None:
        self.store: Store[Interval] = Store(Interval)
        self.store.insert_all([((n, n + 5), n) for n in range(ROWS)])
        self.now: Snapshot[Interval] = self.store.snapshot()
        self.query: Query[Interval] = Query(Interval, "overlaps (0 1000000)")
        closed: List[Any] = [Store(Interval), self.store.snapshot(), Query(Interval, "same (1 2)"), Feed(Interval), self.store.open("same (1 2)")]
        for it in closed:
            it.close()
        open_ones = [self.store, self.now, self.query, Feed(Interval), self.store.open("same (1 2)")]
        others = [Query(Box, "same (1 2 3 4)"), Store(Box).snapshot(), Store(Box), Box(1, 2, 3, 4), Set({1, 5}), {1, 5}]
        self.wrong: List[Any] = [
            *NUMBERS, None, "x", *closed, *open_ones, *others, "", b"x", True, object(), [], (), (1, 2), [1, 2], range(9), range(9, 0, -2),
            Interval, int, 10**5000, -10**5000, decimal.Decimal(1), 1j, math.inf, [[]], {"x": 1}, Interval(2, 1), Limits(),
        ]

    def feed(self) -> Any:
        """A feed with more to deliver than a buffer holds."""
        feed: Feed[Interval] = Feed(Interval)
        feed.subscribe(self.query, 0)
        return feed


Call = Tuple[Callable[..., Any], Dict[str, Any]]

# What is called, with arguments that are right. A world is shared by the calls of a row, unless they close it.
CALLS: Dict[str, Callable[[World], Call]] = {
    "Store": lambda it: (Store, {"key_class": Interval, "limits": Limits()}),
    "Store.close": lambda it: (Store(Interval).close, {}),
    "Store.commits": lambda it: (it.store.commits, {}),
    "Store.delete": lambda it: (it.store.delete, {"row": it.store.insert((1, 2), 3)}),
    "Store.delete_all": lambda it: (it.store.delete_all, {"rows": [it.store.insert((1, 2), 3)]}),
    "Store.figures": lambda it: (it.store.figures, {}),
    "Store.follow": lambda it: (it.store.follow, {"query": it.query, "commit": 0}),
    "Store.insert": lambda it: (it.store.insert, {"key": (1, 2), "tag": 3}),
    "Store.insert_all": lambda it: (it.store.insert_all, {"rows": [((1, 2), 3)]}),
    "Store.move": lambda it: (it.store.move, {"row": it.store.insert((1, 2), 3), "key": (3, 4)}),
    "Store.open": lambda it: (it.store.open, {"query": it.query}),
    "Store.snapshot": lambda it: (it.store.snapshot, {}),
    "Store.standings": lambda it: (it.store.standings, {}),
    "Store.sweep": lambda it: (it.store.sweep, {}),
    "Store.wait_past": lambda it: (it.store.wait_past, {"commit": 0, "seconds": 0.001}),
    "Snapshot": lambda it: (Snapshot, {"key_class": Interval}),
    "Snapshot.__contains__": lambda it: (it.now.__contains__, {"number": 1}),
    "Snapshot.__getitem__": lambda it: (it.now.__getitem__, {"number": 1}),
    "Snapshot.changes": lambda it: (it.now.changes, {"query": it.query, "since": 0, "most": 9}),
    "Snapshot.close": lambda it: (it.store.snapshot().close, {}),
    "Snapshot.commit": lambda it: (it.now.commit, {"number": 1}),
    "Snapshot.commits": lambda it: (it.now.commits, {}),
    "Snapshot.count": lambda it: (it.now.count, {"query": it.query}),
    "Snapshot.find": lambda it: (it.now.find, {"query": it.query}),
    "Snapshot.find_any": lambda it: (it.now.find_any, {"query": it.query}),
    "Snapshot.find_each": lambda it: (it.now.find_each, {"relation": Relation.SAME, "keys": [(1, 2)]}),
    "Snapshot.get": lambda it: (it.now.get, {"number": 1}),
    "Snapshot.known": lambda it: (it.now.known, {"number": 1}),
    "Snapshot.renew": lambda it: (it.now.renew, {"limits": Limits()}),
    "Query": lambda it: (Query, {"key_class": Interval, "text": "same (1 2)"}),
    "Query.__and__": lambda it: (it.query.__and__, {"other": it.query}),
    "Query.__or__": lambda it: (it.query.__or__, {"other": it.query}),
    "Query.by": lambda it: (Query.by, {"relation": Relation.SAME, "key": Interval(1, 2), "key_class": Interval}),
    "Query.close": lambda it: (Query(Interval, "same (1 2)").close, {}),
    "Cursor": lambda it: (Cursor, {"store": it.store, "number": 0}),
    "Cursor.close": lambda it: (it.store.open(it.query).close, {}),
    "Cursor.items": lambda it: (it.store.open(it.query).items, {"most": 9}),
    "Cursor.mark": lambda it: (it.store.open(it.query).mark, {}),
    "Feed": lambda it: (Feed, {"key_class": Interval}),
    "Feed.advance": lambda it: (it.feed().advance, {"snapshot": it.now, "most": 9}),
    "Feed.close": lambda it: (it.feed().close, {}),
    "Feed.subscribe": lambda it: (it.feed().subscribe, {"query": it.query, "since": 0}),
    "Feed.unsubscribe": lambda it: (it.feed().unsubscribe, {"subscription": 1}),
    "Set": lambda it: (Set, {"elements": [1, 2]}),
    "all_of": lambda it: (gist.all_of, {"queries": [it.query]}),
    "any_of": lambda it: (gist.any_of, {"queries": [it.query]}),
    "holds": lambda it: (gist.holds, {"key": Interval(1, 2)}),
    "overlaps": lambda it: (gist.overlaps, {"key": Interval(1, 2)}),
    "same": lambda it: (gist.same, {"key": Interval(1, 2)}),
    "version": lambda it: (gist.version, {}),
    "within": lambda it: (gist.within, {"key": Interval(1, 2)}),
}

# Special methods that take nothing from a user, or that Python calls with arguments of its own
SPECIAL = {"__enter__", "__exit__", "__copy__", "__reduce__", "__invert__", "__iter__", "__len__", "__bool__", "__repr__"}

# What an error text calls an argument, if not by its name
NAMES = {("Query.__and__", "other"): "right operand of &", ("Query.__or__", "other"): r"right operand of \|", ("Set", "elements"): "elements?"}


def is_value(it: Any) -> bool:
    """Whether a class has plain values, which are checked where they are used, or is the class of errors."""
    return isinstance(it, type) and (issubclass(it, (tuple, enum.Enum)) or it is Error)


def public() -> Iterator[str]:
    """The names of all public functions, classes and methods, and of the special methods that take arguments."""
    for name in gist.__all__:
        it = getattr(gist, name)
        if is_value(it):
            continue
        yield name
        if it is Set or not isinstance(it, type):
            continue
        for method, _ in inspect.getmembers(it, callable):
            holder = next(base for base in it.__mro__ if method in vars(base))
            if holder.__module__ == "gist" and method not in SPECIAL and (not method.startswith("_") or method.endswith("__")):
                if method not in ("__init__", "__new__"):
                    yield f"{name}.{method}"


def parameters(call: Any) -> List[str]:
    """The names of what a call takes."""
    if not isinstance(call, type):
        return list(inspect.signature(call).parameters)
    # Python 3.8 doesn't know the parameters of a generic class
    made: Any = call.__new__ if call is Set else call.__init__
    return list(inspect.signature(made).parameters)[1:]


def wrapped(name: str, parameter: str, value: Any) -> Iterator[Any]:
    """A value, and what has it inside, as the parameter's kind allows."""
    yield value
    if parameter == "key":
        yield from ((value, 9), (0, value), (value,), [value, 5], Interval(value, 9), Box(0, 0, 1, value), {1: value})
        if isinstance(value, (int, float, str)):
            yield from ({value}, frozenset({1, value}))
    elif parameter == "limits":
        yield from (Limits()._replace(**{field: value}) for field in Limits._fields)
        yield (value,) * 4
    elif parameter == "rows" and name == "Store.insert_all":
        yield from ([value], [((1, 2), 3), value], [((value, 2), 3)], [((1, 2), value)], [(value, 3)], iter([((1, 2), 3), (value, value)]))
    elif parameter in ("rows", "keys", "queries", "elements"):
        yield from ([value], [(value, 9)], [1, value], iter([value]))


class Case(unittest.TestCase):
    """Limits the address space."""

    @classmethod
    def setUpClass(cls) -> None:
        limit, most = resource.getrlimit(resource.RLIMIT_AS)
        if limit == resource.RLIM_INFINITY or limit > MOST_BYTES:
            resource.setrlimit(resource.RLIMIT_AS, (MOST_BYTES, most))
            cls.addClassCleanup(resource.setrlimit, resource.RLIMIT_AS, (limit, most))

    @contextlib.contextmanager
    def says(self, kind: Any, *words: str) -> Iterator[None]:
        """Asserts that an error of a kind is raised whose text has these words."""
        with self.assertRaises(kind) as caught:
            yield
        for word in words:
            self.assertIn(word, str(caught.exception))


class Table(Case):
    """The table of calls."""

    def test_everything_public_is_called(self) -> None:
        self.assertEqual(set(CALLS), set(public()))
        world = World()
        for name, made in CALLS.items():
            call, arguments = made(world)
            self.assertEqual(list(arguments), parameters(call), name)

    def test_right_arguments_work(self) -> None:
        world = World()
        for name, made in CALLS.items():
            with self.subTest(name):
                call, arguments = made(world)
                call(**arguments)

    def test_wrong_arguments_are_named(self) -> None:
        world, calls, named = World(), 0, 0
        for name, made in CALLS.items():
            for parameter in made(world)[1]:
                with self.subTest(name, parameter=parameter):
                    for wrong in (it for value in world.wrong for it in wrapped(name, parameter, value)):
                        calls += 1
                        named += self.is_named(made(world), name, parameter, wrong)
        self.assertGreater(named, calls // 4)
        # nothing was damaged: the rows are those of the beginning
        self.assertEqual([(row.number, row.tag) for row in world.now.find(world.query)], [(n + 1, n) for n in range(ROWS)])
        self.assertGreater(world.store.commits(), ROWS)

    def is_named(self, made: Call, name: str, parameter: str, wrong: Any) -> bool:
        """Whether a call with an argument is refused; asserts that the error names the argument or the cause."""
        call, arguments = made
        try:
            call(**{**arguments, parameter: wrong})
        except (TypeError, ValueError, OverflowError, Error, KeyError) as error:
            wanted = NAMES.get((name, parameter), parameter)
            if type(error) is Error:
                self.assertRegex(str(error), r"^\w+( at \d+)? \(\d+\): \w", (name, parameter))
            elif type(error) is KeyError:
                self.assertEqual((name, error.args), ("Snapshot.__getitem__", (wrong,)))
            else:
                self.assertRegex(str(error), rf"(?<!\w){wanted}(?!\w)", (name, parameter, type(error)))
            return True
        return False

    def test_closed_objects_are_named(self) -> None:
        world = World()
        store, now, query, feed = Store(Interval), world.store.snapshot(), Query(Interval, "same (1 2)"), world.feed()
        cursor = store.open(query)
        of_closed_store = [store.commits, store.figures, store.standings, store.snapshot, store.sweep, cursor.items, cursor.mark]
        of_closed_store += [lambda: store.open("same (1 2)"), lambda: store.insert((1, 2), 3), lambda: store.delete(1), lambda: store.wait_past(0)]
        of_closed_now = [now.commits, lambda: len(now), lambda: list(now), lambda: now[1], lambda: now.find("same (1 2)"), lambda: now.find_any("same (1 2)"), now.renew]
        of_closed_now += [lambda: now.commit(1), lambda: world.feed().advance(now), lambda: now.find_each(Relation.SAME, [(1, 2)])]
        of_closed_query = [lambda: world.store.open(query), lambda: world.now.find(query), lambda: world.feed().subscribe(query, 0)]
        of_closed_feed = [lambda: feed.subscribe("same (1 2)", 0), lambda: feed.advance(world.now), lambda: feed.unsubscribe(1)]
        of_empty = [Snapshot(Interval).commits, lambda: world.feed().advance(Snapshot(Interval))]
        for it in (store, now, query, feed):
            it.close()
        calls: List[Any]
        for calls, noun in (
            (of_closed_store, "the store is closed"), (of_closed_now, "the snapshot is closed"), (of_closed_query, "the query is closed"),
            (of_closed_feed, "the feed is closed"), (of_empty, "the snapshot is empty"),
        ):
            for call in calls:
                with self.says(Error, "NoHandle (28): ", noun):
                    call()


class Limited(Case):
    """Limits on how many items a call returns."""

    def test_a_limit_may_be_huge(self) -> None:
        world = World()
        for most in (ROWS, ROWS + 1, 2**32, 2**64 - 1, None):
            with self.subTest(most=most):
                cursor = world.store.open(world.query)
                self.assertEqual(len(cursor.items(most)), ROWS)
                self.assertEqual(cursor.items(most), [])
                self.assertEqual(len(world.now.changes(world.query, 0, most).items), ROWS)
                self.assertEqual(len(world.feed().advance(world.now, most).told), ROWS)

    def test_a_limit_is_kept(self) -> None:
        world = World()
        for most in (0, 1, 4_095, 4_096, 4_097):
            with self.subTest(most=most):
                cursor = world.store.open(world.query)
                self.assertEqual((len(cursor.items(most)), len(cursor.items(None))), (most, ROWS - most))
                some = world.now.changes(world.query, 0, most)
                self.assertEqual((len(some.items), len(world.now.changes(world.query, some.upto).items)), (most, ROWS - most))
                self.assertEqual(len(world.feed().advance(world.now, most).told), most)

    def test_keys_that_fill_a_buffer(self) -> None:
        now = World().now
        # as many rows as the first buffer has places, and as many keys as there are places for their ends
        self.assertEqual([len(it) for it in now.find_each(Relation.OVERLAPS, [Interval(100, 350)])], [256])
        for count in (1, 2, 255, 256, 257, 600):
            found = now.find_each(Relation.SAME, [Interval(n, n + 5) for n in range(count)])
            self.assertEqual([[row.tag for row in it] for it in found], [[n] for n in range(count)])

    def test_a_limit_below_0_is_refused(self) -> None:
        world = World()
        cursor, feed = world.store.open(world.query), world.feed()
        for call in (cursor.items, lambda most: world.now.changes(world.query, 0, most), lambda most: feed.advance(world.now, most)):
            with self.says(ValueError, "most must be from 0 to 2**64 - 1, or None for no limit, not -1"):
                call(-1)
            with self.says(TypeError, "most must be a whole number, or None for no limit, not 1.5"):
                call(1.5)
        self.assertEqual(len(cursor.items(None)), ROWS)
        self.assertEqual(len(feed.advance(world.now).told), ROWS)


class Texts(Case):
    """The texts of errors."""

    def test_keys(self) -> None:
        intervals, boxes, sets = Store(Interval), Store(Box), Store(Set)
        advice = "scale coordinates to whole numbers, for example metres to millimetres"
        wrong: Any
        for call, kind, text in (
            (lambda: boxes.insert((1.5, 0, 2, 2), 1), TypeError, f"key.x1 must be a whole number, not 1.5: {advice}"),
            (lambda: boxes.insert(Box(0, 0, 2, 2**31), 1), ValueError, "key.y2 must be from -2**31 to 2**31 - 1, not 2,147,483,648"),
            (lambda: intervals.insert(Interval(0, None), 1), TypeError, "key.hi must be a whole number, not None"),
            (lambda: intervals.insert((0, 2**63), 1), ValueError, "key.hi must be from -2**63 to 2**63 - 1, not 9,223,372,036,854,775,808"),
            (lambda: intervals.insert((0, 1), -1), ValueError, "tag must be from 0 to 2**64 - 1, not -1"),
            (lambda: intervals.insert((0, 1), 0.5), TypeError, "tag must be a whole number, not 0.5"),
            (lambda: intervals.insert((0, 1, 2), 0), ValueError, "key must be an Interval, a tuple (lo, hi) or a range, not (0, 1, 2)"),
            (lambda: intervals.insert(Box(1, 2, 3, 4), 0), TypeError, "key must be an Interval, a tuple (lo, hi) or a range, not Box(x1=1, y1=2, x2=3, y2=4)"),
            (lambda: intervals.insert({1, 5}, 0), TypeError, "key must be an Interval, a tuple (lo, hi) or a range, not {1, 5}"),
            (lambda: boxes.insert("abcd", 0), TypeError, "key must be a Box or a tuple (x1, y1, x2, y2), not 'abcd'"),
            (lambda: sets.insert({1.5}, 0), TypeError, "each element of key must be a whole number, not 1.5"),
            (lambda: sets.insert({128}, 0), ValueError, "each element of key must be from 0 to 127, not 128"),
            (lambda: sets.insert(Interval(1, 2), 0), TypeError, "key must be a Set or a set of whole numbers from 0 to 127, not Interval(lo=1, hi=2)"),
            (lambda: sets.insert(7, 0), TypeError, "key must be a Set or a set of whole numbers from 0 to 127, not 7"),
            (lambda: Set({-1}), ValueError, "each element must be from 0 to 127, not -1"),
            (lambda: intervals.insert_all([((1, 2), 3), ((1, 2), -1)]), ValueError, "rows[1].tag must be from 0"),
            (lambda: intervals.insert_all([((1, 2), 3), ((1, "x"), 1)]), TypeError, "rows[1].key.hi must be a whole number, not 'x'"),
            (lambda: intervals.insert_all([((1, 2), 3), 4]), TypeError, "rows[1] must be a pair (key, tag), not 4"),
            (lambda: intervals.insert_all(5), TypeError, "rows must be an iterable of pairs (key, tag), not 5"),
            (lambda: intervals.delete_all([1, None]), TypeError, "rows[1] must be a whole number, not None"),
            (lambda: intervals.snapshot().find_each(Relation.SAME, [(1, 2), (0.5, 1)]), TypeError, "keys[1].lo must be a whole number, not 0.5: scale"),
            (lambda: intervals.snapshot().find_each(7, []), ValueError, "relation must be Relation.OVERLAPS, WITHIN, HOLDS or SAME, not 7"),
            (lambda: gist.overlaps(Interval(0, 0.5)), TypeError, "key.hi must be a whole number, not 0.5: scale"),
            (lambda: gist.overlaps((1, 2)), TypeError, "key must be an Interval, a Box or a Set, not (1, 2)"),
        ):
            wrong = call
            with self.subTest(text), self.says(kind, text):
                wrong()
        self.assertEqual(intervals.commits() + boxes.commits() + sets.commits(), 0)

    def test_objects(self) -> None:
        store: Any = Store(Interval)
        now, other = store.snapshot(), Query(Box, "same (1 2 3 4)")
        feed: Any = Feed(Interval)
        for call, text in (
            (lambda: now.find(now), "query must be a Query or the text of one, not a Snapshot"),
            (lambda: now.find(None), "query must be a Query or the text of one, not None"),
            (lambda: store.open(other), "query must be a query of Interval, not of Box"),
            (lambda: now.count(b"same (1 2)"), "query must be a Query or the text of one, not b'same (1 2)'"),
            (lambda: feed.advance(store), "snapshot must be a Snapshot, not a Store"),
            (lambda: feed.advance(Store(Box).snapshot()), "snapshot must be a snapshot of Interval, not of Box"),
            (lambda: Cursor(now, 1), "store must be a Store, not a Snapshot"),
            (lambda: Query(Interval, 5), "text must be a str, not 5"),
            (lambda: Store("Interval"), "key_class must be Interval, Box or Set, not 'Interval'"),
            (lambda: Store(Interval, 5), "limits must be Limits(fan, least, pages, commits), not 5"),
            (lambda: Store(Interval, Limits(fan=4.0)), "limits.fan must be a whole number, not 4.0"),
            (lambda: store.wait_past(0, "1"), "seconds must be a number of seconds, or None for no limit, not '1'"),
        ):
            with self.subTest(text), self.says(TypeError, text):
                call()
        with self.says(ValueError, "seconds must be 0 or more, or None for no limit, not nan"):
            store.wait_past(0, math.nan)
        # those that the library refuses, too, are refused by the names of the library
        for refusal, wrong in ((Refusal.OtherClass, lambda: store.open(other)), (Refusal.BadLimits, lambda: Store(Interval, Limits(fan=65)))):
            with self.assertRaises(Error) as caught:
                wrong()
            again = pickle.loads(pickle.dumps(caught.exception))
            self.assertEqual((again.refusal, type(again), str(again)), (refusal, type(caught.exception), str(caught.exception)))

    def test_refusals(self) -> None:
        store = Store(Interval, Limits(fan=4, least=2, pages=64, commits=3))
        store.insert_all([((1, 2), 3), ((4, 5), 6)])
        store.delete(1)
        now, feed = store.snapshot(), Feed(Interval)
        feed.advance(now)
        for call, text in (
            (lambda: store.insert((9, 5), 1), "BadEnds (26): key (9 5): the lower end exceeds the upper end"),
            (lambda: Store(Interval).insert_all([((5, 9), 1), ((9, 5), 1)]), "BadEnds (26): rows[1].key (9 5): the lower end exceeds the upper end"),
            (lambda: Store(Box).insert((3, 0, 1, 0), 1), "BadEnds (26): key (3 0 1 0): x1 exceeds x2"),
            (lambda: gist.overlaps(Box(0, 2, 0, 1)), "BadEnds (26): key (0 2 0 1): y1 exceeds y2"),
            (lambda: now.find_each(Relation.SAME, [(1, 2), (2, 1)]), "BadEnds (26): keys[1] (2 1): the lower end exceeds the upper end"),
            (lambda: store.delete(7), "NoSuchRow (14): row is 7: no such row"),
            (lambda: store.delete_all([7]), "NoSuchRow (14): rows[0] is 7: no such row"),
            (lambda: store.move(1, (1, 2)), "AlreadyDeleted (15): row is 1: row was deleted or moved"),
            (lambda: store.insert((1, 2), 3), "CommitsFull (4): store is full: it has as many commits as its limit; renew it"),
            (lambda: store.follow("same (1 2)", 9), "FromFuture (23): commit is 9: no such commit yet"),
            (lambda: now.changes("same (1 2)", 9), "FromFuture (23): since is 9: no such commit yet"),
            (lambda: feed.advance(Store(Interval).snapshot()), "FromFuture (23): the snapshot has fewer commits than the feed has processed"),
            (lambda: feed.unsubscribe(7), "NotSubscribed (25): subscription is 7: no such subscription"),
            (lambda: Store(Interval, Limits(fan=3)), "BadLimits (29): limits.fan must be from 4 to 64, not 3"),
            (lambda: Store(Interval, Limits(fan=8, least=5)), "BadLimits (29): limits.least must be from 2 to 4, not 5"),
            (lambda: Store(Interval, Limits(pages=2**40)), "BadLimits (29): limits.pages must be from 1 to 65,536, not 1,099,511,627,776"),
        ):
            with self.subTest(text), self.says(Error, text):
                call()


if __name__ == "__main__":
    unittest.main()
