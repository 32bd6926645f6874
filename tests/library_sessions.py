#!/usr/bin/env python3
"""The random sessions once more, with the library by bindings/python/gist.py, compared with the slow model.

    GIST_LIB_DIR=FOLDER tests/library_sessions.py [--seeds N] [--seed S] [--lines N] [--verbose]

For each of 18 seeds, in the three classes, 500 lines are drawn as those of tests/random_lists/session_drawing.py: inserts, moves, deletes,
finds, sweeps, cursors that open and follow, their items, marks and closings, with names that are stale or foreign. The library
makes the call of each, and its answers have to be ones that tests/models/session_model.py allows. Between the lines come calls that
sessions don't have, each compared with the model's plain lists:

- snapshots that are kept for a while: their counts, rows, rows of many keys, rows and commits by their numbers, and the
  changes after any commit, a few at once;
- a feed with up to 60 subscriptions that come and go, which is advanced by some commits at once;
- a store that is renewed from a snapshot; the session then goes on with the old one.

--verbose prints how often each came. The last line is `N passed, M failed`; the status is 0 only if M is 0.
"""
import argparse
import collections
import sys
from random import Random

from checkout import ROOT
from models.keys import RELATIONS, SETS, matches, wanted
from models.refusals import refusal_line
from models.session_model import Session
from random_lists.drawn_lines import query_tokens
from random_lists.session_drawing import SessionDrawer

sys.path.insert(0, f"{ROOT}/bindings/python")
import gist  # noqa: E402

SEEDS, LINES, INSERTS = 18, 500, 60
MOST_KEPT, MOST_SUBSCRIBED = 4, 60

CLASSES = {"interval": gist.Interval, "box": gist.Box, "set": gist.Set}

# How often a further call is made after a line
FURTHER = 0.4


class Wrong(Exception):
    """What the library gave, and what was due."""


def due(what, given, wanted_one):
    """Raises an error if something isn't as it should be."""
    if given != wanted_one:
        raise Wrong(f"{what}: {given!r} was given, and {wanted_one!r} is due")


class Run:
    """A session with the library, compared with the model."""

    def __init__(self, seed, lines):
        drawer = SessionDrawer(seed, lines, INSERTS).drawn()
        self.keys, self.asked = drawer.keys, drawer.asked
        self.drawer = drawer
        self.random = Random(f"library {seed} {lines}")
        self.session = Session(self.keys)
        self.key_class = CLASSES[self.keys.name]
        self.store = gist.Store(self.key_class, gist.Limits(fan=drawer.fan, least=drawer.least, pages=4096, commits=65536))
        self.kept = []
        self.feed, self.fed, self.subscribed = gist.Feed(self.key_class), 0, {}
        self.counts = collections.Counter()

    # Keys, queries and items as the library has them, and as the model writes them

    def key(self, key):
        """A key of the model, as the library takes it."""
        return self.key_class(SETS.elements(key)) if self.keys is SETS else self.key_class(*key)

    def model_key(self, key):
        """A key of the library, as the model has it."""
        return sum(1 << element for element in key) if self.keys is SETS else tuple(key)

    def query(self, query):
        """A query of the model, read of its text, or made without one."""
        if query[0] in RELATIONS and self.random.random() < 0.5:
            return gist.Query.by(gist.Relation[query[0].upper()], self.key(query[1]))
        return gist.Query(self.key_class, " ".join(query_tokens(self.keys, self.random, query)))

    def row_text(self, row):
        """A row, as the model writes it."""
        return f"row {row.number} {self.keys.text(self.model_key(row.key))} {row.tag}"

    def item_text(self, item):
        """An item, as the model writes it. What it says about the row that ended is checked here."""
        if item.kind is gist.Kind.MARK:
            return f"mark {item.number}"
        key = self.model_key(item.key)
        if item.kind is gist.Kind.DELETED:
            ended = self.session.commits.rows[item.ended]
            due(f"the row that commit {item.number} ended", (key, item.tag), (ended.key, ended.tag))
            return f"deleted {item.number} {item.ended}"
        ended = f" {item.ended}" if item.kind is gist.Kind.MOVED else ""
        return f"{item.kind.name.lower()} {item.number}{ended} {self.keys.text(key)} {item.tag}"

    # What a line asks

    def answer(self, line):
        """Makes the call of a line, and gives its answer as a text."""
        try:
            return getattr(self, f"do_{line.verb}")(*line.arguments)
        except gist.Error as error:
            return refusal_line(error.refusal.value)

    def do_insert(self, key, tag):
        """An insert."""
        return f"committed {self.store.insert(self.key(key), tag)}"

    def do_delete(self, row):
        """A delete."""
        return f"committed {self.store.delete(row)}"

    def do_move(self, row, key):
        """A move."""
        return f"committed {self.store.move(row, self.key(key))}"

    def do_find(self, query):
        """A find in a snapshot, which is dropped."""
        with self.store.snapshot() as now:
            rows = now.find(self.query(query))
        return "\n".join([f"found {len(rows)}", *map(self.row_text, rows)])

    def do_sweep(self):
        """A sweep."""
        return f"swept {self.store.sweep()}"

    def do_open(self, _room, query):
        """A cursor. It is closed by a line, and not when nothing refers to it."""
        return self.opened(self.store.open(self.query(query)))

    def do_follow(self, _room, commit, query):
        """A cursor that follows a commit."""
        return self.opened(self.store.follow(self.query(query), commit))

    def opened(self, cursor):
        """The number of a cursor."""
        cursor._finalizer.detach()
        return f"opened {cursor.number}"

    def cursor(self, number):
        """The cursor with a number, or what has a number that none was given."""
        cursor = gist.Cursor(self.store, number)
        cursor._finalizer.detach()
        return cursor

    def do_next(self, number):
        """An item of a cursor."""
        items = self.cursor(number).items(1)
        return self.item_text_of_cursor(items[0]) if items else "empty"

    def item_text_of_cursor(self, item):
        """An item of a cursor, which may be a row."""
        return self.row_text(gist.Row(item.number, item.key, item.tag)) if item.kind is gist.Kind.ROW else self.item_text(item)

    def do_mark(self, number):
        """An asking for a mark."""
        self.cursor(number).mark()
        return "asked"

    def do_close(self, number):
        """Closes a cursor; a refusal is reported."""
        gist._need(gist._call["close"](self.store._at, number))
        return "closed"

    # Calls that sessions don't have

    def further_keep(self):
        """Takes a snapshot, and drops one if there are many."""
        self.kept.append(self.store.snapshot())
        if len(self.kept) > MOST_KEPT:
            self.kept.pop(self.random.randrange(MOST_KEPT)).close()

    def some_snapshot(self):
        """One that was kept, or one of now."""
        return self.random.choice(self.kept) if self.kept and self.random.random() < 0.7 else self.store.snapshot()

    def some_query(self):
        """A query, and a test of it."""
        query = self.drawer.query()
        return self.query(query), wanted(self.keys, query)

    def further_find(self):
        """The rows of a snapshot, and how many they are."""
        now, (query, test) = self.some_snapshot(), self.some_query()
        rows = self.session.commits.snapshot(test, now.commits())
        due("rows", [*map(self.row_text, now.find(query))], rows)
        due("rows in any order", sorted(map(self.row_text, now.find_any(query))), sorted(rows))
        due("a count", now.count(query), len(rows))

    def further_find_each(self):
        """The rows of many keys."""
        now, relation = self.some_snapshot(), self.random.choice(RELATIONS)
        keys = [self.drawer.key() for _ in range(self.random.choice((0, 1, 7, 60)))]
        found = now.find_each(gist.Relation[relation.upper()], map(self.key, keys))
        live = [row for row in self.session.commits.rows.values() if self.session.commits.lives(row.number, now.commits())]
        rows = [[row.number for row in live if matches(self.keys, (relation, key), row.key)] for key in keys]
        due("rows of keys", [[row.number for row in some] for some in found], rows)

    def further_number(self):
        """A row and a commit by their numbers."""
        now, commits = self.some_snapshot(), self.session.commits
        number = self.random.randrange(now.commits() + 3)
        row = commits.rows.get(number) if number <= now.commits() else None
        got = now.get(number)
        due(f"row {number}", got and self.row_text(got), commits.row_line(row) if row and commits.lives(number, now.commits()) else None)
        if row:
            known = now.known(number)
            due(f"row {number}", (self.row_text(known.row), known.lives), (commits.row_line(row), commits.lives(number, now.commits())))
        commit = now.commit(number)
        item = commits.change(lambda _: True, number) if 1 <= number <= now.commits() else None
        due(f"commit {number}", commit and self.item_text(commit), item)

    def further_changes(self):
        """The changes after a commit, a few at once."""
        now, (query, test) = self.some_snapshot(), self.some_query()
        at = begin = self.random.randrange(now.commits() + 1)
        items, most = [], self.random.choice((1, 2, 5, None))
        while True:
            changes = now.changes(query, at, most)
            items += map(self.item_text, changes.items)
            at = changes.upto
            if at == now.commits():
                break
        due("changes", items, self.session.commits.changes(test, begin, now.commits()))

    def further_subscribe(self):
        """A subscription, from a commit before or after the one to which the feed has gone; or the end of one."""
        if len(self.subscribed) == MOST_SUBSCRIBED or (self.subscribed and self.random.random() < 0.2):
            number = self.random.choice(list(self.subscribed))
            self.feed.unsubscribe(number)
            del self.subscribed[number]
            return
        (query, test), since = self.some_query(), self.random.randrange(len(self.session.commits) + 3)
        self.subscribed[self.feed.subscribe(query, since)] = [test, since]

    def further_advance(self):
        """An advance. Each subscription gets what is new to it, and nothing else is given."""
        before = self.fed
        delivered, self.fed = self.feed.advance(self.store.snapshot(), self.random.choice((0, 1, 5, 40, None)))
        due("an advance goes on", before <= self.fed <= len(self.session.commits), True)
        given = collections.defaultdict(list)
        for it in delivered:
            given[it.subscription].append(self.item_text(it.item))
        for number, (test, since) in self.subscribed.items():
            due(f"the items of subscription {number}", given.pop(number, []), self.session.commits.changes(test, since, self.fed))
            self.subscribed[number][1] = max(since, self.fed)
        due("items of other subscriptions", {number: some for number, some in given.items() if number in self.subscribed}, {})

    def further_renew(self):
        """A store of the rows of a snapshot, numbered from 1 again, and the numbers that they had."""
        now, commits = self.some_snapshot(), self.session.commits
        rows = [row for row in commits.rows.values() if commits.lives(row.number, now.commits())]
        with now.renew(gist.Limits(pages=4096, commits=len(rows) + 1)).store as store:
            due("rows that were made anew", [(self.model_key(row.key), row.tag) for row in store.snapshot()], [(row.key, row.tag) for row in rows])
            due("the next number", store.insert(self.key(self.drawer.key()), 7), len(rows) + 1)
        due("numbers", now.renew().numbers, [row.number for row in rows])

    # The whole

    def go(self):
        """Runs all lines, with further calls after some of them."""
        further = [name for name in dir(self) if name.startswith("further_")]
        for place, line in enumerate(self.asked):
            if line.verb in ("fault", "blank"):
                continue
            if line.verb in ("open", "follow"):
                # a cursor of the library has no room of its own
                line = line._replace(arguments=(8, *line.arguments[1:]))
            answer, allowed = self.answer(line), self.session.answers(line)
            if answer not in allowed:
                raise Wrong(f"line {place}, {line.verb} {line.arguments}: {answer!r} was given, and {allowed[0]!r} is due, or one of {len(allowed)}")
            self.session.note(line, answer)
            self.counts[f"line, {line.verb}{', refused' if answer.startswith('refused') else ''}"] += 1
            if self.random.random() < FURTHER:
                name = self.random.choice(further)
                getattr(self, name)()
                self.counts[name.replace("_", ": ", 1)] += 1


def main():
    """Runs all, and prints the outcome."""
    parser = argparse.ArgumentParser(description=__doc__, formatter_class=argparse.RawDescriptionHelpFormatter)
    parser.add_argument("--seeds", type=int, default=SEEDS, metavar="N")
    parser.add_argument("--seed", type=int, default=1, metavar="S")
    parser.add_argument("--lines", type=int, default=LINES, metavar="N")
    parser.add_argument("--verbose", action="store_true")
    given = parser.parse_args()
    failed, counts = 0, collections.Counter()
    for seed in range(given.seed, given.seed + given.seeds):
        run = Run(seed, given.lines)
        try:
            run.go()
        except Wrong as wrong:
            failed += 1
            print(f"FAILED: seed {seed}, {run.keys.name}: {wrong}", flush=True)
        counts += run.counts
    if given.verbose:
        for what in sorted(counts):
            print(f"{counts[what]:7} {what}")
    print(f"{given.seeds - failed} passed, {failed} failed")
    return 1 if failed else 0


if __name__ == "__main__":
    sys.exit(main())
