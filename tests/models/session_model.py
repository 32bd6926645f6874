"""A slow model of a session: the allowed answers to each line.

Everything is exact except for two things. The rows of a cursor's snapshot come in any order, so `next` may deliver any
that is left. And how far a scan has come isn't known, except that it is over once something other than a row was
delivered, and hasn't begun before the first `next`. So `sweep` has one answer for each opening that may be the least of
the scans under way: it removes the rows that died up to that opening, or all dead rows if no scan is under way.

A line that runs out of memory changes nothing that its client sees, but a sweep may have removed some rows by then, and
a cursor may have begun its scan (`note_out_of_memory`).

An answer of several lines is one text.
"""
from models.keys import wanted
from models.listings import Commits, Listing, is_mark, is_row
from models.refusals import NUMBERS, refusal_line

MOST_ROOM = 4_096
MOST_CURSORS = 256


def refused(name):
    """The answers to a line that is refused: one."""
    return [refusal_line(NUMBERS[name])]


class Cursor:
    """An open cursor, as its client sees it."""

    def __init__(self, listing, follows):
        self.listing = listing
        self.is_mark_asked = False
        self.has_begun = follows
        self.is_over = follows

    def items(self, last):
        """The items that may come next."""
        if self.listing.rows:
            return list(self.listing.rows)
        change = self.listing.next_change(last)
        if change is not None:
            return [change[1]]
        return [f"mark {last}" if self.is_mark_asked else "empty"]

    def give(self, item):
        """Notes an item that may come next, or that there is none."""
        self.has_begun = True
        self.is_over = self.is_over or not is_row(item)
        if is_mark(item):
            self.is_mark_asked = False
        elif item != "empty":
            self.listing.goes_on_with(item)


class Session:
    """What follows from the answers of a session so far."""

    def __init__(self, keys):
        self.keys = keys
        self.commits = Commits(keys)
        self.cursors = {}
        self.last_cursor = 0
        # the commits that ended rows which no sweep surely removed, rising, and how many of these rows may be gone:
        # those that a sweep removed before it ran out of memory
        self.deaths = []
        self.maybe_gone = 0

    def answers(self, line):
        """The answers that a line may have."""
        return getattr(self, line.verb + "_answers")(*line.arguments)

    def note(self, line, answer):
        """Notes an answer that a line may have."""
        if line.verb in ("insert", "delete", "move") and answer.startswith("committed"):
            self.commit(line)
        elif line.verb in ("open", "follow") and answer.startswith("opened"):
            self.open(line)
        elif line.verb in ("next", "mark", "close") and line.arguments[0] in self.cursors:
            self.work(line.verb, line.arguments[0], answer)
        elif line.verb == "sweep":
            self.sweep(int(answer.split(" ")[1]))

    def some_answer(self, line):
        """Notes the first answer that a line may have, and returns it."""
        answer = self.answers(line)[0]
        self.note(line, answer)
        return answer

    def commit(self, line):
        """Notes a commit."""
        number = self.commits.add((line.verb, *line.arguments))
        if line.verb != "insert":
            self.deaths.append(number)

    def open(self, line):
        """Notes a cursor."""
        follows = line.verb == "follow"
        opened = line.arguments[1] if follows else len(self.commits)
        self.last_cursor += 1
        listing = Listing(self.commits, wanted(self.keys, line.arguments[-1]), opened, follows)
        self.cursors[self.last_cursor] = Cursor(listing, follows)

    def work(self, verb, serial, answer):
        """Notes what an open cursor delivered, or that it is to deliver a mark, or that it is closed."""
        if verb == "next":
            self.cursors[serial].give(answer)
        elif verb == "mark":
            self.cursors[serial].is_mark_asked = True
        else:
            del self.cursors[serial]

    def sweep(self, count):
        """Notes how many rows a sweep removed: with those that were gone, all that died up to one of the horizons.

        If some of them surely died after an opening, that scan is over.
        """
        totals = [total for total in self.totals_gone() if total - self.maybe_gone <= count <= total]
        least, most = min(totals), max(totals)
        for cursor in self.cursors.values():
            if self.dead_up_to(cursor.listing.opened) < least:
                cursor.has_begun = cursor.is_over = True
        del self.deaths[:least]
        self.maybe_gone = most - least

    def note_out_of_memory(self, line):
        """Notes that a line ran out of memory."""
        if line.verb == "next" and line.arguments[0] in self.cursors:
            self.cursors[line.arguments[0]].has_begun = True
        elif line.verb == "sweep":
            self.maybe_gone = max(self.maybe_gone, *self.totals_gone())

    def dead_up_to(self, commit):
        """How many rows that died up to a commit were not removed."""
        return sum(death <= commit for death in self.deaths)

    # The answers of each line

    def fault_answers(self, answer):
        """A line that is refused as such."""
        return [answer]

    def blank_answers(self):
        """A line without a token has no answer."""
        return [None]

    def commit_answers(self):
        """A commit has the next number."""
        return [f"committed {len(self.commits) + 1}"]

    def insert_answers(self, _key, _tag):
        """Nothing refuses an insert, since there is room."""
        return self.commit_answers()

    def delete_answers(self, row):
        """A delete of a row that lives."""
        refusal = self.commits.refusal(row)
        return self.commit_answers() if refusal is None else [refusal_line(refusal)]

    def move_answers(self, row, _key):
        """A move is refused as a delete is."""
        return self.delete_answers(row)

    def open_answers(self, room, _query):
        """A cursor at the present commits."""
        return self.follow_answers(room, 0, _query)

    def follow_answers(self, room, commit, _query):
        """A cursor that follows a commit."""
        if not 1 <= room <= MOST_ROOM:
            return refused("BadConfig")
        if commit > len(self.commits):
            return refused("FromFuture")
        return refused("CursorsFull") if len(self.cursors) >= MOST_CURSORS else [f"opened {self.last_cursor + 1}"]

    def cursor_refusal(self, serial):
        """The answers to a line of a cursor that isn't open, or none."""
        if not 1 <= serial <= self.last_cursor:
            return refused("NoSuchCursor")
        return None if serial in self.cursors else refused("CursorClosed")

    def next_answers(self, serial):
        """The next item of a cursor, or `empty`."""
        return self.cursor_refusal(serial) or self.cursors[serial].items(len(self.commits))

    def mark_answers(self, serial):
        """A request for a mark."""
        return self.cursor_refusal(serial) or ["asked"]

    def close_answers(self, serial):
        """A closing."""
        return self.cursor_refusal(serial) or ["closed"]

    def find_answers(self, query):
        """The rows that live and match, by rising number."""
        rows = self.commits.snapshot(wanted(self.keys, query), len(self.commits))
        return ["\n".join([f"found {len(rows)}", *rows])]

    def totals_gone(self):
        """How many dead rows are gone after a sweep, for each opening that may be the least of the scans under way."""
        sure = [cursor.listing.opened for cursor in self.cursors.values() if not cursor.has_begun]
        least = min(sure, default=len(self.commits))
        unsure = {cursor.listing.opened for cursor in self.cursors.values() if cursor.has_begun and not cursor.is_over}
        return {self.dead_up_to(horizon) for horizon in (least, *(opened for opened in unsure if opened < least))}

    def sweep_answers(self):
        """How many rows a sweep may remove."""
        totals = self.totals_gone()
        return sorted({f"swept {total - gone}" for total in totals for gone in range(min(total, self.maybe_gone) + 1)})


def first_flaw(keys, steps):
    """The place of the first answer that a line may not have, and what it may have; or none."""
    session = Session(keys)
    for place, (line, answer) in enumerate(steps):
        allowed = session.answers(line)
        if answer not in allowed:
            others = f" or one of {len(allowed) - 1} others" if len(allowed) > 1 else ""
            return place, f"{allowed[0]!r}{others} is due"
        session.note(line, answer)
    return None
