"""A session or a replay whose state is restored after each example.

`Script` records lines and what the slow models answer. Before each example the same three rows live, one cursor is open
and has delivered all its items, and in a replay one finder is open. So a line that is well-formed meets rows, cursors
and finders, and the model follows what it does to them. `LeavesScript` does so for a replay whose root has two leaves.
"""
import re

from fuzz_lines.example_lines import ANY_KEY, LEAVES, ROWS
from models import session_model
from models.grammar import read_line
from models.keys import keys_of
from models.session_model import Session
from models.steps import first_difference, steps_of
from models.world_model import World

FAN, LEAST = 8, 3
SIGNS = re.compile(rb"([RCFN])\1{5}")
MOST_ITEMS = 3


class Script:
    """Lines of a language over a class, what they ask, and the place where each example begins among them.

    In a replay `answers` are the only ones. In a session they are some that the model allows: the lines are the same
    for others.
    """

    def __init__(self, language, class_name):
        self.language, self.class_name = language, class_name
        self.is_replay = language == "replay"
        self.keys = keys_of(class_name)
        self.model = World(self.keys, FAN, LEAST) if self.is_replay else Session(self.keys)
        self.lines, self.requests, self.answers, self.examples = [], [], [], []
        # The numbers of the three rows, of the cursor and of the finder
        self.rows, self.cursor, self.finder = [0, 0, 0], 0, 0
        # What `state` returns when everything is restored
        self.kept = None

    def give(self, line):
        """Adds a line; whether it is well-formed."""
        request = read_line(self.language, self.class_name, line)
        self.lines.append(line)
        self.requests.append(request)
        if request.verb in ("blank", "fault"):
            self.answers.append(request.arguments[0] if request.arguments else None)
            return False
        self.answers.append(self.model.step(request) if self.is_replay else self.model.some_answer(request))
        return True

    def give_text(self, text):
        """Adds an example, maybe of several lines, and restores what it changed."""
        self.examples.append((len(self.lines), text))
        are_well_formed = [self.give(line) for line in text.split(b"\n")]
        if any(are_well_formed) and self.state() != self.kept:
            self.put_back()

    def state(self):
        """A value that differs once lines have changed anything."""
        model = self.model
        counts = len(model.commits), len(model.cursors), model.last_cursor
        if not self.is_replay:
            return *counts, any(cursor.is_mark_asked or cursor.listing.rows for cursor in model.cursors.values())
        works = any(cursor.is_mark_asked or cursor.stack or cursor.found for cursor in model.cursors.values())
        items = sum(len(cursor.mailbox) for cursor in model.cursors.values())
        return *counts, works, items, model.last_finder, len(model.finders)

    def put_back(self):
        """Restores the rows, the cursor and the finder, and ends all others."""
        self.end_cursors()
        if self.is_replay:
            self.end_finders()
        for number in sorted(set(self.model.commits.live) - set(self.rows)):
            self.end_row(number)
        self.sweep()
        for place, row in enumerate(ROWS[self.class_name]):
            if self.rows[place] not in self.model.commits.live:
                self.give(b"place 0 " + row if self.is_replay else b"insert " + row)
                self.rows[place] = len(self.model.commits)
        if self.is_replay:
            self.give(b"find %d" % self.rows[0])
            self.finder = self.model.last_finder
        if self.cursor not in self.model.cursors:
            self.give(b"open 4096 " + ANY_KEY[self.class_name])
            self.cursor = self.model.last_cursor
        self.empty_cursor()
        self.kept = self.state()

    def end_cursors(self):
        """Takes some items of the other cursors, which are compared, and closes these cursors."""
        for number in sorted(set(self.model.cursors) - {self.cursor}):
            for _ in range(MOST_ITEMS):
                self.take(number)
            self.give(b"close %d" % number)

    def take(self, number):
        """Takes an item of a cursor."""
        if self.is_replay:
            self.give(b"turn %d" % number)
            self.give(b"take %d" % number)
        else:
            self.give(b"next %d" % number)

    def end_finders(self):
        """Ends all finders."""
        for number in sorted(self.model.finders):
            self.give(b"unfind %d" % number)

    def end_row(self, number):
        """Deletes a row."""
        if self.is_replay:
            self.give(b"find %d" % number)
            self.give(b"seek %d" % self.model.last_finder)
        else:
            self.give(b"delete %d" % number)

    def sweep(self):
        """Sweeps the dead rows."""
        self.give(b"sweep 0" if self.is_replay else b"sweep")

    def has_items(self):
        """Whether the cursor has anything left to deliver."""
        cursor, count = self.model.cursors[self.cursor], len(self.model.commits)
        if not self.is_replay:
            return cursor.items(count) != ["empty"]
        return bool(cursor.stack or cursor.found or cursor.mailbox or cursor.position < count or cursor.is_mark_asked)

    def empty_cursor(self):
        """Takes all that the cursor has left, and once more."""
        while self.has_items():
            self.take(self.cursor)
        self.take(self.cursor)

    def numbered(self, text):
        """A text with the numbers of what exists in the places of six capitals each."""
        if not SIGNS.search(text):
            return text
        numbers = {b"R": self.rows[0], b"C": self.cursor, b"F": self.finder, b"N": len(self.model.commits)}
        for sign, number in numbers.items():
            text = text.replace(sign * 6, b"%06d" % number)
        return text

    def first_difference(self, output):
        """The first wrong answer: its place among the lines, what is due, and the answer; or None."""
        steps, rest = steps_of(self.requests, output.decode("ascii", "backslashreplace"))
        flaw = first_difference(steps, self.answers) if self.is_replay else session_model.first_flaw(self.keys, steps)
        if flaw:
            return *flaw, steps[flaw[0]][1]
        return (len(steps), "nothing more is due", rest) if rest else None


class LeavesScript(Script):
    """Lines for a replay whose root has two leaves of four rows each, and no cursor. Covers may become wider."""

    def grow(self):
        """Makes the two leaves."""
        for key in LEAVES[self.class_name]:
            self.give(b"place 0 " + key + b" 0")
        self.give(b"grow llllrrrr")
        self.rows = list(self.model.commits.live)
        self.kept = self.state()

    def put_back(self):
        """Ends all rows but the first eight, and all finders."""
        self.end_finders()
        for number in sorted(set(self.model.commits.live) - set(self.rows)):
            self.give(b"find %d" % number)
            finder = self.model.last_finder
            # a finder visits the root, and one leaf or two
            for _ in range(3):
                self.give(b"seek %d" % finder)
        self.give(b"sweep 1")
        self.give(b"sweep 2")
        self.kept = self.state()
