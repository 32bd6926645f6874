"""Random sessions: the lines that `gist serve` reads, and with each an answer that the slow model allows."""
from random import Random

from random_lists.drawn_lines import Drawer
from models.keys import CLASSES
from models.session_model import MOST_CURSORS, MOST_ROOM, Session

FANS = ((4, 2), (8, 3), (64, 21))

# Of each command the kinds of its arguments: see Drawer
SHAPES = {
    "insert": "kn", "delete": "n", "move": "nk", "open": "nq", "follow": "nfnq", "next": "n", "mark": "n", "find": "q",
    "sweep": "", "close": "n",
}

# How often what is drawn comes
WEIGHTS = {
    "insert": 30, "delete": 7, "move": 8, "find": 9, "open": 4, "follow": 2, "items": 6, "mark": 4, "close": 3,
    "sweep": 2, "settled_sweep": 1, "fault": 3, "blank": 0.5,
}


class SessionDrawer(Drawer):
    """Draws a session, which begins with some inserts. `asked` are its lines, and `answers` ones that they may have."""

    def __init__(self, seed, lines, inserts=0):
        random = Random(f"session {seed} {lines} {inserts}")
        super().__init__(CLASSES[seed % len(CLASSES)], random, SHAPES)
        self.seed = seed
        self.fan, self.least = FANS[seed // len(CLASSES) % len(FANS)]
        self.session = Session(self.keys)
        self.lines = lines
        self.inserts = inserts
        self.asked = []
        self.answers = []

    def options(self):
        """The words that begin a session as the model's."""
        return ["--class", self.keys.name, f"--fan={self.fan}", f"--least={self.least}"]

    def ask(self, verb, *arguments):
        """Draws the line of a command, and returns an answer that it may have."""
        return self.note(self.finished(self.draft(verb, *arguments)))

    def note(self, line):
        """Gives an answer that a line may have, which is noted with it."""
        answer = self.random.choice(self.session.answers(line))
        self.session.note(line, answer)
        self.asked.append(line)
        self.answers.append(answer)
        return answer

    def drawn(self):
        """Draws as many lines as wanted, and then lets all be given, closes all and sweeps."""
        acts, weights = zip(*WEIGHTS.items())
        is_crowded = self.seed % 8 != 3
        for _ in range(self.inserts):
            self.draw_insert()
        while len(self.asked) < self.lines:
            if not is_crowded and len(self.asked) > self.lines // 3:
                is_crowded = True
                self.many_cursors()
            getattr(self, "draw_" + self.random.choices(acts, weights)[0])()
        self.settle()
        return self

    def rows(self):
        """The rows that were made, by their numbers."""
        return self.session.commits.rows

    def row_name(self):
        """Mostly the number of a row that lives, seldom that of one that ended."""
        commits = self.session.commits
        sensible = list(commits.ended) if self.chance(0.1) else [row.number for row in commits.live_rows()]
        return self.name(sensible, len(commits))

    def cursor_name(self):
        """Mostly the serial of an open cursor."""
        return self.name(list(self.session.cursors)[-8:], self.session.last_cursor)

    def draw_insert(self):
        """An insert."""
        self.ask("insert", self.key(), self.tag())

    def draw_delete(self):
        """A delete."""
        self.ask("delete", self.row_name())

    def draw_move(self):
        """A move."""
        self.ask("move", self.row_name(), self.key())

    def draw_find(self):
        """A find."""
        self.ask("find", self.query())

    def draw_open(self):
        """A cursor at the present commits."""
        self.ask("open", self.room(), self.query())

    def draw_follow(self):
        """A cursor that follows a commit."""
        commits = len(self.session.commits)
        commit = commits + 1 if self.chance(0.1) else self.name(range(commits + 1), commits + 1)
        self.ask("follow", self.room(), commit, self.query())

    def draw_items(self):
        """Some items of one cursor."""
        cursor = self.cursor_name()
        for _ in range(self.random.choice((1, 2, 5, 12))):
            if self.ask("next", cursor).split(" ")[0] in ("refused", "empty"):
                return

    def draw_mark(self):
        """A request for a mark."""
        self.ask("mark", self.cursor_name())

    def draw_close(self):
        """A closing of a cursor."""
        self.ask("close", self.cursor_name())

    def draw_sweep(self):
        """A sweep."""
        self.ask("sweep")

    def draw_settled_sweep(self):
        """A sweep when each scan that has begun is over, so that it is known which rows go."""
        for serial, cursor in list(self.session.cursors.items()):
            while cursor.has_begun and not cursor.is_over and len(self.asked) < self.lines:
                self.ask("next", serial)
        self.ask("sweep")

    def draw_blank(self):
        """A line without a token."""
        self.note(self.blank())

    def draw_fault(self):
        """A line that is refused as one."""
        drafts = [
            self.draft("insert", self.key(), self.tag()), self.draft("delete", 1), self.draft("move", 1, self.key()),
            self.draft("open", 4, self.query()), self.draft("follow", 4, 0, self.query()),
            self.draft("find", self.query()), self.draft("next", 1), self.draft("sweep"),
        ]
        self.note(self.fault(self.random.choice(drafts)))

    def many_cursors(self):
        """Opens cursors until some are refused, and closes most of them."""
        commits = len(self.session.commits)
        while len(self.session.cursors) < MOST_CURSORS:
            if self.chance(0.5):
                self.ask("open", 1, self.atom())
            else:
                self.ask("follow", 1, commits, self.atom())
        for room in (2, 0, MOST_ROOM, MOST_ROOM + 1):
            self.ask("open", room, self.atom())
            self.ask("follow", room, commits, self.atom())
            self.ask("follow", room, commits + 1, self.atom())
        for cursor in list(self.session.cursors)[8:]:
            self.ask("close", cursor)

    def drain(self, cursor):
        """Takes all that a cursor has left, and a mark."""
        self.ask("mark", cursor)
        while self.ask("next", cursor) != "empty":
            pass

    def settle(self):
        """Lets a cursor deliver all that is left; closes all, sweeps, and lets another cursor deliver every row."""
        for cursor in list(self.session.cursors)[:1]:
            self.drain(cursor)
        for cursor in list(self.session.cursors):
            self.ask("close", cursor)
        self.ask("sweep")
        self.ask("find", self.keys.everything())
        self.drain(int(self.ask("open", 4_096, self.keys.everything()).split(" ")[1]))
