"""Random lists of events: the lines that `gist replay` reads, and the answer to each by the slow model of a world.

Events are drawn by the model's state, so that trees grow, scans and finders meet splits, and mailboxes fill. About one
number in seven is drawn from 0 up to twice the greatest that was given, so that it is stale, foreign or valid by
chance.
"""
from random_lists.drawn_lines import Drawer
from models.keys import CLASSES
from random_lists.pcg import Pcg32
from models.world_model import MOST_CURSORS, MOST_FINDERS, MOST_ROOM, World

EVENTS = 2_000

# Of each event the kinds of its arguments: see Drawer
SHAPES = {
    "enlarge": "nnk", "place": "nkn", "split": "ns", "post": "nn", "grow": "s", "find": "n", "seek": "n", "move": "nnk",
    "unfind": "n", "sweep": "n", "open": "nq", "follow": "nfnq", "turn": "n", "askmark": "n", "take": "n", "close": "n",
}

# How often what is drawn comes
WEIGHTS = {
    "insert": 20, "place": 14, "page_step": 14, "grow": 1, "sweep": 2, "work_of_cursor": 11, "turn": 6, "take": 6,
    "askmark": 3, "slow_scan": 1, "open": 3, "close": 2, "find": 3, "seek": 5, "move": 5, "unfind": 0.5,
    "end_of_row": 5, "fault": 1, "blank": 0.3,
}

# Cursors that are open at the same time, in most lists
USUAL_CURSORS = 7


class TraceDrawer(Drawer):
    """Draws a list of events. `asked` are the lines, and `answers` those of the model, or of another of its kind."""

    def __init__(self, seed, model=World):
        random = Pcg32(seed)
        super().__init__(CLASSES[seed % len(CLASSES)], random, SHAPES)
        self.seed = seed
        self.fan = random.randint(4, 8)
        self.least = random.randint(2, self.fan // 2)
        self.world = model(self.keys, self.fan, self.least)
        self.asked = []
        self.answers = []

    def options(self):
        """The words that begin a world as the model's."""
        return ["--class", self.keys.name, "--fan", str(self.fan), "--least", str(self.least)]

    def ask(self, verb, *arguments):
        """Draws the line of an event, and returns its answer."""
        return self.note(self.finished(self.draft(verb, *arguments)))

    def note(self, line):
        """Gives the answer to a line, which is noted with it."""
        self.asked.append(line)
        self.answers.append(None if line.verb == "blank" else self.world.step(line))
        return self.answers[-1]

    def drawn(self):
        """Draws as many events as wanted, and then ends and sweeps everything."""
        acts, weights = zip(*WEIGHTS.items())
        crowds = {3: self.many_cursors, 7: self.many_finders}
        while len(self.asked) < EVENTS:
            if len(self.asked) > EVENTS // 2 and self.seed % 8 in crowds:
                crowds.pop(self.seed % 8)()
            getattr(self, "draw_" + self.random.choices(acts, weights)[0])()
        self.settle()
        return self

    def rows(self):
        """The rows that were made, by their numbers."""
        return self.world.commits.rows

    # Names

    def page_name(self, is_fitting):
        """Mostly the number of a page that fits."""
        pages = self.world.pages
        return self.name([page.number for page in pages if is_fitting(page)], len(pages) - 1)

    def is_roomy(self, page):
        """Whether a page takes another entry or branch."""
        return len(page.places) < self.fan

    def roomy_leaf(self):
        """Mostly the number of a leaf that takes a row."""
        return self.page_name(lambda page: page.level == 0 and self.is_roomy(page))

    def leaf_and_key(self):
        """Mostly the number of a leaf that takes a row, and mostly a key that its cover covers."""
        number = self.roomy_leaf()
        page = self.world.page(number)
        if page is None or page.cover is None or self.chance(0.1):
            return number, self.key()
        return number, self.key_inside(page.cover)

    def row_name(self):
        """Mostly the number of a row that lives, seldom that of one that ended."""
        commits = self.world.commits
        sensible = list(commits.ended) if self.chance(0.1) else [row.number for row in commits.live_rows()]
        return self.name(sensible, len(commits))

    def cursor_name(self):
        """Mostly the serial of one of the cursors that were opened last."""
        recent = list(self.world.cursors)[-3:] if self.chance(0.7) else list(self.world.cursors)
        return self.name(recent, self.world.last_cursor)

    def finder_name(self):
        """Mostly the serial of an open finder."""
        return self.name(list(self.world.finders), self.world.last_finder)

    def sides(self, count):
        """Mostly a word of as many letters as there are places, with enough on each side."""
        if self.chance(0.08):
            count += self.random.choice((-1, 1))
        letters = [self.random.choice("lr") for _ in range(max(count, 1))]
        if self.chance(0.9) and count >= 2 * self.least:
            letters = list("l" * self.least + "r" * self.least + "".join(letters[2 * self.least:]))
            self.random.shuffle(letters)
        return "".join(letters)

    # Steps of pages

    def draw_grow(self):
        """A growth of the root, whether it is full or not."""
        self.ask("grow", self.sides(self.fan))

    def draw_page_step(self):
        """A step of a page that isn't a commit."""
        root = self.world.pages[0]
        if len(root.places) == self.fan and self.chance(0.5):
            self.draw_grow()
            return
        self.random.choice((self.split, self.split, self.post, self.post, self.enlarge))()

    def split(self):
        """A split, mostly of a full page."""
        may_split = self.chance(0.8)
        number = self.page_name(lambda page: len(page.places) == self.fan and self.is_free(page) == may_split)
        page = self.world.page(number)
        self.ask("split", number, self.sides(len(page.places) if page else self.fan))

    def is_free(self, page):
        """Whether a page may be split as far as its siblings go."""
        return page.number > 0 and page.hung and not page.owed

    def post(self):
        """A posting, mostly of a page that owes one."""
        child = self.page_name(lambda page: page.owed)
        parent = self.page_name(lambda page: page.branch_to(child) is not None)
        self.ask("post", parent, child)

    def enlarge(self):
        """An enlargement, mostly of a branch by a key that the parent's cover covers."""
        parent = self.page_name(lambda page: page.level > 0)
        page = self.world.page(parent)
        children = [branch.child for branch in page.places] if page and page.level > 0 else []
        key = self.key() if page is None or page.cover is None or self.chance(0.2) else self.key_inside(page.cover)
        self.ask("enlarge", parent, self.name(children, len(self.world.pages) - 1), key)

    # Commits

    def draw_place(self):
        """An insert on some leaf, seldom on a page of any kind."""
        number, key = self.leaf_and_key()
        if self.chance(0.1):
            number, key = self.page_name(lambda page: page.cover is not None), self.key()
        self.ask("place", number, key, self.tag())

    def draw_insert(self):
        """The events of an insert: from the root down, with the steps that make room and widen bounds."""
        key = self.key()
        leaf = self.way(key)
        if leaf is not None:
            self.ask("place", leaf, key, self.tag())

    def way(self, key):
        """Goes down to a leaf and makes room on the way; gives its number, or None if a step was refused."""
        page = self.world.pages[0]
        if len(page.places) == self.fan and self.ask("grow", self.sides(self.fan)).startswith("refused"):
            return None
        while page.level > 0:
            covering = [branch.child for branch in page.places if self.keys.covers(branch.key, key)]
            child = self.world.pages[self.random.choice(covering or [branch.child for branch in page.places])]
            if not self.step_towards(page, child, key):
                return None
            if not child.owed and len(child.places) < self.fan:
                page = child
        return page.number

    def step_towards(self, page, child, key):
        """The step that is due before a way goes on from a page to its child; whether it came off, or none was due."""
        answer = "none"
        if child.owed:
            answer = self.ask("post", page.number, child.number)
        elif len(child.places) == self.fan:
            answer = self.ask("split", child.number, self.sides(self.fan))
        elif not self.keys.covers(child.cover, key):
            answer = self.ask("enlarge", page.number, child.number, key)
        return not answer.startswith("refused")

    def draw_sweep(self):
        """A sweep, mostly of a leaf with dead entries."""
        self.ask("sweep", self.page_name(lambda page: page.level == 0 and any(entry.died for entry in page.places)))

    # Finders

    def draw_find(self):
        """A finder."""
        self.ask("find", self.row_name())

    def draw_seek(self):
        """A visit of a finder that deletes."""
        self.ask("seek", self.finder_name())

    def draw_move(self):
        """A visit of a finder that moves."""
        self.ask("move", self.finder_name(), *self.leaf_and_key())

    def draw_unfind(self):
        """The end of a finder."""
        self.ask("unfind", self.finder_name())

    def draw_end_of_row(self):
        """A finder that goes on until it meets its row, or is refused."""
        answer = self.ask("find", self.row_name())
        if answer.startswith("refused"):
            return
        finder = int(answer.split(" ")[1])
        leaf, key = self.leaf_and_key()
        while answer.startswith(("finder", "seeking")):
            if self.chance(0.4):
                answer = self.ask("seek", finder)
            else:
                answer = self.ask("move", finder, leaf, key)

    # Cursors

    def draw_open(self):
        """A cursor, if not too many are open."""
        if len(self.world.cursors) > USUAL_CURSORS and self.chance(0.9):
            self.draw_close()
            return
        if self.chance(0.7):
            self.ask("open", self.room(), self.query())
            return
        commits = len(self.world.commits)
        commit = commits + 1 if self.chance(0.1) else self.name(range(commits + 1), commits + 1)
        self.ask("follow", self.room(), commit, self.query())

    def draw_turn(self):
        """A turn of a cursor."""
        self.ask("turn", self.cursor_name())

    def draw_take(self):
        """A take of a cursor."""
        self.ask("take", self.cursor_name())

    def draw_askmark(self):
        """A request for a mark."""
        self.ask("askmark", self.cursor_name())

    def draw_close(self):
        """A closing of a cursor, mostly of one with little left."""
        self.ask("close", self.cursor_name())

    def draw_work_of_cursor(self):
        """Some turns and takes of one cursor."""
        cursor = self.cursor_name()
        takes_often = self.random.choice((0.2, 0.5, 0.9))
        for _ in range(self.random.randrange(1, 16)):
            answer = self.ask("turn", cursor)
            while self.chance(takes_often) and self.has_mail(cursor):
                self.ask("take", cursor)
            if answer.startswith("refused") and self.chance(0.7):
                return

    def draw_slow_scan(self):
        """A cursor that reads a page now and then, while pages are split and rows come, go and are swept."""
        answer = self.ask("open", 1_000, self.keys.everything() if self.chance(0.6) else self.query())
        if answer.startswith("refused"):
            return
        cursor = int(answer.split(" ")[1])
        if self.chance(0.5):
            self.draw_end_of_row()
            self.draw_sweep()
        others = (self.draw_insert, self.draw_page_step, self.draw_end_of_row, self.draw_sweep, self.draw_sweep)
        for _ in range(self.random.randrange(10, 40)):
            if self.chance(0.1):
                self.split_twice(cursor)
            self.random.choice(others)()
            while self.ask("turn", cursor) == "offered" and self.chance(0.9):
                pass
            while self.has_mail(cursor) and self.chance(0.8):
                self.ask("take", cursor)

    def split_twice(self, cursor):
        """Fills a leaf that a cursor has still to visit, splits and posts it, and all that again."""
        stack = self.world.cursors[cursor].stack
        leaves = [page for page in (self.world.pages[number] for number, _ in stack) if page.level == 0 and page.cover]
        if not leaves:
            return
        leaf = self.random.choice(leaves)
        for _ in range(2):
            while len(leaf.places) < self.fan:
                self.ask("place", leaf.number, self.key_inside(leaf.cover), self.tag())
            self.ask("split", leaf.number, self.sides(self.fan))
            parents = [page.number for page in self.world.pages if page.branch_to(leaf.number)]
            if not parents or self.ask("post", parents[0], leaf.number).startswith("refused"):
                return

    def has_mail(self, cursor):
        """Whether an item waits in the mailbox of an open cursor."""
        return cursor in self.world.cursors and len(self.world.cursors[cursor].mailbox) > 0

    # Lines that are no events

    def draw_blank(self):
        """A line without a token."""
        self.note(self.blank())

    def draw_fault(self):
        """A line that is refused as one."""
        drafts = [
            self.draft("place", *self.leaf_and_key(), self.tag()), self.draft("split", 1, "llrr"),
            self.draft("grow", "llrr"), self.draft("find", self.row_name()), self.draft("close", self.cursor_name()),
            self.draft("enlarge", 0, 1, self.key()), self.draft("turn", self.cursor_name()), self.draft("post", 0, 1),
            self.draft("open", 4, self.query()), self.draft("follow", 4, 0, self.query()),
            self.draft("move", 1, 0, self.key()), self.draft("take", self.cursor_name()),
        ]
        self.note(self.fault(self.random.choice(drafts)))

    # Crowds and the end

    def many_cursors(self):
        """Opens cursors until some are refused, and then closes most of them."""
        while len(self.world.cursors) < MOST_CURSORS:
            self.draw_nth_cursor()
        commits = len(self.world.commits)
        for room in (2, 0, MOST_ROOM, MOST_ROOM + 1):
            self.ask("open", room, self.atom())
            self.ask("follow", room, commits, self.atom())
            self.ask("follow", room, commits + 1, self.atom())
        for cursor in list(self.world.cursors)[USUAL_CURSORS:]:
            self.ask("close", cursor)

    def draw_nth_cursor(self):
        """One of many cursors."""
        if self.chance(0.5):
            self.ask("open", 2, self.atom())
        else:
            self.ask("follow", 2, len(self.world.commits), self.atom())

    def many_finders(self):
        """Opens finders until some are refused, and then ends most of them."""
        live = [row.number for row in self.world.commits.live_rows()]
        while live and len(self.world.finders) < MOST_FINDERS:
            self.ask("find", self.random.choice(live))
        for row in [0, len(self.world.commits) + 1, *live[:1], *list(self.world.commits.ended)[:1]]:
            self.ask("find", row)
        for finder in list(self.world.finders)[8:]:
            self.ask("unfind", finder)

    def settle(self):
        """Lets a cursor deliver everything there is; then closes the cursors, ends the finders and sweeps all pages."""
        cursors = list(self.world.cursors)
        for cursor in cursors[:-1]:
            self.ask("close", cursor)
        for finder in list(self.world.finders) + [self.world.last_finder + 1]:
            self.ask("unfind", finder)
        for cursor in cursors[-1:]:
            self.drain(cursor)
            self.ask("close", cursor)
        for page in range(len(self.world.pages) + 1):
            self.ask("sweep", page)
        self.drain(int(self.ask("open", 4, self.keys.everything()).split(" ")[1]))

    def drain(self, cursor):
        """Takes all that a cursor has left, and a mark."""
        self.ask("askmark", cursor)
        while not self.ask("turn", cursor).startswith("refused 19"):
            while self.has_mail(cursor):
                self.ask("take", cursor)
        self.ask("take", cursor)
