"""As many cursors and finders as may be open, mailboxes that are full, and lists that outgrow their first room."""
from .talk import Program
from .trees import Growing

CURSORS = 256
FINDERS = 64
WIDEST = ("--fan", "64", "--least", "2")

# The greatest room of a mailbox
ROOM = 4_096


def numbered(first, last, line, answer):
    """A line with its answer for each number, which takes the place of each #."""
    return [(line.replace("#", str(number)), answer.replace("#", str(number))) for number in range(first, last + 1)]


def sweeps_that_remove_nothing(path):
    """Sweeps of a page without a dead row, before and after an opening."""
    with Program(path, "replay", *WIDEST) as program:
        for line, answer in (
            ("sweep 0", "swept 0"),
            ("open 1 overlaps(0 9)", "opened 1"),
            ("sweep 0", "swept 0"),
            ("place 0 (5 5) 0", "committed 1"),
            ("sweep 0", "swept 0"),
            ("close 1", "closed"),
            ("sweep 0", "swept 0"),
        ):
            program.answer([line], [answer])
        program.end()


def cursors_that_are_used_up(path):
    """256 cursors are open, and the next is refused until one is closed."""
    with Program(path, "replay", *WIDEST) as program:
        program.answer_all([
            *numbered(1, CURSORS, "open 1 overlaps(0 9)", "opened #"),
            ("open 1 overlaps(0 9)", "refused 5 CursorsFull"),
            ("open 1 from 0 overlaps(0 9)", "refused 5 CursorsFull"),
            ("close 7", "closed"),
            ("open 1 overlaps(0 9)", "opened 257"),
            ("open 1 overlaps(0 9)", "refused 5 CursorsFull"),
            ("turn 7", "refused 17 CursorClosed"),
            *numbered(256, 257, "turn #", "visited 0"),
        ])
        program.end()
    with Program(path, "serve") as program:
        program.answer_all([
            ("insert (5 5) 0", "committed 1"),
            *numbered(1, CURSORS, "open 1 overlaps(0 9)", "opened #"),
            ("open 1 overlaps(0 9)", "refused 5 CursorsFull"),
            ("open 1 from 1 overlaps(0 9)", "refused 5 CursorsFull"),
            ("close 7", "closed"),
            ("open 1 from 1 overlaps(0 9)", "opened 257"),
            ("open 1 overlaps(0 9)", "refused 5 CursorsFull"),
            ("next 7", "refused 17 CursorClosed"),
            ("next 256", "row 1 (5 5) 0"),
            ("next 257", "empty"),
        ])
        program.end()


def open_one_after_the_other(program, count):
    """Opens cursors with the greatest room when there is no row that they match, and closes each before the next."""
    for first in range(1, count + 1, 1_000):
        serials = range(first, first + 1_000)
        lines = [line for serial in serials for line in (f"open {ROOM} same(-1 -1)", f"next {serial}", f"close {serial}")]
        program.answer(lines, [answer for serial in serials for answer in (f"opened {serial}", "empty", "closed")])


def cursors_one_after_the_other(path):
    """More cursors than 16 bits can number, one open at a time."""
    with Program(path, "serve") as program:
        open_one_after_the_other(program, 70_000)
        program.answer(["next 1", "next 65536", "next 70001"], ["refused 17 CursorClosed", "refused 17 CursorClosed", "refused 16 NoSuchCursor"])
        program.end()


def finders_of_a_row_each(path):
    """64 finders are open, each of another row, and the next is refused until one is ended."""
    with Program(path, "replay", *WIDEST) as program:
        for number in range(1, FINDERS + 1):
            program.answer_all([("place 0 (5 5) 0", f"committed {number}"), (f"find {number}", f"finder {number}")])
        program.answer_all([
            ("find 1", "refused 6 FindersFull"),
            ("unfind 7", "unfound"),
            ("find 7", "finder 65"),
            ("find 1", "refused 6 FindersFull"),
            *[(f"seek {finder}", f"committed {57 + finder}") for finder in range(8, 66)],
            *numbered(7, 64, "find #", "refused 15 AlreadyDeleted"),
            ("sweep 0", "swept 58"),
        ])
        program.end()


def finders_of_one_row(path):
    """64 finders of one row: the first that meets it deletes it."""
    with Program(path, "replay", *WIDEST) as program:
        program.answer_all([
            *numbered(1, 2, "place 0 (# #) 0", "committed #"),
            *numbered(1, FINDERS, "find 1", "finder #"),
            ("find 1", "refused 6 FindersFull"),
            ("find 3", "refused 14 NoSuchRow"),
            ("unfind 65", "refused 20 NoSuchFinder"),
            ("unfind 3", "unfound"),
            ("find 1", "finder 65"),
            ("find 2", "refused 6 FindersFull"),
            ("seek 65", "committed 3"),
            ("find 2", "finder 66"),
            ("find 2", "refused 6 FindersFull"),
            ("find 1", "refused 15 AlreadyDeleted"),
            ("seek 64", "refused 15 AlreadyDeleted"),
            ("seek 66", "committed 4"),
            ("find 2", "refused 15 AlreadyDeleted"),
        ])
        program.end()


def two_finders_of_each_row(path):
    """Finders 2 and 34 seek row 2, and so on; deletes and moves end their own, and no other."""
    with Program(path, "replay", *WIDEST) as program:
        program.answer_all([
            *numbered(1, 32, "place 0 (5 5) 0", "committed #"),
            *numbered(1, 32, "find #", "finder #"),
            *[(f"find {finder - 32}", f"finder {finder}") for finder in range(33, 65)],
            ("find 1", "refused 6 FindersFull"),
            ("find 0", "refused 14 NoSuchRow"),
            ("find 33", "refused 14 NoSuchRow"),
            ("place 0 (5 5) 0", "committed 33"),
            ("find 33", "refused 6 FindersFull"),
            ("unfind 7", "unfound"),
            ("find 33", "finder 65"),
            ("find 33", "refused 6 FindersFull"),
            ("seek 65", "committed 34"),
            ("open 4 from 33 overlaps(0 9)", "opened 1"),
            ("turn 1", "offered"),
            ("take 1", "deleted 34 33"),
            ("find 33", "refused 15 AlreadyDeleted"),
            ("find 2", "finder 66"),
            ("find 2", "refused 6 FindersFull"),
            ("move 2 0 (5 5)", "committed 35"),
            ("turn 1", "offered"),
            ("take 1", "moved 35 2 (5 5) 0"),
            # A finder whose row ended stays open.
            ("seek 34", "refused 15 AlreadyDeleted"),
            ("move 66 0 (5 5)", "refused 15 AlreadyDeleted"),
            ("find 35", "finder 67"),
            ("find 35", "refused 6 FindersFull"),
            ("unfind 34", "unfound"),
            ("seek 34", "refused 20 NoSuchFinder"),
            ("find 35", "finder 68"),
            ("find 35", "refused 6 FindersFull"),
        ])
        program.end()


def widened():
    """Lines that give the root 64 children, and their leaves 188 rows: 62 on the first, two on each other."""
    sides = "l" * 62 + "rr"
    pairs = numbered(1, 64, "place 0 (5 5) 0", "committed #") + [(f"grow {sides}", "grown 1 2")]
    for page in range(3, 65):
        first = 2 * page + 59
        pairs += numbered(first, first + 1, "place 1 (5 5) 0", "committed #")
        pairs += [(f"split 1 {sides}", f"split {page}"), ("post 0 1", "posted")]
    return pairs


def each_number_of_rows(path):
    """Each number of rows up to 64 on a page is found at once, by a find and by the visit of a cursor."""
    with Program(path, "serve", *WIDEST) as program:
        rows = []
        for number in range(1, 65):
            rows.append(f"row {number} (5 5) {3 * number}")
            program.answer([f"insert (5 5) {3 * number}", "find overlaps(0 9)"], [f"committed {number}", f"found {number}", *rows])
        program.end()
    with Program(path, "replay", *WIDEST) as program:
        for number in range(1, 65):
            program.answer_all([
                (f"place 0 (5 5) {number}", f"committed {number}"),
                ("open 1 overlaps(0 9)", f"opened {number}"),
                (f"turn {number}", "visited 0"),
                (f"turn {number}", "offered"),
                (f"close {number}", "closed"),
            ])
        program.end()


def answers_of_each_size(path):
    """The rows below a point are shown by rising number, however many they are: none to 600, and all. The points are those of a
    prime's multiples, so neighbours have numbers that lie far apart, of one, two and three bytes.
    """
    prime, step = 70_001, 27_644
    points = [number * step % prime for number in range(1, prime)]
    numbers = {point: number for number, point in enumerate(points, 1)}
    with Program(path, "serve") as program:
        program.answer([f"insert ({point} {point}) 0" for point in points], [f"committed {number}" for number in range(1, prime)])
        for size in (*range(601), prime - 1):
            shown = sorted(numbers[point] for point in range(1, size + 1))
            rows = [f"row {number} ({points[number - 1]} {points[number - 1]}) 0" for number in shown]
            program.answer([f"find overlaps(0 {size})"], [f"found {size}", *rows])
        program.end()


def first_visits(number):
    """A cursor's first turn and a finder's first visit read the root: then each has all its children to visit."""
    return [
        ("open 1 overlaps(0 9)", f"opened {number}"),
        (f"turn {number}", "visited 0"),
        (f"close {number}", "closed"),
        ("find 1", f"finder {number}"),
        (f"seek {number}", "seeking"),
        (f"unfind {number}", "unfound"),
    ]


def each_number_of_pages(path):
    """A scan and a finder that have 2 pages to visit at once, 3, and so on to 64. Of the root's 64 children one is enlarged."""
    with Program(path, "replay", *WIDEST) as program:
        number = 0
        for line, answer in widened():
            program.answer([line], [answer])
            if line.startswith(("grow", "post")):
                number += 1
                program.answer_all(first_visits(number))
        program.answer_all([
            ("enlarge 0 64 (5 6)", "enlarged"),
            ("place 64 (5 6) 0", "committed 189"),
            ("open 1 same(5 6)", "opened 64"),
        ])
        program.end()


def sixty_four_pages_before_a_scan(path):
    """A scan that has 64 pages to visit at once."""
    with Program(path, "replay", *WIDEST) as program:
        program.answer_all(widened())
        program.answer_all([("open 188 overlaps(0 9)", "opened 1"), ("turn 1", "visited 0")])
        visits = [f"visited {page}" for page in range(1, 65)]
        program.answer_in_any_order(["turn 1"] * (64 + 188), visits + ["offered"] * 188)
        program.answer(["turn 1"], ["refused 19 Idle"])
        program.answer_in_any_order(["take 1"] * 188, [f"row {row} (5 5) 0" for row in range(1, 189)])
        program.answer(["take 1"], ["nothing"])
        program.end()


def sixty_four_pages_before_a_finder(path):
    """A finder that has 64 pages to visit at once; the last holds its row."""
    with Program(path, "replay", *WIDEST) as program:
        program.answer_all(widened())
        program.answer_all([("find 188", "finder 1"), *[("seek 1", "seeking")] * 64, ("seek 1", "committed 189")])
        program.end()


class Crowd:
    """As many cursors as may be open, each with the greatest room. Each other one follows all commits."""

    def __init__(self, program, count, first):
        self.program = program
        self.tree = Growing(64, 24)
        self.cursors = range(1, count + 1)
        # How many rows there are at the opening
        self.first = first
        # The commit of a row that no cursor matches
        self.passed = None

    def place_up_to(self, last):
        """Places rows up to one with a number."""
        self.tree.place_up_to(last)
        self.program.answer_all(self.tree.taken())

    def place_elsewhere(self):
        """Places a row that no cursor matches."""
        self.tree.place_elsewhere("(20000 20000)")
        self.passed = self.tree.commits
        self.program.answer_all(self.tree.taken())

    def open(self, follows, answer):
        """Asks for one cursor more."""
        self.program.answer([f"open {ROOM} {'from 0 ' if follows else ''}overlaps(0 9)"], [answer])

    def open_all(self):
        """Opens the cursors."""
        for cursor in self.cursors:
            self.open(cursor % 2 == 0, f"opened {cursor}")

    def each(self, line, answer):
        """One line for each cursor; all are answered alike."""
        self.program.answer([line.replace("#", str(cursor)) for cursor in self.cursors], [answer] * len(self.cursors))

    def scan(self):
        """Each cursor meets the rows of its opening, and has no more to do."""
        visits = [f"visited {page}" for page in range(len(self.tree.entries))]
        for cursor in self.cursors:
            answers = ["offered"] * self.first + ([] if cursor % 2 == 0 else visits)
            self.program.answer_in_any_order([f"turn {cursor}"] * len(answers), answers)
        self.each("turn #", "refused 19 Idle")

    def fill(self, count):
        """Each cursor is offered `count` more items, and then has no more to do."""
        for cursor in self.cursors:
            self.program.answer([f"turn {cursor}"] * count, ["offered"] * count)
        self.each("turn #", "refused 19 Idle")

    def rows(self, word, first, last):
        """The lines of the rows from one to another, without the one that no cursor matches."""
        return [f"{word} {row} (5 5) {3 * row}" for row in range(first, last + 1) if row != self.passed]

    def empty(self, cursor):
        """One item is taken, so one more is offered; then all are taken, and no item is lost."""
        behind = self.first if cursor % 2 == 1 else 0
        inserts = self.rows("inserted", behind + 1, self.tree.commits)
        snapshot = self.rows("row", 1, behind)
        take, turn = f"take {cursor}", f"turn {cursor}"
        if snapshot:
            given = [take, turn, turn] + [take] * (behind - 1)
            self.program.answer_in_any_order(given, [*snapshot, "offered", "refused 18 NoRoom"])
        else:
            first = inserts.pop(0)
            self.program.answer([take, turn, turn], [first, "offered", "refused 18 NoRoom"])
        self.program.answer([take] * (len(inserts) + 1), [*inserts, "nothing"])


def full_mailboxes(path, count=CURSORS, first=2_000):
    """256 cursors with 4,096 items each in their mailboxes lose nothing."""
    with Program(path, "replay", "--fan", "64", "--least", "24") as program:
        crowd = Crowd(program, count, first)
        crowd.place_up_to(first)
        crowd.open_all()
        crowd.open(False, "refused 5 CursorsFull")
        crowd.scan()
        crowd.place_up_to(ROOM)
        crowd.fill(ROOM - first)
        # Each mailbox is full now, and nothing is left to be offered.
        crowd.open(False, "refused 5 CursorsFull")
        crowd.place_elsewhere()
        crowd.each("turn #", f"passed {ROOM + 1}")
        crowd.each("turn #", "refused 19 Idle")
        # Now there is something to be offered, for which there is no room.
        crowd.place_up_to(ROOM + 2)
        crowd.each("turn #", "refused 18 NoRoom")
        crowd.each("turn #", "refused 18 NoRoom")
        crowd.each("askmark #", "asked")
        crowd.each("turn #", "refused 18 NoRoom")
        crowd.open(False, "refused 5 CursorsFull")
        crowd.open(True, "refused 5 CursorsFull")
        program.answer([f"close {count}"], ["closed"])
        crowd.cursors = range(1, count)
        crowd.open(True, f"opened {count + 1}")
        crowd.open(False, "refused 5 CursorsFull")
        for cursor in crowd.cursors:
            crowd.empty(cursor)
        crowd.each("turn #", "offered")
        crowd.each("take #", f"mark {ROOM + 2}")
        crowd.each("take #", "nothing")
        program.end()
