"""Once the commits are used up nothing more can be committed, and everything else goes on."""
import time

from .talk import Program

MOST_COMMITS = 16_777_216

# Lines that are sent together, about
BATCH = 20_000

# A multiplier of a commit's number, by which keys are spread
SPREAD = 2_654_435_761

# Rows that one round of a replay places on the root. Each is deleted, so a round makes twice as many commits
ROUND = 128

# Rounds that are sent together
ROUNDS = 100


class Rows:
    """What the rows and the commits should be, in plain lists.

    There are as many places as live rows. A place keeps the number of its row; its tag is the place itself. A row's key
    follows from its number.
    """

    def __init__(self, count):
        self.count = count
        self.span = count * 100
        self.numbers = [0] * count
        self.commits = 0
        # How many rows ended since the last sweep
        self.dead = 0

    def ends(self, number):
        """The two ends of the key of a row."""
        low = number * SPREAD % self.span
        return low, low + number % 20

    def key(self, number):
        """A row's key."""
        low, high = self.ends(number)
        return f"({low} {high})"

    def numbered(self, first, last):
        """The numbers of the next commits, one for each place from the first to before the last."""
        made = range(self.commits + 1, self.commits + 1 + last - first)
        self.commits += last - first
        return made

    def insert(self, first, last):
        """The lines of inserts for places."""
        made = self.numbered(first, last)
        self.numbers[first:last] = made
        keys = [(it * SPREAD % self.span, it % 20) for it in made]
        return [f"insert ({low} {low + more}) {place}" for place, (low, more) in enumerate(keys, first)]

    def move(self, first, last):
        """The lines of moves of places' rows to other keys."""
        old, made = self.numbers[first:last], self.numbered(first, last)
        self.numbers[first:last] = made
        self.dead += last - first
        keys = [(it * SPREAD % self.span, it % 20) for it in made]
        return [f"move {row} ({low} {low + more})" for row, (low, more) in zip(old, keys)]

    def delete(self, first, last):
        """The lines of deletes of places' rows. Until the next insert the places have none."""
        old = self.numbers[first:last]
        self.numbered(first, last)
        self.numbers[first:last] = [0] * (last - first)
        self.dead += last - first
        return [f"delete {row}" for row in old]

    def matches(self, number, query):
        """Whether the key of a row overlaps an interval."""
        (begin, end), (low, high) = self.ends(number), query
        return begin <= high and low <= end

    def found(self, query):
        """The rows that overlap an interval, by rising number: number, key and tag."""
        live = sorted((number, place) for place, number in enumerate(self.numbers) if number)
        matching = [(number, place) for number, place in live if self.matches(number, query)]
        return [f"row {number} {self.key(number)} {place}" for number, place in matching]


class Change:
    """A commit, and what it means to a cursor."""

    def __init__(self, rows, step, place):
        self.rows = rows
        self.place = place
        self.ended = rows.numbers[place]
        self.line, = step(place, place + 1)
        self.made = rows.numbers[place]
        self.number = rows.commits

    def item(self, query):
        """The item for an interval's cursor, if there is one."""
        is_ended = self.ended and self.rows.matches(self.ended, query)
        is_made = self.made and self.rows.matches(self.made, query)
        if is_ended and is_made:
            return f"moved {self.number} {self.ended} {self.rows.key(self.made)} {self.place}"
        if is_ended:
            return f"deleted {self.number} {self.ended}"
        return f"inserted {self.number} {self.rows.key(self.made)} {self.place}" if is_made else None


def items(changes, query):
    """What changes mean to a cursor."""
    return [item for item in (change.item(query) for change in changes) if item]


class Trial:
    """The program, and the rows that it should have."""

    def __init__(self, program, rows, most):
        self.program = program
        self.rows = rows
        self.most = most
        self.began = time.monotonic()
        # Lines that are still to be given to the program, and the expected answers
        self.lines, self.answers = [], []

    def tell(self, what):
        """Shows how far the trial is."""
        clock, held, seconds = time.monotonic() - self.began, self.program.held() / 1e6, self.program.seconds()
        commits = f"{self.rows.commits:>11,} commits"
        print(f"{clock:7.1f} s {commits} {held:>6,.0f} MB {seconds:>6.1f} s of the processor  {what}", flush=True)

    def give(self):
        """Gives the program all lines that are still to be given."""
        self.program.answer(self.lines, self.answers)
        self.lines, self.answers = [], []

    def commit(self, lines):
        """Gives lines to the program, each of which commits, now or together with later ones."""
        first = self.rows.commits - len(lines) + 1
        self.lines += lines
        self.answers += [f"committed {number}" for number in range(first, self.rows.commits + 1)]
        if len(self.lines) >= BATCH:
            self.give()

    def sweep(self):
        """A sweep removes all dead rows: no cursor has a scan that isn't over."""
        self.lines.append("sweep")
        self.answers.append(f"swept {self.rows.dead}")
        self.rows.dead = 0

    def go_over(self, step, most):
        """Commits once for each place, while there are fewer commits than the limit."""
        for first in range(0, self.rows.count, BATCH):
            left = max(most - self.rows.commits, 0)
            last = min(first + BATCH, self.rows.count, first + left)
            if first < last:
                self.commit(step(first, last))

    def replace(self):
        """Deletes each row and inserts a new one."""
        for first in range(0, self.rows.count, BATCH):
            last = min(first + BATCH, self.rows.count)
            self.commit(self.rows.delete(first, last))
            self.commit(self.rows.insert(first, last))

    def fill(self, most):
        """Commits until there are `most` commits."""
        self.go_over(self.rows.insert, most)
        shown = self.rows.commits
        self.tell("rows are inserted; they are deleted and inserted anew, and moved, and the dead are swept")
        while self.rows.commits + 2 * self.rows.count < most:
            self.replace()
            self.sweep()
            self.go_over(self.rows.move, most)
            self.sweep()
            if self.rows.commits >= shown + self.most // 8:
                shown = self.rows.commits
                self.tell("")
        while self.rows.commits < most:
            self.go_over(self.rows.move, most)
            self.sweep()
        self.give()
        self.tell("all but the last eight commits are made")

    def change(self, step, place):
        """Gives one line that commits."""
        change = Change(self.rows, step, place)
        self.commit([change.line])
        self.give()
        return change

    def last_changes(self):
        """The last eight commits: deletes, inserts and moves. One place is left without a row."""
        rows = self.rows
        steps = (
            (rows.delete, 0),
            (rows.insert, 0),
            (rows.move, 1),
            (rows.move, 2),
            (rows.delete, 3),
            (rows.insert, 3),
            (rows.delete, 4),
            (rows.move, 5),
        )
        return [self.change(step, place) for step, place in steps]

    def writes_are_refused(self, changes):
        """No line commits any more, and what is wrong with a line is reported as before."""
        rows = self.rows
        live = rows.numbers[7]
        ended = changes[0].ended
        self.program.answer_all([
            ("insert (5 5) 0", "refused 4 CommitsFull"),
            (f"insert {rows.key(live)} 7", "refused 4 CommitsFull"),
            (f"delete {live}", "refused 4 CommitsFull"),
            (f"move {live} (5 5)", "refused 4 CommitsFull"),
            (f"move {live} {rows.key(live)}", "refused 4 CommitsFull"),
            (f"delete {ended}", "refused 15 AlreadyDeleted"),
            (f"move {ended} (5 5)", "refused 15 AlreadyDeleted"),
            (f"delete {changes[0].number}", "refused 14 NoSuchRow"),
            (f"move {self.most + 1} (5 5)", "refused 14 NoSuchRow"),
            ("delete 0", "refused 14 NoSuchRow"),
            ("insert (6 5) 0", "refused 22 Line 7"),
        ])

    def find(self, query):
        """All rows of an interval are found."""
        found = self.rows.found(query)
        self.program.answer([f"find overlaps({query[0]} {query[1]})"], [f"found {len(found)}"] + found)
        return len(found)

    def read_cursor(self, cursor, snapshot, changes):
        """A cursor delivers its snapshot, the changes, a mark and then nothing."""
        self.program.answer_in_any_order([f"next {cursor}"] * len(snapshot), snapshot)
        self.program.answer([f"next {cursor}"] * len(changes), changes)
        self.program.answer([f"mark {cursor}"], ["asked"])
        self.program.answer([f"next {cursor}"] * 2, [f"mark {self.most}", "empty"])

    def close(self, cursor):
        """Closes a cursor, which then delivers nothing more."""
        self.program.answer([f"close {cursor}", f"next {cursor}"], ["closed", "refused 17 CursorClosed"])


def show_limit(trial):
    """What is refused, and what is answered, once there are as many commits as may be."""
    rows = trial.rows
    everything = (0, rows.span + 20)
    low = rows.ends(rows.numbers[1])[0]
    nearby = (max(low - 500, 0), low + 500)
    snapshot = rows.found(nearby)
    trial.program.answer([f"open 4 overlaps({nearby[0]} {nearby[1]})"], ["opened 1"])
    before = rows.commits
    changes = trial.last_changes()
    trial.writes_are_refused(changes)
    trial.find(everything)
    trial.find(nearby)
    # The cursor that was opened first has pages left to visit, so no row that ended since then may go.
    trial.program.answer(["sweep"], ["swept 0"])
    trial.read_cursor(1, snapshot, items(changes, nearby))
    trial.close(1)
    trial.program.answer_all([
        (f"open 4 overlaps({nearby[0]} {nearby[1]})", "opened 2"),
        (f"open 4 from {before} overlaps({everything[0]} {everything[1]})", "opened 3"),
        (f"open 4 from {trial.most} overlaps(0 9)", "opened 4"),
        (f"open 4 from {trial.most + 1} overlaps(0 9)", "refused 23 FromFuture"),
    ])
    trial.read_cursor(2, rows.found(nearby), [])
    trial.read_cursor(3, [], items(changes, everything))
    trial.read_cursor(4, [], [])
    for cursor in (2, 3, 4):
        trial.close(cursor)
    trial.sweep()
    trial.sweep()
    trial.give()
    trial.find(everything)
    trial.writes_are_refused(changes)
    trial.tell("inserts, deletes and moves are refused; finds, cursors, marks and sweeps go on")


def commits_of_a_store(path, count=2_000, most=MOST_COMMITS):
    """A session makes all its commits, with `count` live rows, and goes on with all that makes none."""
    with Program(path, "serve", "--fan", "32", "--least", "12") as program:
        trial = Trial(program, Rows(count), most)
        trial.fill(most - 8)
        show_limit(trial)
        program.end()


def commits_of_a_store_of_many_rows(path):
    """The same with 400,000 live rows."""
    commits_of_a_store(path, 400_000)


class Root:
    """A replay whose root is a leaf on which rows are placed, deleted by finders, and swept."""

    def __init__(self, program):
        self.program = program
        self.commits = 0
        self.finders = 0

    def lines(self, count):
        """The lines that place `count` rows and delete each, and what is answered."""
        first, finder = self.commits + 1, self.finders + 1
        self.commits += 2 * count
        self.finders += count
        given = ["place 0 (5 5) 0\n" * count]
        given += [f"find {first + it}\nseek {finder + it}\n" for it in range(count)]
        due = [f"committed {it}\n" for it in range(first, first + count)]
        due += [f"finder {finder + it}\ncommitted {first + count + it}\n" for it in range(count)]
        return "".join(given) + "sweep 0\n", "".join(due) + f"swept {count}\n"

    def rounds(self, count, rows):
        """Places `rows` rows and deletes them, `count` times."""
        pairs = [self.lines(rows) for _ in range(count)]
        given, due = ("".join(side).encode("ascii") for side in zip(*pairs))
        self.program.answer_text(given, due)

    def fill(self, left):
        """Rounds until `left` commits are left."""
        rounds = (MOST_COMMITS - left) // ROUND
        while rounds:
            self.rounds(min(rounds, ROUNDS), ROUND // 2)
            rounds -= min(rounds, ROUNDS)


def commits_of_a_replay(path):
    """The last commit that fits deletes a row. A finder that reads a page without its row goes on then, one that meets
    its row is refused and stays, and neither a sweep nor a cursor needs a commit."""
    with Program(path, "replay", "--fan", "64", "--least", "24") as program:
        root = Root(program)
        root.fill(ROUND)
        root.rounds(1, 31)
        show_last_events(program, root.commits, root.finders)
        program.end()


def show_last_events(program, commits, finders):
    """The last 66 commits of a replay, and what is answered then. Row `low` is on page 1, and `high` on page 2."""
    low, high, most = commits + 2, commits + 33, commits + 66
    program.answer_all([
        *[("place 0 (1 1) 0", f"committed {commits + it}") for it in range(1, 33)],
        *[("place 0 (3 3) 0", f"committed {commits + it}") for it in range(33, 65)],
        (f"grow {'l' * 32}{'r' * 32}", "grown 1 2"),
        (f"find {low - 1}", f"finder {finders + 1}"),
        (f"seek {finders + 1}", "seeking"),
        (f"seek {finders + 1}", f"committed {most - 1}"),
        (f"find {high}", f"finder {finders + 2}"),
        (f"find {high}", f"finder {finders + 3}"),
        (f"find {low}", f"finder {finders + 4}"),
        (f"seek {finders + 2}", "seeking"),
        (f"seek {finders + 3}", "seeking"),
        (f"seek {finders + 2}", f"committed {most}"),
        (f"find {high}", "refused 15 AlreadyDeleted"),
        (f"seek {finders + 3}", "refused 15 AlreadyDeleted"),
        (f"seek {finders + 4}", "seeking"),
        (f"seek {finders + 4}", "refused 4 CommitsFull"),
        (f"seek {finders + 4}", "refused 4 CommitsFull"),
        (f"move {finders + 4} 0 (1 1)", "refused 7 NotHere"),
        (f"move {finders + 4} 2 (1 1)", "refused 10 Uncovered"),
        (f"move {finders + 4} 2 (3 3)", "refused 4 CommitsFull"),
        (f"move {finders + 4} 1 (1 1)", "refused 4 CommitsFull"),
        (f"find {low}", f"finder {finders + 5}"),
        (f"unfind {finders + 4}", "unfound"),
        ("place 0 (1 1) 0", "refused 7 NotHere"),
        ("place 1 (9 9) 0", "refused 10 Uncovered"),
        ("place 1 (1 1) 0", "refused 4 CommitsFull"),
        ("sweep 1", "swept 1"),
        ("sweep 2", "swept 1"),
        ("open 0 overlaps(0 9)", "refused 2 BadConfig"),
        ("open 4097 overlaps(0 9)", "refused 2 BadConfig"),
        ("open 4096 overlaps(0 9)", "opened 1"),
        (f"open 4 from {most + 1} overlaps(0 9)", "refused 23 FromFuture"),
        (f"open 4 from {most - 1} overlaps(0 9)", "opened 2"),
        ("turn 2", "offered"),
        ("take 2", f"deleted {most} {high}"),
        ("askmark 2", "asked"),
        ("turn 2", "offered"),
        ("take 2", f"mark {most}"),
        ("turn 2", "refused 19 Idle"),
        ("split 0 llrr", "refused 7 NotHere"),
        ("enlarge 0 1 (9 9)", "enlarged"),
    ])
