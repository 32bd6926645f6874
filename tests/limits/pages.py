"""Once the pages are used up everything that needs no page goes on."""
from .talk import Program, Wrong
from .trees import Growing

PAGES = 65_536
SMALLEST = ("--fan", "4", "--least", "2")
EVERYTHING = "overlaps(0 10000000)"


class Filled:
    """A store that is filled, and the rows and changes that it should have. Rows inserted after the filling have points as keys.

    Each row that fills it is ten points after the one before. A full leaf is split in the middle, so each leaf
    but the last is left with two rows: rows 1 and 2, rows 3 and 4 and so on. If both live, there is room for two more.
    """

    def __init__(self, program):
        self.program = program
        # How many rows filled the store
        self.first = 0
        # The point and the tag of each live row, by its number
        self.rows = {}
        # What the commits since then mean to a cursor of all points
        self.changes = []

    def insert_up_to(self, last):
        """Inserts rows; none is refused."""
        numbers = range(self.first + 1, last + 1)
        lines = [f"insert ({10 * it} {10 * it}) {3 * it}" for it in numbers]
        self.program.answer(lines, [f"committed {it}" for it in numbers])
        self.note(last)

    def note(self, last):
        """Notes the rows that filled the store up to one."""
        self.rows.update({it: (10 * it, 3 * it) for it in range(self.first + 1, last + 1)})
        self.first = last

    def fill(self, sure):
        """Inserts rows until one is refused with PagesFull. The first `sure` can't be."""
        self.insert_up_to(sure)
        while True:
            number = self.first + 1
            self.program.write(f"insert ({10 * number} {10 * number}) {3 * number}\n".encode("ascii"))
            told = b""
            while not told.endswith(b"\n"):
                block = self.program.read(1)
                if not block:
                    raise Wrong(f"the row {number} has no answer")
                told += block
            if told == b"refused 3 PagesFull\n":
                return
            if told != f"committed {number}\n".encode("ascii"):
                raise Wrong(f"the row {number} is answered {told!r}")
            self.note(number)

    def number(self, behind):
        """The number of a commit, by its place after those that filled the store."""
        return self.first + behind

    def commit(self, line, row=None, ended=None):
        """Gives a line that commits: it makes a row, ends one or both."""
        number = self.number(len(self.changes) + 1)
        self.program.answer([line], [f"committed {number}"])
        tag = self.rows.pop(ended)[1] if ended else None
        if row is None:
            self.changes.append(f"deleted {number} {ended}")
            return
        point, tag = row, 7 if tag is None else tag
        self.rows[number] = point, tag
        told = f"inserted {number}" if ended is None else f"moved {number} {ended}"
        self.changes.append(f"{told} ({point} {point}) {tag}")

    def insert(self, point):
        """Inserts a row, which has room."""
        self.commit(f"insert ({point} {point}) 7", row=point)

    def delete(self, row):
        """Deletes a row."""
        self.commit(f"delete {row}", ended=row)

    def move(self, row, point):
        """Moves a row to a point whose leaf has room."""
        self.commit(f"move {row} ({point} {point})", row=point, ended=row)

    def refuse(self, line, why):
        """Gives a line that is refused."""
        self.program.answer([line], [f"refused {why}"])

    def refuse_insert(self, point):
        """Inserts a row for which there is no room."""
        self.refuse(f"insert ({point} {point}) 7", "3 PagesFull")

    def refuse_next(self):
        """Inserts the row that was the first to be refused."""
        self.refuse_insert(10 * self.first + 10)

    def sweep(self, count):
        """A sweep removes this many rows."""
        self.program.answer(["sweep"], [f"swept {count}"])

    def find(self):
        """All rows are found."""
        rows = [f"row {number} ({point} {point}) {tag}" for number, (point, tag) in sorted(self.rows.items())]
        self.program.answer([f"find {EVERYTHING}"], [f"found {len(rows)}", *rows])

    def give_all(self, cursor):
        """A cursor delivers each row that filled the store, and then the changes."""
        rows = [f"row {it} ({10 * it} {10 * it}) {3 * it}" for it in range(1, self.first + 1)]
        self.program.answer_in_any_order([f"next {cursor}"] * len(rows), rows)
        self.give(cursor, self.changes)

    def give(self, cursor, items):
        """A cursor delivers some items, and then nothing."""
        self.program.answer([f"next {cursor}"] * (len(items) + 1), [*items, "empty"])


def use_up(filled):
    """What is answered once a store is filled. Rows 1 and 2 are on one leaf, at the points 10 and 20."""
    first = filled.first
    filled.find()
    filled.refuse_next()
    filled.refuse_next()
    filled.program.answer([f"open 4 {EVERYTHING}"], ["opened 1"])
    filled.insert(15)
    filled.insert(16)
    filled.refuse_insert(17)
    filled.find()
    # A dead row takes its place until a sweep.
    filled.delete(1)
    filled.refuse_insert(17)
    filled.refuse(f"move {first + 1} (17 17)", "3 PagesFull")
    filled.sweep(0)
    filled.refuse_insert(17)
    filled.give_all(1)
    filled.sweep(1)
    filled.sweep(0)
    filled.insert(17)
    filled.refuse_insert(18)
    filled.find()


def move_on(filled):
    """A move needs a place for its row, too, also on the leaf from which it goes."""
    first = filled.first
    filled.refuse("move 2 (18 18)", "3 PagesFull")
    filled.move(2, 1_995)
    filled.refuse("move 2 (1995 1995)", "15 AlreadyDeleted")
    filled.refuse(f"move {first + 9} (1995 1995)", "14 NoSuchRow")
    filled.refuse_insert(18)
    filled.sweep(1)
    filled.move(first + 5, 18)
    filled.refuse_insert(19)
    filled.sweep(1)
    filled.insert(1_996)
    filled.insert(1_997)
    filled.refuse_insert(1_998)
    filled.delete(first + 8)
    filled.refuse(f"delete {first + 8}", "15 AlreadyDeleted")
    filled.refuse(f"delete {first + 10}", "14 NoSuchRow")
    filled.find()


def follow(filled):
    """Cursors go on, too."""
    filled.refuse(f"open 4 from {filled.number(10)} {EVERYTHING}", "23 FromFuture")
    filled.program.answer([f"open 4 from {filled.first} {EVERYTHING}", "mark 1"], ["opened 2", "asked"])
    filled.give(2, filled.changes)
    filled.give(1, [*filled.changes[3:], f"mark {filled.number(9)}"])
    filled.program.answer(["close 1"], ["closed"])
    filled.refuse_next()


def pages_of_a_store(path):
    """A store has all its pages; once they are used up, what needs no page is answered as before."""
    with Program(path, "serve", *SMALLEST) as program:
        filled = Filled(program)
        # A tree has at most one page more than commits, and is refused one only if fewer than two are left.
        filled.fill(PAGES - 2)
        use_up(filled)
        move_on(filled)
        follow(filled)
        program.end()


def split_alone(tree, page):
    """Fills up a leaf that has two rows, and splits it, without a posting to its parent."""
    tree.give(f"place {page} (5 5) 0", f"committed {tree.commits + 1}")
    tree.give(f"place {page} (5 5) 0", f"committed {tree.commits + 2}")
    tree.commits += 2
    tree.give(f"split {page} llrr", f"split {len(tree.entries)}")
    tree.entries.append(2)


def full_tree(rows):
    """Lines that make a tree whose root is full, and its last leaf; that leaf, and the others."""
    tree = Growing(4, 2)
    tree.place_up_to(rows)
    last = tree.path[-1]
    while tree.entries[last] < 4:
        tree.put("(5 5)")
    if tree.entries[0] != 4 or tree.entries[tree.path[-2]] == 4:
        raise Wrong("the trial itself needs a root that is full, and a parent that isn't")
    return tree, last, iter([page for page, level in enumerate(tree.levels) if level == 0 and page != last])


def pages_of_a_replay(path, pages=PAGES, rows=45_000):
    """The last page is made by a split. Then no page can be split any more, nor the root grow; a posting needs none."""
    with Program(path, "replay", *SMALLEST) as program:
        tree, last, leaves = full_tree(rows)
        while len(tree.entries) < pages - 1:
            split_alone(tree, next(leaves))
        program.answer_all(tree.taken())
        other = next(leaves)
        program.answer_all([
            # One page is left, and a growth needs two.
            ("grow llrr", "refused 3 PagesFull"),
            (f"split {last} llr", "refused 13 BadSides"),
            (f"split {last} llrr", f"split {pages - 1}"),
            (f"split {other} llrr", "refused 9 TooFew"),
            (f"place {other} (5 5) 0", f"committed {tree.commits + 1}"),
            (f"place {other} (5 5) 0", f"committed {tree.commits + 2}"),
            (f"split {other} llrr", "refused 3 PagesFull"),
            ("grow llrr", "refused 3 PagesFull"),
            (f"place {other} (5 5) 0", "refused 8 NodeFull"),
            (f"split {last} llrr", "refused 11 Owed"),
            (f"split {pages} llrr", "refused 7 NotHere"),
            (f"post {tree.path[-2]} {last}", "posted"),
            (f"place {pages - 1} (5 5) 0", f"committed {tree.commits + 3}"),
        ])
        program.end()


def last_growth(path, pages=PAGES, rows=45_000):
    """The last two pages are made by a growth. Then no full page can be split any more."""
    with Program(path, "replay", *SMALLEST) as program:
        tree, last, leaves = full_tree(rows)
        while len(tree.entries) < pages - 2:
            split_alone(tree, next(leaves))
        program.answer_all(tree.taken())
        program.answer_all([
            ("grow llrr", f"grown {pages - 2} {pages - 1}"),
            ("grow llrr", "refused 9 TooFew"),
            (f"split {last} llrr", "refused 3 PagesFull"),
            (f"place {last} (5 5) 0", "refused 8 NodeFull"),
            (f"place {pages - 1} (5 5) 0", "refused 7 NotHere"),
            (f"place {next(leaves)} (5 5) 0", f"committed {tree.commits + 1}"),
        ])
        program.end()
