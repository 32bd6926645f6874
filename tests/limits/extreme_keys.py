"""Keys at the ends of their types are found by each relation, as the relations say."""
import itertools

from .talk import Program, Wrong

RELATIONS = ("overlaps", "within", "holds", "same")
FANS = (("4", "2"), ("9", "3"))
TAGS = (0, 18_446_744_073_709_551_615, 1, 9_223_372_036_854_775_808, 18_446_744_073_709_551_614)

# The least number of rows, so that pages split
MANY = 100

# How far a key's place is from that of the key before, in the order in which they are inserted
STRIDE = 101

ENDS = (-(1 << 63), -(1 << 63) + 1, -(1 << 32), -1, 0, 1, 1 << 32, (1 << 63) - 2, (1 << 63) - 1)
SIDES = (-(1 << 31), -(1 << 31) + 1, -1, 0, (1 << 31) - 2, (1 << 31) - 1)
ELEMENTS = (0, 1, 63, 64, 65, 126, 127)


def spans(ends):
    """All pairs of ends in order."""
    return [(low, high) for low in ends for high in ends if low <= high]


def intervals():
    """All intervals of the ends."""
    return spans(ENDS)


def boxes():
    """All boxes of the sides."""
    return [(x1, y1, x2, y2) for x1, x2 in spans(SIDES) for y1, y2 in spans(SIDES)]


def sets():
    """Sets of one element, of all up to it, of all from it on, of all but it, and of every second or so."""
    keys = [frozenset()]
    for element in ELEMENTS:
        alone, everything = {element}, set(range(128))
        keys += [alone, set(range(element + 1)), set(range(element, 128)), everything - alone]
    for first in range(3):
        keys += [set(range(first, 128, 2)), set(range(first, 128, 63))]
    return [frozenset(key) for key in keys]


def spell(key):
    """A key's text."""
    if isinstance(key, frozenset):
        return "{" + " ".join(map(str, sorted(key))) + "}"
    return "(" + " ".join(map(str, key)) + ")"


def are_related_sets(relation, key, operand):
    """Whether a set is related to an operand, found by its elements."""
    if relation == "overlaps":
        return not key.isdisjoint(operand)
    if relation == "within":
        return key <= operand
    return key >= operand if relation == "holds" else key == operand


def are_related(relation, key, operand):
    """Whether a key is related to an operand, found by its points or elements."""
    if isinstance(key, frozenset):
        return are_related_sets(relation, key, operand)
    half = len(key) // 2
    sides = list(zip(key[:half], key[half:], operand[:half], operand[half:]))
    if relation == "overlaps":
        return all(max(low, first) <= min(high, last) for low, high, first, last in sides)
    if relation == "within":
        return all(first <= low and high <= last for low, high, first, last in sides)
    if relation == "holds":
        return all(low <= first and last <= high for low, high, first, last in sides)
    return key == operand


class Beside:
    """A session, and the live rows that it should have, by rising number: the place of the key of each, and its tag."""

    def __init__(self, program, keys, related):
        self.program = program
        self.keys = keys
        self.texts = [spell(key) for key in keys]
        # The places of the keys that are related to the key at a place, by the relation and that place
        self.related = related
        self.rows = {}
        self.commits = 0
        self.ended = 0

    def place(self, at):
        """The place of the key that comes after the first `at`."""
        return at * STRIDE % len(self.keys)

    def commit(self, line):
        """Gives a line that commits."""
        self.commits += 1
        self.program.answer([line], [f"committed {self.commits}"])

    def end(self, number):
        """Takes a row from the live ones."""
        self.ended += 1
        return self.rows.pop(number)

    def insert_all(self, times):
        """Inserts `times` rows for each key."""
        for at in range(len(self.keys) * times):
            row = self.place(at), TAGS[at % 5]
            self.commit(f"insert {self.texts[row[0]]} {row[1]}")
            self.rows[self.commits] = row

    def move_some(self):
        """Moves each third row to another key."""
        for number in range(3, self.commits + 1, 3):
            if number in self.rows:
                place, (_, tag) = self.place(5 * number), self.end(number)
                self.commit(f"move {number} {self.texts[place]}")
                self.rows[self.commits] = place, tag

    def delete_some(self):
        """Deletes each live row whose number is even."""
        for number in range(2, self.commits + 1, 2):
            if number in self.rows:
                self.end(number)
                self.commit(f"delete {number}")

    def sweep(self):
        """Sweeps all rows that ended."""
        self.program.answer(["sweep"], [f"swept {self.ended}"])

    def find_all(self):
        """The rows are found that are related to any of the keys, in each way."""
        live = sorted(self.rows.items())
        told = [(place, f"row {number} {self.texts[place]} {tag}") for number, (place, tag) in live]
        lines, answers = [], []
        for relation, operand in itertools.product(RELATIONS, range(len(self.keys))):
            places = self.related[relation, operand]
            found = [row for place, row in told if place in places]
            lines.append(f"find {relation}{self.texts[operand]}")
            answers += [f"found {len(found)}", *found]
        self.program.answer(lines, answers)


def relations_of(keys):
    """The places of the keys that are related to each key, by each relation."""
    return {
        (relation, operand): {place for place, key in enumerate(keys) if are_related(relation, key, keys[operand])}
        for relation, operand in itertools.product(RELATIONS, range(len(keys)))
    }


def are_found(path, name, keys, times):
    """Rows of all keys, `times` of each, are found after inserts, moves, deletes and a sweep."""
    related = relations_of(keys)
    if len(keys) * times < MANY:
        raise Wrong("the trial itself needs more rows")
    for fan, least in FANS:
        with Program(path, "serve", "--class", name, "--fan", fan, "--least", least) as program:
            beside = Beside(program, keys, related)
            beside.insert_all(times)
            beside.find_all()
            beside.move_some()
            beside.find_all()
            beside.delete_some()
            beside.find_all()
            beside.sweep()
            beside.find_all()
            program.end()


def extreme_intervals(path):
    """Intervals whose ends are the least and the greatest, and next to them."""
    are_found(path, "interval", intervals(), 3)


def extreme_boxes(path):
    """Boxes whose sides are the least and the greatest, and next to them."""
    are_found(path, "box", boxes(), 1)


def extreme_sets(path):
    """Sets at the ends of what elements there are, and at the middle."""
    are_found(path, "set", sets(), 3)
