"""Many rows with the same key: each is found, delivered, deleted and swept on its own."""
import dataclasses

from .talk import Program

RELATIONS = ("overlaps", "within", "holds", "same")
GREATEST_TAG = (1 << 64) - 1

# Deletes that are sent at once
BATCH = 10_000


@dataclasses.dataclass
class Extent:
    """How many rows are inserted on what pages, and which are deleted: each multiple up to a last number."""

    fan: int
    least: int
    count: int
    multiple: int
    last: int

    def deleted(self):
        """The numbers of the rows that are deleted, in their order."""
        return range(self.multiple, self.last + 1, self.multiple)


# Half of the rows are deleted, those that are there for longest
HUNDRED_THOUSAND = Extent(32, 12, 100_000, 1, 50_000)

# As many rows as find pages however they are parted, but for some hundred
ON_SMALL_PAGES = Extent(4, 2, 65_000, 2, 4_000)

EACH_SECOND = Extent(32, 12, 10_000, 2, 10_000)
EACH_SECOND_ON_SMALL_PAGES = Extent(4, 2, 4_000, 2, 4_000)


def find(program, key, rows):
    """All relations to the key find these rows."""
    for relation in RELATIONS:
        program.answer([f"find {relation}{key}"], [f"found {len(rows)}", *rows])


def give(program, cursor, rows):
    """A cursor delivers these rows in any order, and then nothing."""
    program.answer_in_any_order([f"next {cursor}"] * len(rows), rows)
    program.answer([f"next {cursor}"], ["empty"])


def delete(program, extent):
    """Deletes rows one after the other."""
    numbers = list(extent.deleted())
    for first in range(0, len(numbers), BATCH):
        some = numbers[first:first + BATCH]
        commits = range(extent.count + first + 1, extent.count + first + 1 + len(some))
        program.answer([f"delete {it}" for it in some], [f"committed {it}" for it in commits])


def keep(path, name, key, extent):
    """All rows are found and delivered, some of them are deleted and swept, and the others found and delivered."""
    with Program(path, "serve", "--class", name, "--fan", str(extent.fan), "--least", str(extent.least)) as program:
        numbers = range(1, extent.count + 1)
        deleted = set(extent.deleted())
        rows = [f"row {it} {key} {GREATEST_TAG - it}" for it in numbers]
        left = [row for row, number in zip(rows, numbers) if number not in deleted]
        program.answer([f"insert {key} {GREATEST_TAG - it}" for it in numbers], [f"committed {it}" for it in numbers])
        find(program, key, rows)
        program.answer([f"open 1 same{key}"], ["opened 1"])
        give(program, 1, rows)
        delete(program, extent)
        find(program, key, left)
        items = [f"deleted {extent.count + place} {row}" for place, row in enumerate(extent.deleted(), 1)]
        program.answer(["next 1"] * (len(items) + 1), [*items, "empty"])
        program.answer(["sweep"], [f"swept {len(items)}"])
        find(program, key, left)
        program.answer([f"open 1 overlaps{key}"], ["opened 2"])
        give(program, 2, left)
        program.end()


def a_hundred_thousand_rows(path):
    """A hundred thousand rows of one key; half of them are deleted."""
    keep(path, "interval", "(7 7)", HUNDRED_THOUSAND)


def rows_on_small_pages(path):
    """65,000 rows of one key on pages of four."""
    keep(path, "interval", "(-9 9)", ON_SMALL_PAGES)


def each_second_row(path):
    """Each second row of one key is deleted, of each class and on pages of two sizes."""
    for extent in (EACH_SECOND, EACH_SECOND_ON_SMALL_PAGES):
        keep(path, "interval", "(-9 9)", extent)
        keep(path, "box", "(1 2 3 4)", extent)
        keep(path, "set", "{0 64 127}", extent)
