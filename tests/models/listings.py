"""Commits, the rows that they make, and what a cursor may deliver for a query: snapshots, changes and listings.

Items are lines of answers, such as `row 1 (5 5) 0`. A commit is a tuple: `insert`, a key and a tag; `delete` and a
row; `move`, a row and a key.
"""
from typing import NamedTuple

NO_SUCH_ROW = 14
ALREADY_DELETED = 15


class Row(NamedTuple):
    """A row under the number of the commit that began it."""
    number: int
    key: object
    tag: int


class Commits:
    """A legal list of commits, numbered from 1."""

    def __init__(self, keys):
        self.keys = keys
        self.writes = []
        self.rows = {}
        self.ended = {}
        # the numbers of the rows that live, rising
        self.live = {}

    def __len__(self):
        return len(self.writes)

    def refusal(self, row):
        """The number of the refusal of a delete or a move of a row, or None if the row lives."""
        if row not in self.rows:
            return NO_SUCH_ROW
        return ALREADY_DELETED if row in self.ended else None

    def is_legal(self, write):
        """Whether a commit may come next."""
        return write[0] == "insert" or self.refusal(write[1]) is None

    def add(self, write):
        """Adds a commit, which has to be legal, and returns its number."""
        if not self.is_legal(write):
            raise ValueError(f"{write} may not come next")
        self.writes.append(write)
        number = len(self.writes)
        if write[0] == "insert":
            self.rows[number] = Row(number, write[1], write[2])
        else:
            self.ended[write[1]] = number
            del self.live[write[1]]
        if write[0] == "move":
            self.rows[number] = Row(number, write[2], self.rows[write[1]].tag)
        if number in self.rows:
            self.live[number] = None
        return number

    def lives(self, row, count):
        """Whether a row is live after this many commits."""
        return row <= count and row in self.rows and self.ended.get(row, count + 1) > count

    def live_rows(self):
        """The rows that live, by rising number."""
        return [self.rows[number] for number in self.live]

    def row_line(self, row):
        """The item of a row of a snapshot."""
        return f"row {row.number} {self.keys.text(row.key)} {row.tag}"

    def snapshot(self, wanted, count):
        """The rows that are live after this many commits and whose key is wanted, by rising number."""
        numbers = self.live if count == len(self) else [number for number in self.rows if self.lives(number, count)]
        return [self.row_line(self.rows[number]) for number in numbers if wanted(self.rows[number].key)]

    def change(self, wanted, number):
        """The item of a commit for these wanted keys, or none."""
        write = self.writes[number - 1]
        new = self.rows.get(number)
        old = None if write[0] == "insert" else self.rows[write[1]]
        has_new = new is not None and wanted(new.key)
        has_old = old is not None and wanted(old.key)
        if has_new and has_old:
            return f"moved {number} {old.number} {self.keys.text(new.key)} {new.tag}"
        if has_old:
            return f"deleted {number} {old.number}"
        return f"inserted {number} {self.keys.text(new.key)} {new.tag}" if has_new else None

    def changes(self, wanted, first, last):
        """The items of the commits after `first` and up to `last`, in their order."""
        items = (self.change(wanted, number) for number in range(first + 1, last + 1))
        return [item for item in items if item is not None]


def is_row(item):
    """Whether an item is a row of a snapshot."""
    return item.startswith("row ")


def is_mark(item):
    """Whether an item is a mark."""
    return item.startswith("mark ")


class Listing:
    """What a cursor may deliver: the rows of its snapshot, each once and in any order, and then the changes that follow.

    A cursor that follows a commit has no rows to give. Marks aren't noted here.
    """

    def __init__(self, commits, wanted, opened, follows):
        self.commits = commits
        self.wanted = wanted
        self.opened = opened
        self.rows = {} if follows else dict.fromkeys(commits.snapshot(wanted, opened))
        self.given = []
        self.position = opened
        self.looked_at = opened

    def next_change(self, last):
        """The first change that is left of the commits up to `last`, with its number, or none.

        Commits without an item are looked at only once.
        """
        while self.looked_at < last:
            item = self.commits.change(self.wanted, self.looked_at + 1)
            if item is not None:
                return self.looked_at + 1, item
            self.looked_at += 1
        return None

    def goes_on_with(self, item):
        """Whether the delivered items, and then an item, begin a listing up to the last commit. If so, it is noted."""
        if is_row(item):
            if item not in self.rows:
                return False
            del self.rows[item]
        else:
            change = self.next_change(len(self.commits))
            if self.rows or change is None or change[1] != item:
                return False
            self.position = self.looked_at = change[0]
        self.given.append(item)
        return True

    def is_whole(self, last):
        """Whether the delivered items are a listing up to a commit."""
        return not self.rows and self.position <= last <= len(self.commits) and self.next_change(last) is None
