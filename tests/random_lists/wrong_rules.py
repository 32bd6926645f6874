"""Worlds with one wrong rule each that may still be faithful: tests in another order, truncated numbers, and the like.

Given the lines of right lists, each has to answer one of them differently from the right world. This shows that the
lists reach the cases in which the rules differ.
"""
from models.keys import may_match_below, matches
from models.refusals import Refused
from models.world_model import MOST_CURSORS, MOST_FINDERS, MOST_ROOM, World

CUT = 2**32


class WrongRule(World):
    """A world with a wrong rule."""


class FullBeforeUncovered(WrongRule):
    """A full leaf is refused as such before its cover is looked at."""

    def leaf_for(self, number, key):
        """The leaf with a number, which takes a key."""
        page = self.page(number)
        if page is not None and page.level == 0 and len(page.places) >= self.fan:
            raise Refused("NodeFull")
        return super().leaf_for(number, key)


class UncoveredBeforeNotHere(WrongRule):
    """The cover of a page is looked at before it is known to be a leaf."""

    def leaf_for(self, number, key):
        """The leaf with a number, which takes a key."""
        page = self.page(number)
        if page is not None and not self.covers(page, key):
            raise Refused("Uncovered")
        return super().leaf_for(number, key)


class TooFewBeforeOwed(WrongRule):
    """A page with too few entries is refused as such before its sibling is looked for."""

    def split(self, number, sides):
        """Moves the right side of a full page to a new one."""
        page = self.page(number)
        if number > 0 and page is not None and len(page.places) < self.fan:
            raise Refused("TooFew")
        return super().split(number, sides)


class SidesBeforeTooFew(WrongRule):
    """The sides of a split are looked at before the number of entries is."""

    def split(self, number, sides):
        """Moves the right side of a full page to a new one."""
        page = self.page(number)
        if number > 0 and page is not None and page.hung and not page.owed:
            self.parted(page.places, sides)
        return super().split(number, sides)


class SidesOfGrowthBeforeTooFew(WrongRule):
    """The sides of a growth are looked at before the number of entries is."""

    def grow(self, sides):
        """Puts two new pages below the root."""
        self.parted(self.pages[0].places, sides)
        return super().grow(sides)


class FullBeforeNotHere(WrongRule):
    """A full parent is refused as such before its branches are looked at."""

    def post(self, parent, child):
        """Names the sibling of a child in the parent."""
        page = self.page(parent)
        if page is not None and page.level > 0 and len(page.places) >= self.fan:
            raise Refused("NodeFull")
        return super().post(parent, child)


class UncoveredBeforeBranches(WrongRule):
    """The cover of a page is looked at before its branches are."""

    def enlarge(self, parent, child, key):
        """Widens the branch to a child, and its cover, by a key."""
        page = self.page(parent)
        if page is not None and not self.covers(page, key):
            raise Refused("Uncovered")
        return super().enlarge(parent, child, key)


class FindersFullFirst(WrongRule):
    """Open finders are counted before the row is looked for."""

    def find(self, row):
        """Opens a finder of a row."""
        if len(self.finders) >= MOST_FINDERS:
            raise Refused("FindersFull")
        return super().find(row)


class CursorsFullFirst(WrongRule):
    """Open cursors are counted before the room is looked at."""

    def open(self, room, query):
        """Opens a cursor at the present commits."""
        if len(self.cursors) >= MOST_CURSORS:
            raise Refused("CursorsFull")
        return super().open(room, query)


class FutureBeforeRoom(WrongRule):
    """The commit that is to be followed is looked for before the room is looked at."""

    def follow(self, room, commit, query):
        """Opens a cursor that follows a commit."""
        if commit > len(self.commits):
            raise Refused("FromFuture")
        return super().follow(room, commit, query)


class CursorsFullBeforeFuture(WrongRule):
    """Open cursors are counted before the commit that is to be followed is looked for."""

    def follow(self, room, commit, query):
        """Opens a cursor that follows a commit."""
        if 1 <= room <= MOST_ROOM and len(self.cursors) >= MOST_CURSORS:
            raise Refused("CursorsFull")
        return super().follow(room, commit, query)


class MoveTestsLeafAlways(WrongRule):
    """A move looks at its leaf at every visit."""

    def move(self, serial, number, key):
        """A finder visits a page, and moves its row to a leaf if it meets it."""
        self.finder_of_live(serial)
        self.leaf_for(number, key)
        return super().move(serial, number, key)


class EndedRowEndsFinders(WrongRule):
    """The finders of a row are gone once it has ended."""

    def finder_of_live(self, serial):
        """The open finder with a serial; its row lives."""
        if serial in self.finders and self.finders[serial].row.number in self.commits.ended:
            raise Refused("NoSuchFinder")
        return super().finder_of_live(serial)


class VisitsBeforeOffers(WrongRule):
    """A page is visited while found rows are left to be offered."""

    def turn(self, serial):
        """The next piece of work of a cursor."""
        cursor = self.open_cursor(serial)
        return self.scan(cursor) if cursor.stack else super().turn(serial)


class RoomForOneLess(WrongRule):
    """A mailbox takes one item less than its room."""

    def turn(self, serial):
        """The next piece of work of a cursor."""
        cursor = self.open_cursor(serial)
        cursor.room -= 1
        try:
            return super().turn(serial)
        finally:
            cursor.room += 1


class PagesAreCut(WrongRule):
    """Of the number of a page the lower 32 bits are read."""

    def page(self, number):
        """The page with a number, or none."""
        return super().page(number % CUT)


class CursorsAreCut(WrongRule):
    """Of the serial of a cursor the lower 32 bits are read."""

    def open_cursor(self, serial):
        """The open cursor with a serial."""
        return super().open_cursor(serial % CUT)


class FindersAreCut(WrongRule):
    """Of the serial of a finder the lower 32 bits are read."""

    def seek(self, serial):
        """A finder visits a page, and deletes its row if it meets it."""
        return super().seek(serial % CUT)


class RowsAreCut(WrongRule):
    """Of the number of a row the lower 32 bits are read."""

    def find(self, row):
        """Opens a finder of a row."""
        return super().find(row % CUT)


class BranchesFromLast(WrongRule):
    """The last of the branches that a page pushes is visited first."""

    def visit(self, stack, is_wanted):
        """Takes the last item off a stack, pushes what is to be visited after it, and returns the page."""
        (number, memo), count = stack[-1], len(stack) - 1
        links = self.pages[number].owed or self.pages[number].nsn > memo
        page = super().visit(stack, is_wanted)
        stack[count + links:] = stack[count + links:][::-1]
        return page


class LinkIsVisitedFirst(WrongRule):
    """The right link of a page is visited before its branches."""

    def visit(self, stack, is_wanted):
        """Takes the last item off a stack, pushes what is to be visited after it, and returns the page."""
        (number, memo), count = stack[-1], len(stack) - 1
        links = self.pages[number].owed or self.pages[number].nsn > memo
        page = super().visit(stack, is_wanted)
        if links:
            stack.append(stack.pop(count))
        return page


class CoverStaysWide(WrongRule):
    """A page that is split keeps its cover."""

    def split(self, number, sides):
        """Moves the right side of a full page to a new one."""
        before = self.page(number) and self.page(number).cover
        answer = super().split(number, sides)
        self.pages[number].cover = before
        return answer


class SidesAreExchanged(WrongRule):
    """What is to go left goes right."""

    def parted(self, places, sides):
        """The entries of both sides."""
        left, right = super().parted(places, sides)
        return right, left


class SidesMayHaveFewer(WrongRule):
    """A side may have one entry fewer than the least."""

    def parted(self, places, sides):
        """The entries of both sides."""
        self.least -= 1
        try:
            return super().parted(places, sides)
        finally:
            self.least += 1


class AndAsksOnePart(WrongRule):
    """Of an `and` only the first part is tested on a bound."""

    def scan(self, cursor):
        """A visit of a cursor."""
        asked = cursor.query[1] if cursor.query[0] == "and" else cursor.query
        page = self.visit(cursor.stack, lambda bound: may_match_below(self.keys, asked, bound))
        if page.level == 0:
            seen = (entry.row for entry in page.places if entry.is_seen_at(cursor.opened))
            cursor.found.extend(row for row in seen if matches(self.keys, cursor.query, row.key))
        return f"visited {page.number}"


RULES = WrongRule.__subclasses__()
