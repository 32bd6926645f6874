"""Worlds with one wrong rule each. The checker of traces has to refuse some random lists answered by such a world.

This shows that the lists reach the cases for which the rules exist, and that the checker notices the fault from the
answers alone.
"""
from models.keys import atom_matches, matches, may_match_below
from models.listings import Row
from models.refusals import Refused
from models.world_model import Branch, Entry, World


class WrongWorld(World):
    """A world whose finders meet their rows even with nothing left to visit, which never happens in a right one."""

    def met_by(self, finder):
        """The entry of a finder's row on the page that it visits next, or none."""
        if finder.stack:
            return super().met_by(finder)
        return next(filter(None, (page.entry_of(finder.row.number) for page in self.pages)))


class WrongScan(WrongWorld):
    """A world whose cursors visit pages in a wrong way, but whose finders do it right."""

    is_scanning = False

    def scan(self, cursor):
        """A visit of a cursor."""
        self.is_scanning = True
        answer = super().scan(cursor)
        self.is_scanning = False
        return answer

    def visit(self, stack, is_wanted):
        """Takes the last item off a stack, pushes what is to be visited after it, and returns the page."""
        return self.wrong_visit(stack, is_wanted) if self.is_scanning else super().visit(stack, is_wanted)

    def wrong_visit(self, stack, is_wanted):
        """A visit, done in a wrong way."""
        raise NotImplementedError


class PostingRaisesNothing(WrongWorld):
    """A posting gives no new sequence number."""

    def post(self, parent, child):
        """Names the sibling of a child in the parent."""
        before = self.page(child).nsn if self.page(child) else None
        answer = super().post(parent, child)
        self.counter -= 1
        self.pages[child].nsn = before
        return answer


class SiblingGetsNumber(WrongWorld):
    """A posting gives the new sequence number to the sibling, too."""

    def post(self, parent, child):
        """Names the sibling of a child in the parent."""
        answer = super().post(parent, child)
        sibling = self.pages[self.pages[child].right]
        sibling.nsn = self.counter if sibling.right else 0
        return answer


class OwedIsOverlooked(WrongScan):
    """A visit doesn't go on to a sibling that isn't posted."""

    def wrong_visit(self, stack, is_wanted):
        """A visit, as if the page owed nothing."""
        page = self.pages[stack[-1][0]]
        is_owed, page.owed = page.owed, False
        World.visit(self, stack, is_wanted)
        page.owed = is_owed
        return page


class ChildrenKeepMemo(WrongScan):
    """The children of a page are pushed with the memo with which the page was."""

    def wrong_visit(self, stack, is_wanted):
        """A visit, as if the counter were what it was then."""
        counter, self.counter = self.counter, stack[-1][1]
        page = World.visit(self, stack, is_wanted)
        self.counter = counter
        return page


class LinksGetCounter(WrongScan):
    """The right sibling of a page is pushed with the counter, as a child is."""

    def wrong_visit(self, stack, is_wanted):
        """A visit, after which all that was pushed has the counter."""
        count, page = len(stack), World.visit(self, stack, is_wanted)
        stack[count - 1:] = [(number, self.counter) for number, _ in stack[count - 1:]]
        return page


class SplitForgetsNumber(WrongWorld):
    """The page that a split makes doesn't get the old sequence number."""

    def split(self, number, sides):
        """Moves the right side of a full page to a new one."""
        answer = super().split(number, sides)
        self.pages[-1].nsn = 0
        return answer


class SweepTakesAll(WrongWorld):
    """A sweep takes every dead entry, whether a scan needs it or not."""

    def horizon(self):
        """The number of commits."""
        return len(self.commits)


class SweepTakesOneMore(WrongWorld):
    """A sweep takes what died with the first commit after the horizon, too."""

    def horizon(self):
        """One commit more."""
        return super().horizon() + 1


class SweepLeavesDead(WrongWorld):
    """A sweep leaves what died at the horizon."""

    def horizon(self):
        """One commit less."""
        return super().horizon() - 1


class PlacesAnywhere(WrongWorld):
    """A leaf takes keys that its cover doesn't cover."""

    def covers(self, page, key):
        """Whether a page may hold a key."""
        return page.level == 0 or super().covers(page, key)


class PostingWithoutCover(WrongWorld):
    """A posting gives the sibling's branch the cover of the child."""

    def post(self, parent, child):
        """Names the sibling of a child in the parent."""
        answer = super().post(parent, child)
        self.pages[parent].places[-1] = Branch(self.pages[child].cover, self.pages[child].right)
        return answer


class DeadIsGone(WrongWorld):
    """A scan doesn't see rows that died after its opening."""

    def scan(self, cursor):
        """A visit of a cursor."""
        answer = super().scan(cursor)
        cursor.found = type(cursor.found)(row for row in cursor.found if row.number not in self.commits.ended)
        return answer


class NewIsSeen(WrongWorld):
    """A scan sees live rows that came after its opening."""

    def scan(self, cursor):
        """A visit of a cursor."""
        opened, cursor.opened = cursor.opened, len(self.commits)
        answer = super().scan(cursor)
        cursor.opened = opened
        return answer


class NotIsTurnedRound(WrongWorld):
    """A search leaves out a branch whose key matches what is under `not`."""

    def scan(self, cursor):
        """A visit of a cursor."""
        def may_match(query, bound):
            """Whether a branch is followed."""
            if query[0] == "not":
                return not may_match_below(self.keys, query[1], bound)
            return may_match_below(self.keys, query, bound)
        page = self.visit(cursor.stack, lambda bound: may_match(cursor.query, bound))
        if page.level == 0:
            seen = (entry.row for entry in page.places if entry.is_seen_at(cursor.opened))
            cursor.found.extend(row for row in seen if matches(self.keys, cursor.query, row.key))
        return f"visited {page.number}"


class BoundsMatch(WrongWorld):
    """A search tests a branch's key as it tests a row's."""

    def scan(self, cursor):
        """A visit of a cursor."""
        def asks(query, bound):
            """Whether a branch is followed."""
            return query[0] in ("and", "or", "not") or atom_matches(self.keys, query[0], bound, query[1])
        page = self.visit(cursor.stack, lambda bound: asks(cursor.query, bound))
        if page.level == 0:
            seen = (entry.row for entry in page.places if entry.is_seen_at(cursor.opened))
            cursor.found.extend(row for row in seen if matches(self.keys, cursor.query, row.key))
        return f"visited {page.number}"


class NoRoomLosesRow(WrongWorld):
    """A row that a mailbox refuses is lost."""

    def turn(self, serial):
        """The next piece of work of a cursor."""
        cursor = self.open_cursor(serial)
        try:
            return super().turn(serial)
        except Refused:
            if cursor.found:
                cursor.found.popleft()
            raise


class NoRoomLosesChange(WrongWorld):
    """A change that a mailbox refuses is lost."""

    def turn(self, serial):
        """The next piece of work of a cursor."""
        cursor = self.open_cursor(serial)
        try:
            return super().turn(serial)
        except Refused:
            if not cursor.found and cursor.position < len(self.commits):
                cursor.position += 1
            raise


class MarkComesEarly(WrongWorld):
    """A mark comes before the commits that are left."""

    def turn(self, serial):
        """The next piece of work of a cursor."""
        cursor = self.open_cursor(serial)
        if not cursor.found and not cursor.stack and cursor.is_mark_asked:
            cursor.offer(f"mark {cursor.position}")
            cursor.is_mark_asked = False
            return "offered"
        return super().turn(serial)


class ChangesComeEarly(WrongWorld):
    """Changes come before the last page was visited."""

    def turn(self, serial):
        """The next piece of work of a cursor."""
        cursor = self.open_cursor(serial)
        if not cursor.found and len(cursor.stack) == 1 and cursor.position < len(self.commits):
            return self.go_past_commit(cursor)
        return super().turn(serial)


class FollowsOneTooMany(WrongWorld):
    """A cursor that follows a commit begins with that commit."""

    def follow(self, room, commit, query):
        """Opens a cursor that follows a commit."""
        answer = super().follow(room, commit, query)
        self.cursors[self.last_cursor].position = max(commit - 1, 0)
        return answer


class MoveLosesTag(WrongWorld):
    """A moved row has the tag 0 when a scan finds it."""

    def move(self, serial, number, key):
        """A finder visits a page, and moves its row to a leaf if it meets it."""
        answer = super().move(serial, number, key)
        if answer.startswith("committed"):
            row = self.commits.rows[len(self.commits)]
            self.commits.rows[row.number] = Row(row.number, row.key, 0)
        return answer


class MoveLeavesOld(WrongWorld):
    """A moved row's old entry stays alive."""

    def move(self, serial, number, key):
        """A finder visits a page, and moves its row to a leaf if it meets it."""
        answer = super().move(serial, number, key)
        if answer.startswith("committed"):
            for page in self.pages:
                for entry in page.places:
                    if isinstance(entry, Entry) and entry.died == len(self.commits):
                        entry.died = None
        return answer


class MarkComesTwice(WrongWorld):
    """The first mark that a cursor puts stays requested."""

    def turn(self, serial):
        """The next piece of work of a cursor."""
        cursor = self.open_cursor(serial)
        was_asked, is_first = cursor.is_mark_asked, not hasattr(cursor, "has_put")
        answer = super().turn(serial)
        if is_first and was_asked and not cursor.is_mark_asked:
            cursor.has_put = cursor.is_mark_asked = True
        return answer


WORLDS = [world for world in WrongWorld.__subclasses__() + WrongScan.__subclasses__() if world is not WrongScan]
