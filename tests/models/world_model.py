"""A slow model of a world: its pages, cursors and finders, and the exact answer to each event line.

Each event makes its tests in their order and is refused by the first that fails, before anything is changed. Want of
memory is left out: there is enough of it.
"""
from collections import deque

from models.keys import matches, may_match_below
from models.listings import Commits, Row
from models.refusals import Refused, refusal_line

MOST_ROOM = 4_096
MOST_CURSORS = 256
MOST_FINDERS = 64


class Entry:
    """A row on a leaf, and the commit that ended it, if any."""

    def __init__(self, row):
        self.row = row
        self.died = None

    @property
    def key(self):
        """The key that the page holds at this place."""
        return self.row.key

    def is_seen_at(self, opened):
        """Whether a scan that opened after `opened` commits sees the row."""
        return self.row.number <= opened and (self.died is None or self.died > opened)


class Branch:
    """A child of an inner page, and a key that covers all below it."""

    def __init__(self, key, child):
        self.key = key
        self.child = child


class Page:
    """A page: a leaf holds entries, an inner page branches."""

    def __init__(self, number, level, places):
        self.number = number
        self.level = level
        self.places = places
        self.cover = None
        self.right = None
        self.nsn = 0
        self.owed = False
        self.hung = True

    def branch_to(self, child):
        """The branch that names a child, or none."""
        if self.level == 0:
            return None
        return next((branch for branch in self.places if branch.child == child), None)

    def entry_of(self, row):
        """The entry of a row, or none."""
        if self.level > 0:
            return None
        return next((entry for entry in self.places if entry.row.number == row), None)


class Finder:
    """A traversal that looks for a row."""

    def __init__(self, row, stack):
        self.row = row
        self.stack = stack


class Cursor:
    """A query under way: what is to be visited, what was found, and the mailbox."""

    def __init__(self, query, room, opened, stack):
        self.query = query
        self.room = room
        self.opened = opened
        self.stack = stack
        self.found = deque()
        self.position = opened
        self.is_mark_asked = False
        self.mailbox = deque()

    def offer(self, item):
        """Puts an item into the mailbox, if there is room for it."""
        if len(self.mailbox) >= self.room:
            raise Refused("NoRoom")
        self.mailbox.append(item)


class World:
    """A world, driven by events. `step` answers one."""

    def __init__(self, keys, fan, least):
        self.keys = keys
        self.fan = fan
        self.least = least
        self.pages = [Page(0, 0, [])]
        self.counter = 0
        self.commits = Commits(keys)
        self.cursors = {}
        self.last_cursor = 0
        self.finders = {}
        self.last_finder = 0

    def step(self, line):
        """The answer to an event, which is carried out or refused."""
        try:
            return getattr(self, line.verb)(*line.arguments)
        except Refused as refused:
            return refusal_line(refused.number)

    def fault(self, answer):
        """A line that is no event has its answer, and changes nothing."""
        return answer

    def page(self, number):
        """The page with a number, or none."""
        return self.pages[number] if number < len(self.pages) else None

    def covers(self, page, key):
        """Whether a page may hold a key. The root may hold every one."""
        return page.cover is None or self.keys.covers(page.cover, key)

    def cover_of(self, places):
        """The least key that covers some entries or branches."""
        cover = places[0].key
        for place in places[1:]:
            cover = self.keys.union(cover, place.key)
        return cover

    # The steps of pages

    def enlarge(self, parent, child, key):
        """Widens the branch to a child, and its cover, by a key."""
        page = self.page(parent)
        branch = page and page.branch_to(child)
        if branch is None:
            raise Refused("NotHere")
        if not self.covers(page, key):
            raise Refused("Uncovered")
        branch.key = self.keys.union(branch.key, key)
        self.pages[child].cover = self.keys.union(self.pages[child].cover, key)
        return "enlarged"

    def parted(self, places, sides):
        """The entries of both sides, if there is a side for each and each side has enough."""
        left = [place for place, side in zip(places, sides) if side == "l"]
        right = [place for place, side in zip(places, sides) if side == "r"]
        if len(sides) != len(places) or min(len(left), len(right)) < self.least:
            raise Refused("BadSides")
        return left, right

    def new_page(self, level, places):
        """A page that is made of some entries or branches."""
        page = Page(len(self.pages), level, places)
        page.cover = self.cover_of(places)
        self.pages.append(page)
        return page

    def split(self, number, sides):
        """Moves the right side of a full page to a new one, which no parent names yet."""
        page = self.page(number)
        if number == 0 or page is None:
            raise Refused("NotHere")
        if page.owed:
            raise Refused("Owed")
        if not page.hung:
            raise Refused("Unhung")
        if len(page.places) < self.fan:
            raise Refused("TooFew")
        left, right = self.parted(page.places, sides)
        sibling = self.new_page(page.level, right)
        sibling.nsn, sibling.right, sibling.hung = page.nsn, page.right, False
        page.places, page.cover, page.right, page.owed = left, self.cover_of(left), sibling.number, True
        return f"split {sibling.number}"

    def post(self, parent, child):
        """Names the sibling of a child in the parent."""
        page = self.page(parent)
        branch = page and page.branch_to(child)
        if branch is None or not self.pages[child].owed:
            raise Refused("NotHere")
        if len(page.places) >= self.fan:
            raise Refused("NodeFull")
        left = self.pages[child]
        sibling = self.pages[left.right]
        branch.key = left.cover
        page.places.append(Branch(sibling.cover, sibling.number))
        sibling.hung = True
        self.counter += 1
        left.nsn, left.owed = self.counter, False
        return "posted"

    def grow(self, sides):
        """Puts two new pages below the root, which hold what it held."""
        root = self.pages[0]
        if len(root.places) < self.fan:
            raise Refused("TooFew")
        left, right = self.parted(root.places, sides)
        first, second = self.new_page(root.level, left), self.new_page(root.level, right)
        first.right = second.number
        root.level += 1
        root.places = [Branch(first.cover, first.number), Branch(second.cover, second.number)]
        return f"grown {first.number} {second.number}"

    # Commits and sweeps

    def leaf_for(self, number, key):
        """The leaf with a number, which takes a key."""
        page = self.page(number)
        if page is None or page.level > 0:
            raise Refused("NotHere")
        if not self.covers(page, key):
            raise Refused("Uncovered")
        if len(page.places) >= self.fan:
            raise Refused("NodeFull")
        return page

    def place(self, number, key, tag):
        """Inserts a row on a leaf."""
        leaf = self.leaf_for(number, key)
        commit = self.commits.add(("insert", key, tag))
        leaf.places.append(Entry(Row(commit, key, tag)))
        return f"committed {commit}"

    def horizon(self):
        """The least opening of the cursors that have pages left to visit, or the number of commits."""
        openings = [cursor.opened for cursor in self.cursors.values() if cursor.stack]
        return min(openings, default=len(self.commits))

    def sweep(self, number):
        """Takes the dead entries of a leaf that no scan needs."""
        page = self.page(number)
        if page is None or page.level > 0:
            raise Refused("NotHere")
        horizon = self.horizon()
        left = [entry for entry in page.places if entry.died is None or entry.died > horizon]
        count = len(page.places) - len(left)
        page.places = left
        return f"swept {count}"

    # Finders

    def visit(self, stack, is_wanted):
        """Takes the last item off a stack, pushes what is to be visited after it, and returns the page."""
        number, memo = stack.pop()
        page = self.pages[number]
        if page.owed or page.nsn > memo:
            stack.append((page.right, memo))
        if page.level > 0:
            stack.extend((branch.child, self.counter) for branch in reversed(page.places) if is_wanted(branch.key))
        return page

    def find(self, row):
        """Opens a finder of a row."""
        refusal = self.commits.refusal(row)
        if refusal is not None:
            return refusal_line(refusal)
        if len(self.finders) >= MOST_FINDERS:
            raise Refused("FindersFull")
        self.last_finder += 1
        self.finders[self.last_finder] = Finder(self.commits.rows[row], [(0, self.counter)])
        return f"finder {self.last_finder}"

    def finder_of_live(self, serial):
        """The open finder with a serial; its row lives."""
        if serial not in self.finders:
            raise Refused("NoSuchFinder")
        finder = self.finders[serial]
        if finder.row.number in self.commits.ended:
            raise Refused("AlreadyDeleted")
        return finder

    def met_by(self, finder):
        """The entry of a finder's row on the page that it visits next, or none."""
        return self.pages[finder.stack[-1][0]].entry_of(finder.row.number)

    def go_on(self, finder):
        """A visit of a finder to a page without its row."""
        self.visit(finder.stack, lambda bound: self.keys.covers(bound, finder.row.key))
        return "seeking"

    def seek(self, serial):
        """A finder visits a page, and deletes its row if it meets it."""
        finder = self.finder_of_live(serial)
        entry = self.met_by(finder)
        if entry is None:
            return self.go_on(finder)
        entry.died = self.commits.add(("delete", finder.row.number))
        del self.finders[serial]
        return f"committed {entry.died}"

    def move(self, serial, number, key):
        """A finder visits a page, and moves its row to a leaf if it meets it."""
        finder = self.finder_of_live(serial)
        entry = self.met_by(finder)
        if entry is None:
            return self.go_on(finder)
        leaf = self.leaf_for(number, key)
        entry.died = self.commits.add(("move", finder.row.number, key))
        leaf.places.append(Entry(self.commits.rows[entry.died]))
        del self.finders[serial]
        return f"committed {entry.died}"

    def unfind(self, serial):
        """Ends a finder."""
        if serial not in self.finders:
            raise Refused("NoSuchFinder")
        del self.finders[serial]
        return "unfound"

    # Cursors

    def add_cursor(self, cursor):
        """Gives a cursor its serial."""
        if len(self.cursors) >= MOST_CURSORS:
            raise Refused("CursorsFull")
        self.last_cursor += 1
        self.cursors[self.last_cursor] = cursor
        return f"opened {self.last_cursor}"

    def open(self, room, query):
        """Opens a cursor at the present commits."""
        if not 1 <= room <= MOST_ROOM:
            raise Refused("BadConfig")
        return self.add_cursor(Cursor(query, room, len(self.commits), [(0, self.counter)]))

    def follow(self, room, commit, query):
        """Opens a cursor that follows a commit."""
        if not 1 <= room <= MOST_ROOM:
            raise Refused("BadConfig")
        if commit > len(self.commits):
            raise Refused("FromFuture")
        return self.add_cursor(Cursor(query, room, commit, []))

    def open_cursor(self, serial):
        """The open cursor with a serial."""
        if not 1 <= serial <= self.last_cursor:
            raise Refused("NoSuchCursor")
        if serial not in self.cursors:
            raise Refused("CursorClosed")
        return self.cursors[serial]

    def turn(self, serial):
        """The next piece of work of a cursor."""
        cursor = self.open_cursor(serial)
        if cursor.found:
            cursor.offer(self.commits.row_line(cursor.found[0]))
            cursor.found.popleft()
            return "offered"
        if cursor.stack:
            return self.scan(cursor)
        if cursor.position < len(self.commits):
            return self.go_past_commit(cursor)
        if cursor.is_mark_asked:
            cursor.offer(f"mark {len(self.commits)}")
            cursor.is_mark_asked = False
            return "offered"
        raise Refused("Idle")

    def scan(self, cursor):
        """A visit of a cursor: the rows of the page that it wants are found."""
        page = self.visit(cursor.stack, lambda bound: may_match_below(self.keys, cursor.query, bound))
        if page.level == 0:
            seen = (entry.row for entry in page.places if entry.is_seen_at(cursor.opened))
            cursor.found.extend(row for row in seen if matches(self.keys, cursor.query, row.key))
        return f"visited {page.number}"

    def go_past_commit(self, cursor):
        """Offers the item of the next commit, or passes the commit if it has none."""
        item = self.commits.change(lambda key: matches(self.keys, cursor.query, key), cursor.position + 1)
        if item is not None:
            cursor.offer(item)
        cursor.position += 1
        return "offered" if item is not None else f"passed {cursor.position}"

    def askmark(self, serial):
        """Requests a mark; two requests before it is put are one."""
        self.open_cursor(serial).is_mark_asked = True
        return "asked"

    def take(self, serial):
        """The front of a mailbox."""
        mailbox = self.open_cursor(serial).mailbox
        return mailbox.popleft() if mailbox else "nothing"

    def close(self, serial):
        """Closes a cursor."""
        self.open_cursor(serial)
        del self.cursors[serial]
        return "closed"
