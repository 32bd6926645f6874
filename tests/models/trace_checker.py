"""A checker of traces: it sees only events and their answers, and knows nothing of the contents of pages, of links and
of stacks.

It demands: commits are numbered 1, 2, 3 and are legal; serials are used once and in order; what is taken from a cursor
begins a listing for its query and opening, or the changes after the commit that it follows; what is taken before a mark
is a listing up to it, and each mark was asked for by an event of its own; a closed cursor is refused. Since a mailbox
is first in, first out, each item taken belongs to a known turn: it can't be about later commits, and a mark's number is
the number of commits at that turn. Each refusal that follows from events and answers has to come, and nowhere else.
"""
from collections import deque

from models.keys import wanted
from models.listings import ALREADY_DELETED, Commits, Listing, is_mark, is_row
from models.refusals import NUMBERS, refusal_line, refused_number
from models.world_model import MOST_CURSORS, MOST_FINDERS, MOST_ROOM

# The words that begin answers to events of pages and cursors, and the refusals that depend on pages or mailboxes.
# There is enough memory, and room for pages and commits, so 1, 3 and 4 never come.
ANSWERS = {
    "enlarge": (("enlarged",), (7, 10)),
    "place": (("committed",), (7, 8, 10)),
    "split": (("split",), (7, 9, 11, 12, 13)),
    "post": (("posted",), (7, 8)),
    "grow": (("grown",), (9, 13)),
    "sweep": (("swept",), (7,)),
    "seek": (("committed", "seeking"), ()),
    "move": (("committed", "seeking"), (7, 8, 10)),
    "turn": (("offered", "visited", "passed"), (18, 19)),
    "take": (("row", "inserted", "deleted", "moved", "mark", "nothing"), ()),
}


class Flaw(Exception):
    """What makes a trace wrong."""


def demand(is_so, told):
    """Ends the check of a trace if something doesn't hold."""
    if not is_so:
        raise Flaw(told)


def word_of(answer):
    """The word that begins an answer."""
    return answer.split(" ")[0]


def number_in(answer):
    """The first number in an answer."""
    return int(answer.split(" ")[1])


class Follower:
    """A cursor, as its answers show it."""

    def __init__(self, listing, room, has_scan):
        self.listing = listing
        self.room = room
        self.has_scan = has_scan
        self.has_begun = not has_scan
        self.is_open = True
        self.passed = listing.opened
        self.passes = 0
        # how many commits there were at each offer, and how many offers at each request for a mark
        self.offers = []
        self.askings = []
        self.taken = 0
        self.changes = 0
        self.last_mark = -1
        self.rests = deque()

    def waiting(self):
        """How many items wait in the mailbox."""
        return len(self.offers) - self.taken

    def turn(self, answer, commits, pages):
        """A turn was answered."""
        word = word_of(answer)
        if word == "offered":
            demand(self.waiting() < self.room, "an item is offered to a full mailbox")
            self.offers.append(len(commits))
        elif word == "visited":
            demand(self.has_scan, "a cursor without pages left visits one")
            demand(number_in(answer) < pages, "a page is visited that isn't there")
            self.has_begun = True
        elif word == "passed":
            self.pass_commit(number_in(answer), commits)
        elif refused_number(answer) == NUMBERS["NoRoom"]:
            demand(self.waiting() == self.room, "a mailbox with room is refused as full")
        else:
            self.rest_at(len(commits), self.askings[-1] if self.askings else -1)

    def pass_commit(self, number, commits):
        """A commit was passed: it has no item, and all before it was offered."""
        demand(self.passed < number <= len(commits), "a commit is passed twice, or isn't there")
        demand(commits.change(self.listing.wanted, number) is None, "a commit with an item is passed")
        self.passed = number
        self.passes += 1
        self.rest_at(number, -1)

    def rest_at(self, commit, asked_at):
        """What was offered so far is a listing up to a commit; if a mark was requested, it was offered since.

        Each commit after the opening was offered or passed by a turn of its own.
        """
        self.has_scan = False
        self.rests.append((len(self.offers), commit, asked_at, commit - self.listing.opened - self.passes))
        self.look_back()

    def look_back(self):
        """Looks at what was taken, if it is just what was offered before a rest."""
        while self.rests and self.rests[0][0] == self.taken:
            _, commit, asked_at, changes = self.rests.popleft()
            demand(self.listing.is_whole(commit), "something is left where nothing more was to be offered")
            demand(self.changes == changes, "a commit was neither offered nor passed, or both")
            demand(self.last_mark >= asked_at, "a mark that was asked for wasn't offered")

    def take(self, answer):
        """A take was answered."""
        if answer == "nothing":
            demand(self.waiting() == 0, "nothing is taken, but items wait")
            return
        demand(self.waiting() > 0, "an item is taken that wasn't offered")
        offered_at = self.offers[self.taken]
        if is_mark(answer):
            self.take_mark(number_in(answer), offered_at)
        else:
            is_late = not is_row(answer) and number_in(answer) > offered_at
            demand(not is_late, "an item tells of a commit that came after its offer")
            demand(self.listing.goes_on_with(answer), "what was taken begins no listing")
            self.changes += not is_row(answer)
        self.taken += 1
        self.look_back()

    def take_mark(self, number, offered_at):
        """A mark was taken. It was requested before its offer, and after the offer of the mark before."""
        demand(number == offered_at, "a mark tells of other commits than there were")
        demand(self.listing.is_whole(number), "something up to a mark wasn't taken before it")
        demand(any(self.last_mark < asked <= self.taken for asked in self.askings), "a mark wasn't asked for")
        self.last_mark = self.taken


class TraceChecker:
    """What follows from the answers so far about commits, cursors and finders, and how many pages were made."""

    def __init__(self, keys):
        self.keys = keys
        self.commits = Commits(keys)
        self.followers = []
        self.finders = {}
        self.last_finder = 0
        self.pages = 1
        self.swept = 0
        self.swept_up_to = 0

    def take_in(self, line, answer):
        """Checks an answer by those before."""
        if line.verb == "blank":
            return
        due = self.due(line)
        if due is not None:
            demand(answer == due, f"{due} is due")
        else:
            words, refusals = ANSWERS[line.verb]
            demand(word_of(answer) in words or refused_number(answer) in refusals, "the event has no such answer")
        getattr(self, line.verb)(answer, *line.arguments)

    def due(self, line):
        """The answer that follows from the earlier answers, or None."""
        verb, arguments = line.verb, line.arguments
        if verb == "fault":
            return arguments[0]
        if verb in ("open", "follow"):
            return self.due_to_opening(arguments[0], arguments[1] if verb == "follow" else 0)
        if verb == "find":
            return self.due_to_find(arguments[0])
        if verb in ("seek", "move", "unfind"):
            return self.due_to_finder(verb, arguments[0])
        if verb in ("turn", "take", "askmark", "close"):
            return self.due_to_cursor(verb, arguments[0])
        return None

    def due_to_opening(self, room, commit):
        """The answer to an opening."""
        if not 1 <= room <= MOST_ROOM:
            return refusal_line(NUMBERS["BadConfig"])
        if commit > len(self.commits):
            return refusal_line(NUMBERS["FromFuture"])
        if sum(follower.is_open for follower in self.followers) >= MOST_CURSORS:
            return refusal_line(NUMBERS["CursorsFull"])
        return f"opened {len(self.followers) + 1}"

    def due_to_find(self, row):
        """The answer to a find."""
        refusal = self.commits.refusal(row)
        if refusal is not None:
            return refusal_line(refusal)
        is_full = len(self.finders) >= MOST_FINDERS
        return refusal_line(NUMBERS["FindersFull"]) if is_full else f"finder {self.last_finder + 1}"

    def due_to_finder(self, verb, serial):
        """The answer to an event of a finder that isn't open, or whose row ended, and to the end of a finder."""
        if serial not in self.finders:
            return refusal_line(NUMBERS["NoSuchFinder"])
        if verb == "unfind":
            return "unfound"
        has_ended = self.commits.refusal(self.finders[serial]) is not None
        return refusal_line(ALREADY_DELETED) if has_ended else None

    def due_to_cursor(self, verb, serial):
        """The answer to an event of a cursor that isn't open, and to a request for a mark and a closing."""
        if not 1 <= serial <= len(self.followers):
            return refusal_line(NUMBERS["NoSuchCursor"])
        if not self.followers[serial - 1].is_open:
            return refusal_line(NUMBERS["CursorClosed"])
        return {"askmark": "asked", "close": "closed"}.get(verb)

    def commit(self, write, answer):
        """A commit was answered, or something else."""
        if word_of(answer) != "committed":
            return False
        demand(number_in(answer) == len(self.commits) + 1, "a commit doesn't have the next number")
        self.commits.add(write)
        return True

    def make_pages(self, answer, count):
        """Pages were made, which have the next numbers, or something else was answered."""
        if word_of(answer) in ("split", "grown"):
            made = [str(self.pages + place) for place in range(count)]
            demand(answer.split(" ")[1:] == made, "a page that was made doesn't have the next number")
            self.pages += count

    # What each answer means

    def fault(self, answer, due):
        """A line that isn't an event changes nothing."""

    def enlarge(self, answer, parent, child, key):
        """Widening a bound changes no later answer."""

    def post(self, answer, parent, child):
        """Posting a sibling changes no later answer."""

    def split(self, answer, page, sides):
        """A split makes a page."""
        self.make_pages(answer, 1)

    def grow(self, answer, sides):
        """A growth makes two pages."""
        self.make_pages(answer, 2)

    def place(self, answer, page, key, tag):
        """An insert."""
        self.commit(("insert", key, tag), answer)

    def sweep(self, answer, page):
        """Dead rows went: no row twice, and none that a scan needs which has not yet begun."""
        if word_of(answer) == "refused":
            return
        openings = [it.listing.opened for it in self.followers if it.is_open and not it.has_begun]
        self.swept_up_to = max(self.swept_up_to, min(openings, default=len(self.commits)))
        self.swept += number_in(answer)
        dead = sum(died <= self.swept_up_to for died in self.commits.ended.values())
        demand(self.swept <= dead, "more rows were swept than are dead and not needed")

    def find(self, answer, row):
        """A finder was opened, or none."""
        if word_of(answer) == "finder":
            self.last_finder += 1
            self.finders[self.last_finder] = row

    def seek(self, answer, serial):
        """A finder deleted its row, or goes on."""
        if serial in self.finders and self.commit(("delete", self.finders[serial]), answer):
            del self.finders[serial]

    def move(self, answer, serial, page, key):
        """A finder moved its row, or goes on."""
        if serial in self.finders and self.commit(("move", self.finders[serial], key), answer):
            del self.finders[serial]

    def unfind(self, answer, serial):
        """A finder ended."""
        self.finders.pop(serial, None)

    def open(self, answer, room, query):
        """A cursor was opened, or none."""
        if word_of(answer) == "opened":
            listing = Listing(self.commits, wanted(self.keys, query), len(self.commits), False)
            self.followers.append(Follower(listing, room, True))

    def follow(self, answer, room, commit, query):
        """A cursor was opened that follows a commit, or none."""
        if word_of(answer) == "opened":
            listing = Listing(self.commits, wanted(self.keys, query), commit, True)
            self.followers.append(Follower(listing, room, False))

    def open_follower(self, serial):
        """The open cursor with a serial, or none."""
        follower = self.followers[serial - 1] if 1 <= serial <= len(self.followers) else None
        return follower if follower and follower.is_open else None

    def turn(self, answer, serial):
        """A cursor did a piece of work."""
        follower = self.open_follower(serial)
        if follower:
            follower.turn(answer, self.commits, self.pages)

    def askmark(self, answer, serial):
        """A mark was requested."""
        follower = self.open_follower(serial)
        if follower:
            follower.askings.append(len(follower.offers))

    def take(self, answer, serial):
        """An item was taken, or nothing."""
        follower = self.open_follower(serial)
        if follower:
            follower.take(answer)

    def close(self, answer, serial):
        """A cursor was closed."""
        follower = self.open_follower(serial)
        if follower:
            follower.is_open = False

    def end(self):
        """The list ends as each does: all pages were swept with no scan under way, and one cursor delivered every row."""
        demand(self.swept == len(self.commits.ended), "dead rows were left that no scan needs")
        last = self.followers[-1]
        is_whole = last.listing.is_whole(len(self.commits)) and last.last_mark >= 0
        demand(is_whole, "the last cursor didn't give every row and then a mark")


def first_flaw(keys, trace):
    """The place of the first flaw of a trace, and what is wrong there; or none."""
    checker = TraceChecker(keys)
    place = 0
    try:
        for place, (line, answer) in enumerate(trace):
            checker.take_in(line, answer)
        checker.end()
    except Flaw as flaw:
        return place, str(flaw)
    except (ValueError, IndexError):
        return place, "an answer doesn't have the numbers that it has to have"
    return None
