"""Edits of a program's answers, in traces and in sessions. Wherever an edit applies, it makes right answers wrong.

An edit changes answers, or leaves out or inserts steps. It returns the edited steps, or none if it doesn't apply. A step
is a line and its answer; an answer of several lines is one text. The exception is `rows_exchanged`, after which right
answers are still right.
"""
from random_lists.drawn_lines import Line
from models.listings import Commits, is_mark, is_row
from models.refusals import refusal_line, refused_number

ITEMS = ("row", "inserted", "deleted", "moved", "mark")

# Of a refusal that follows from lines and answers alone, another one
OTHER_REFUSALS = {2: 23, 5: 2, 6: 15, 14: 15, 15: 14, 16: 17, 17: 16, 20: 15, 23: 2}


def word_of(answer):
    """The word that begins an answer; a line without a token has none."""
    return "" if answer is None else answer.split(" ")[0]


def raised(answer, index, by=1):
    """An answer with a greater number instead of one."""
    words = answer.split(" ")
    words[index] = str(int(words[index]) + by)
    return " ".join(words)


class Given:
    """An item that a cursor delivered, where, and the place of the turn that offered it."""

    def __init__(self, place, item, offered_at):
        self.place = place
        self.item = item
        self.offered_at = offered_at

    @property
    def is_row(self):
        """Whether it is a row of a snapshot."""
        return is_row(self.item)

    @property
    def is_mark(self):
        """Whether it is a mark."""
        return is_mark(self.item)

    @property
    def is_change(self):
        """Whether it is neither a row nor a mark."""
        return not self.is_row and not self.is_mark


class History:
    """What a cursor delivered, and when marks were requested."""

    def __init__(self, line):
        self.line = line
        self.offers = []
        self.given = []
        self.askings = []

    @property
    def follows(self):
        """Whether it follows a commit that is there."""
        return self.line.verb == "follow" and self.line.arguments[1] > 0


class Steps:
    """Lines and their right answers, and what follows from these.

    `giving` is the verb that gives items, `asking` the one for marks.
    """

    giving = asking = None

    def __init__(self, keys, steps, random):
        self.keys = keys
        self.random = random
        self.steps = steps
        self.commits = Commits(keys)
        self.counts = []
        self.cursors = {}
        for place, (line, answer) in enumerate(steps):
            self.counts.append(len(self.commits))
            self.note(place, line, answer)

    def write_of(self, line):
        """The commit that a line requests."""
        raise NotImplementedError

    def note(self, place, line, answer):
        """Notes what an answer says."""
        if word_of(answer) == "committed":
            self.commits.add(self.write_of(line))
        elif word_of(answer) == "opened":
            self.cursors[len(self.cursors) + 1] = History(line)
        elif line.verb == self.asking and answer == "asked":
            self.cursors[line.arguments[0]].askings.append(place)
        elif line.verb == self.giving and word_of(answer) in ITEMS:
            history = self.cursors[line.arguments[0]]
            offered_at = history.offers[len(history.given)] if history.offers else place
            history.given.append(Given(place, answer, offered_at))

    def any_of(self, choices):
        """One of some choices, or None if there is none."""
        choices = list(choices)
        return self.random.choice(choices) if choices else None

    def places(self, *words):
        """The places of the answers that begin with one of some words."""
        return [place for place, (_, answer) in enumerate(self.steps) if word_of(answer) in words]

    def refusals(self, numbers, verbs=()):
        """The places of some refusals: of all lines, or of some verbs."""
        refused = [place for place in self.places("refused") if refused_number(self.answer(place)) in numbers]
        return [place for place in refused if not verbs or self.steps[place][0].verb in verbs]

    def given(self, is_fitting=lambda given: True):
        """The items that cursors delivered and that fit."""
        return [given for history in self.cursors.values() for given in history.given if is_fitting(given)]

    def pairs(self, is_fitting):
        """The items that fit and that one cursor delivered one after the other."""
        histories = [history.given for history in self.cursors.values()]
        couples = [couple for given in histories for couple in zip(given, given[1:])]
        return [(first, second) for first, second in couples if is_fitting(first) and is_fitting(second)]

    def answer(self, place):
        """The answer at a place."""
        return self.steps[place][1]

    def changed(self, answers):
        """The steps with other answers at some places."""
        steps = list(self.steps)
        for place, answer in answers.items():
            steps[place] = (steps[place][0], answer)
        return steps

    def without(self, places):
        """The steps without those at some places."""
        left_out = set(places)
        return [step for place, step in enumerate(self.steps) if place not in left_out]

    def with_another(self, place, cursor, item, answers):
        """The steps with other answers, and an item of a cursor inserted after a place."""
        steps = self.changed(answers)
        line = Line(self.giving, (cursor,), f"{self.giving} {cursor}".encode("ascii"))
        return steps[:place + 1] + [(line, item)] + steps[place + 1:]

    def changed_at_one(self, places, edit):
        """The steps with the answer at one of some places changed by a function, or none."""
        place = self.any_of(places)
        return None if place is None else self.changed({place: edit(self.answer(place))})

    def next_commit_at(self, places):
        """The steps with the next commit as the answer at one of some places, or none."""
        place = self.any_of(places)
        return None if place is None else self.changed({place: f"committed {self.counts[place] + 1}"})


# What cursors give

def row_doubled(steps):
    """A row is delivered again instead of the next one."""
    pair = steps.any_of(steps.pairs(lambda given: given.is_row))
    return pair and steps.changed({pair[1].place: pair[0].item})


def row_given_besides(steps):
    """A row is delivered again after everything else."""
    choices = []
    for cursor, history in steps.cursors.items():
        choices += [(history.given[-1].place, cursor, given.item) for given in history.given if given.is_row]
    choice = steps.any_of(choices)
    return choice and steps.with_another(*choice, {})


def change_doubled(steps):
    """A change is delivered again instead of the next one."""
    pair = steps.any_of(steps.pairs(lambda given: given.is_change))
    return pair and steps.changed({pair[1].place: pair[0].item})


def item_of_another(steps):
    """An item is delivered that is another cursor's: a change, or a row to one that delivered all its rows."""
    items, choices = {given.item for given in steps.given() if not given.is_mark}, []
    for history in steps.cursors.values():
        own = {given.item for given in history.given}
        is_past_rows = any(not given.is_row for given in history.given)
        choices += [(given.place, own) for given in history.given if given.is_change or given.is_row and is_past_rows]
    place, own = steps.any_of(choices) or (None, set())
    other = steps.any_of(sorted(items - own))
    return None if place is None or other is None else steps.changed({place: other})


def exchanged(steps, is_fitting):
    """The steps with two items exchanged that follow each other and fit, or none."""
    pair = steps.any_of(steps.pairs(is_fitting))
    return pair and steps.changed({pair[0].place: pair[1].item, pair[1].place: pair[0].item})


def changes_exchanged(steps):
    """Two changes that follow each other are delivered in the other order."""
    return exchanged(steps, lambda given: given.is_change)


def rows_exchanged(steps):
    """Two rows of a snapshot are delivered in the other order, which is as good."""
    return exchanged(steps, lambda given: given.is_row)


def mark_too_high(steps):
    """A mark has the next commit's number."""
    return steps.changed_at_one(steps.places("mark"), lambda answer: raised(answer, 1))


def mark_too_low(steps):
    """A mark has the previous commit's number."""
    return steps.changed_at_one(steps.places("mark"), lambda answer: raised(answer, 1, -1))


def mark_doubled(steps):
    """A mark is delivered twice for one request."""
    marks = [(cursor, it) for cursor, history in steps.cursors.items() for it in history.given if it.is_mark]
    mark = steps.any_of(marks)
    return mark and steps.with_another(mark[1].place, mark[0], mark[1].item, {})


def unasked_mark(steps):
    """A mark is delivered that nobody requested."""
    choices = []
    for history in steps.cursors.values():
        first = next((given.place for given in history.given if given.is_mark), None)
        if first is not None:
            choices.append([place for place in history.askings if place < first])
    askings = steps.any_of(choices)
    return askings and steps.without(askings)


def lost(steps, is_fitting):
    """The steps without an item that fits, if its cursor delivered a change or a mark later."""
    choices = []
    for history in steps.cursors.values():
        last = max((given.place for given in history.given if not given.is_row), default=-1)
        choices += [given.place for given in history.given if is_fitting(given) and given.place < last]
    place = steps.any_of(choices)
    return None if place is None else steps.without([place])


def row_lost(steps):
    """A row of a snapshot isn't delivered, but what follows it is."""
    return lost(steps, lambda given: given.is_row)


def change_lost(steps):
    """A change isn't delivered, but what follows it is."""
    return lost(steps, lambda given: given.is_change)


def given_after_closing(steps):
    """A closed cursor delivers an item."""
    item = steps.any_of(given.item for given in steps.given())
    return item and steps.changed_at_one(steps.refusals([17], [steps.giving]), lambda answer: item)


def nothing_after_closing(steps):
    """A closed cursor has nothing left, instead of a refusal."""
    nothing = {"take": "nothing", "next": "empty"}[steps.giving]
    return steps.changed_at_one(steps.refusals([17], [steps.giving]), lambda answer: nothing)


def first_items(steps):
    """The items with which cursors begin that follow a commit, and the number of that commit."""
    histories = [history for history in steps.cursors.values() if history.follows and history.given]
    return [(history.given[0], history.line.arguments[1]) for history in histories if not history.given[0].is_mark]


def begins_with_its_commit(steps):
    """A cursor that follows a commit begins with that commit's own change."""
    first = steps.any_of(first_items(steps))
    return first and steps.changed({first[0].place: steps.commits.change(lambda key: True, first[1])})


def row_to_follower(steps):
    """A cursor that follows a commit begins with a row."""
    row = steps.any_of(given.item for given in steps.given() if given.is_row)
    return row and steps.changed_at_one([given.place for given, _ in first_items(steps)], lambda answer: row)


def row_after_changes(steps):
    """A row is delivered instead of a change."""
    row = steps.any_of(given.item for given in steps.given() if given.is_row)
    return row and steps.changed_at_one([given.place for given in steps.given() if given.is_change], lambda answer: row)


def other_tag(steps):
    """An item has another tag."""
    return steps.changed_at_one(steps.places("row", "inserted", "moved"), lambda answer: raised(answer, -1))


def other_key(steps):
    """An item has the key of another row."""
    texts = sorted({steps.keys.text(row.key) for row in steps.commits.rows.values()})
    place = steps.any_of(steps.places("row", "inserted", "moved"))
    if place is None:
        return None
    first = min(steps.answer(place).find(opening) for opening in "({" if opening in steps.answer(place))
    last = max(steps.answer(place).find(closing) for closing in ")}")
    answer = steps.answer(place)
    other = steps.any_of(text for text in texts if text != answer[first:last + 1])
    return other and steps.changed({place: answer[:first] + other + answer[last + 1:]})


def other_deleted_row(steps):
    """A delete names another row."""
    return steps.changed_at_one(steps.places("deleted"), lambda answer: raised(answer, 2))


def other_moved_row(steps):
    """A move names another row that it ended."""
    return steps.changed_at_one(steps.places("moved"), lambda answer: raised(answer, 2))


def other_commit(steps):
    """A change has the number of another commit."""
    return steps.changed_at_one([given.place for given in steps.given() if given.is_change], lambda it: raised(it, 1))


def delete_told_as_move(steps):
    """A delete, or a move out of a query, is delivered as a move within it."""
    def edit(answer):
        """The answer that replaces it."""
        _, commit, number = answer.split(" ")
        row = steps.commits.rows[int(number)]
        return f"moved {commit} {number} {steps.keys.text(row.key)} {row.tag}"
    return steps.changed_at_one(steps.places("deleted"), edit)


def move_told_otherwise(steps):
    """A move within a query is delivered as an insert or as a delete."""
    def edit(answer):
        """The answer that replaces it."""
        _, commit, row, rest = answer.split(" ", 3)
        return steps.random.choice((f"inserted {commit} {rest}", f"deleted {commit} {row}"))
    return steps.changed_at_one(steps.places("moved"), edit)


def insert_told_as_move(steps):
    """An insert, or a move into a query, is delivered as a move within it."""
    def edit(answer):
        """The answer that replaces it."""
        _, commit, rest = answer.split(" ", 2)
        return f"moved {commit} {int(commit) - 1} {rest}"
    return steps.changed_at_one(steps.places("inserted"), edit)


# Commits, serials and refusals

def commit_skipped(steps):
    """A commit has the number after the next."""
    return steps.changed_at_one(steps.places("committed"), lambda answer: raised(answer, 1))


def dead_row_ended(steps):
    """A row that ended ends again."""
    return steps.next_commit_at(steps.refusals([15], ["seek", "move", "delete"]))


def commit_by_other_line(steps):
    """A line makes a commit that requests none."""
    return steps.next_commit_at(steps.places("asked", "closed", "swept", "opened"))


def cursor_serial_skipped(steps):
    """A cursor gets the serial after the next."""
    return steps.changed_at_one(steps.places("opened"), lambda answer: raised(answer, 1))


def cursor_serial_twice(steps):
    """Two cursors get one serial."""
    return steps.changed_at_one(steps.places("opened")[1:], lambda answer: raised(answer, 1, -1))


def other_refusal(steps):
    """Another refusal than the expected one."""
    def edit(answer):
        """The answer that replaces it."""
        return refusal_line(OTHER_REFUSALS[refused_number(answer)])
    return steps.changed_at_one(steps.refusals(OTHER_REFUSALS), edit)


def opening_refused(steps):
    """An opening is refused that may be."""
    return steps.changed_at_one(steps.places("opened"), lambda answer: refusal_line(steps.random.choice((2, 5, 23))))


def future_followed(steps):
    """A commit is followed that isn't there yet."""
    place = steps.any_of(steps.refusals([23]))
    if place is None:
        return None
    return steps.changed({place: f"opened {1 + sum(opened < place for opened in steps.places('opened'))}"})


def wrong_place(steps):
    """A line is refused at the place after that of its fault."""
    return steps.changed_at_one(steps.refusals([21, 22]), lambda answer: raised(answer, 3))


def fault_of_line(steps):
    """The fault of a query is reported as one of the line, or the other way round."""
    def edit(answer):
        """The answer that replaces it."""
        return refusal_line(43 - refused_number(answer), answer.split(" ")[3])
    return steps.changed_at_one(steps.refusals([21, 22]), edit)


def want_of_memory(steps):
    """A line is answered as if memory had run out."""
    return steps.changed_at_one(steps.places("committed", "opened", "swept"), lambda answer: refusal_line(1))


EDITS = [
    row_given_besides, change_doubled, item_of_another, nothing_after_closing, other_moved_row, other_commit,
    delete_told_as_move, commit_by_other_line, cursor_serial_skipped, row_doubled, changes_exchanged, mark_too_high,
    mark_too_low, mark_doubled, unasked_mark, row_lost, change_lost, given_after_closing, begins_with_its_commit,
    row_to_follower, row_after_changes, other_tag, other_key, other_deleted_row, move_told_otherwise,
    insert_told_as_move, commit_skipped, dead_row_ended, cursor_serial_twice, other_refusal, opening_refused,
    future_followed, wrong_place, fault_of_line, want_of_memory,
]
ALLOWED = [rows_exchanged]
