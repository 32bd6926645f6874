"""Edits of traces, in addition to those of sessions and traces alike: of mailboxes, turns, pages and finders."""
from random_lists import edits
from random_lists.edits import Steps, raised, word_of
from models.refusals import refusal_line


class Edited(Steps):
    """A faithful trace, and what follows from its answers."""

    giving, asking = "take", "askmark"

    def __init__(self, keys, steps, random):
        self.finders = {}
        super().__init__(keys, steps, random)

    def write_of(self, line):
        """The commit of an event."""
        if line.verb == "place":
            return ("insert", *line.arguments[1:])
        row = self.finders[line.arguments[0]]
        return ("delete", row) if line.verb == "seek" else ("move", row, line.arguments[2])

    def note(self, place, line, answer):
        """Notes what an answer says, also about finders and offers."""
        super().note(place, line, answer)
        if word_of(answer) == "finder":
            self.finders[int(answer.split(" ")[1])] = line.arguments[0]
        elif answer == "offered":
            self.cursors[line.arguments[0]].offers.append(place)

    def cursor_at(self, place):
        """The serial of the cursor of a step."""
        return self.steps[place][0].arguments[0]


def waiting_at(trace, word):
    """The places of the answers with a word at which nothing waits in the mailbox of the step's cursor."""
    waiting, places = {}, []
    for place, (line, answer) in enumerate(trace.steps):
        if line.verb in ("turn", "take"):
            change = (answer == "offered") - (line.verb == "take" and word_of(answer) in edits.ITEMS)
            waiting[line.arguments[0]] = waiting.get(line.arguments[0], 0) + change
            if word_of(answer) == word and waiting[line.arguments[0]] == 0:
                places.append(place)
    return places


# Mailboxes and turns

def passed_commit_given(trace):
    """A commit that doesn't match the query is delivered."""
    place = trace.any_of(waiting_at(trace, "passed"))
    if place is None:
        return None
    item = trace.commits.change(lambda key: True, int(trace.answer(place).split(" ")[1]))
    return trace.with_another(place, trace.cursor_at(place), item, {place: "offered"})


def given_before_offered(trace):
    """An item is delivered before it was offered."""
    choices = []
    for place in waiting_at(trace, "nothing"):
        given = trace.cursors[trace.cursor_at(place)].given
        choices += [{place: later.item} for later in given if later.place > place][:1]
    answers = trace.any_of(choices)
    return answers and trace.changed(answers)


def nothing_given(trace):
    """Nothing is delivered although an item waits."""
    return trace.changed_at_one([given.place for given in trace.given()], lambda answer: "nothing")


def offered_without_room(trace):
    """An item is offered to a full mailbox."""
    return trace.changed_at_one(trace.refusals([18]), lambda answer: "offered")


def refused_with_room(trace):
    """An offer is refused though there is room."""
    return trace.changed_at_one(trace.places("offered"), lambda answer: refusal_line(18))


def idle_too_early(trace):
    """A cursor has nothing to do though there are rows to deliver, which it delivers later."""
    choices = []
    for place in trace.places("visited"):
        given = trace.cursors[trace.cursor_at(place)].given
        if any(later.offered_at > place and later.is_row for later in given):
            choices.append(place)
    return trace.changed_at_one(choices, lambda answer: refusal_line(19))


def mark_forgotten(trace):
    """A cursor has nothing to do though a mark was requested."""
    mark = trace.any_of(given for given in trace.given() if given.is_mark)
    if mark is None:
        return None
    steps = trace.changed({mark.offered_at: refusal_line(19)})
    return steps[:mark.place] + steps[mark.place + 1:]


def offered_too_early(trace):
    """A change is offered before its commit, and nothing later."""
    choices, idle = [], {}
    for place in trace.refusals([19]):
        idle.setdefault(trace.cursor_at(place), []).append(place)
    for serial, history in trace.cursors.items():
        for given in (given for given in history.given if given.is_change):
            before = [place for place in idle.get(serial, []) if place < given.offered_at]
            if before and trace.counts[before[-1]] < int(given.item.split(" ")[1]):
                choices.append({before[-1]: "offered", given.offered_at: refusal_line(19)})
    answers = trace.any_of(choices)
    return answers and trace.changed(answers)


def visits_without_pages(trace):
    """A cursor that went past a commit, or that follows one, visits a page."""
    passing, choices = set(), []
    for place in trace.places("passed"):
        cursor = trace.cursor_at(place)
        if cursor in passing or trace.cursors[cursor].line.verb == "follow":
            choices.append(place)
        passing.add(cursor)
    return trace.changed_at_one(choices, lambda answer: "visited 0")


def pass_forgotten(trace):
    """A commit is neither offered nor passed, but the next one is; and all that was offered until then is taken."""
    choices = []
    for place, next_place in zip(trace.places("passed"), trace.places("passed")[1:]):
        history = trace.cursors[trace.cursor_at(place)]
        offered = sum(offer < next_place for offer in history.offers)
        if history is trace.cursors[trace.cursor_at(next_place)] and offered <= len(history.given):
            choices.append(place)
    place = trace.any_of(choices)
    return None if place is None else trace.without([place])


def visits_no_page(trace):
    """A page is visited that isn't there."""
    return trace.changed_at_one(trace.places("visited"), lambda answer: raised(answer, 1, len(trace.steps)))


def change_passed(trace):
    """A commit with an item is passed."""
    given = trace.any_of(given for given in trace.given() if given.is_change)
    return given and trace.changed({given.offered_at: "passed " + given.item.split(" ")[1]})


def passes_no_commit(trace):
    """A commit is passed that isn't there yet."""
    place = trace.any_of(trace.places("passed"))
    return None if place is None else trace.changed({place: f"passed {trace.counts[place] + 1}"})


# Finders, pages and sweeps

def commit_by_no_finder(trace):
    """A finder that isn't open makes a commit."""
    return trace.next_commit_at(trace.refusals([20], ["seek", "move"]))


def commit_hidden(trace):
    """A finder that ended its row is answered as if it went on."""
    places = [place for place in trace.places("committed") if trace.steps[place][0].verb in ("seek", "move")]
    return trace.changed_at_one(places, lambda answer: "seeking")


def ended_finder_goes_on(trace):
    """A finder that isn't open goes on."""
    return trace.changed_at_one(trace.refusals([20], ["seek", "move"]), lambda answer: "seeking")


def finder_of_no_row(trace):
    """A finder is opened of a row that ended, or that is none."""
    place = trace.any_of(trace.refusals([14, 15], ["find"]))
    count = sum(opened < (place or 0) for opened in trace.places("finder"))
    return None if place is None else trace.changed({place: f"finder {count + 1}"})


def finder_serial_twice(trace):
    """Two finders get one serial."""
    return trace.changed_at_one(trace.places("finder")[1:], lambda answer: raised(answer, 1, -1))


def finder_refused(trace):
    """A finder of a live row isn't opened; or an open one is refused as unknown, or because its row has ended."""
    def edit(answer):
        """The answer that replaces it."""
        return refusal_line(trace.random.choice((15, 20) if answer == "seeking" else (6, 14, 15)))
    return trace.changed_at_one(trace.places("seeking", "finder"), edit)


def cursor_unknown(trace):
    """An open cursor is refused as unknown, or as closed."""
    places = trace.places("asked", "closed", "offered", "passed")
    return trace.changed_at_one(places, lambda answer: refusal_line(trace.random.choice((16, 17))))


def too_many_swept(trace):
    """A sweep counts one row more."""
    return trace.changed_at_one(trace.places("swept"), lambda answer: raised(answer, 1))


def too_few_swept(trace):
    """A sweep counts one row less."""
    places = [place for place in trace.places("swept") if trace.answer(place) != "swept 0"]
    return trace.changed_at_one(places, lambda answer: raised(answer, 1, -1))


def page_skipped(trace):
    """A page that is made has the number after the next."""
    return trace.changed_at_one(trace.places("split", "grown"), lambda answer: raised(answer, 1))


def ends_early(trace):
    """The last cursor doesn't deliver the mark after every row."""
    marks = trace.places("mark")
    return trace.steps[:marks[-1]] if marks else None


EDITS = edits.EDITS + [
    passed_commit_given, given_before_offered, nothing_given, offered_without_room, refused_with_room, idle_too_early,
    mark_forgotten, offered_too_early, visits_without_pages, pass_forgotten, visits_no_page, change_passed,
    passes_no_commit, commit_hidden, ended_finder_goes_on, finder_of_no_row, commit_by_no_finder, finder_serial_twice,
    finder_refused, cursor_unknown, too_many_swept, too_few_swept, page_skipped, ends_early,
]
ALLOWED = edits.ALLOWED
