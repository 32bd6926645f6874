"""Edits of sessions, in addition to those of sessions and traces alike: of found rows, of sweeps and of what is left."""
from random_lists import edits
from random_lists.edits import Steps, raised


class Edited(Steps):
    """A session with right answers, and what follows from these."""

    giving, asking = "next", "mark"

    def write_of(self, line):
        """The commit of a line."""
        return (line.verb, *line.arguments)


def found_rows(talk, least):
    """The places of finds that found at least `least` rows."""
    return [place for place in talk.places("found") if talk.answer(place).count("\n") >= least]


def found_row_lost(talk):
    """A find leaves out a row, and doesn't count it."""
    def edit(answer):
        """The answer that replaces it."""
        lines = answer.split("\n")
        del lines[talk.random.randrange(1, len(lines))]
        return "\n".join([f"found {len(lines) - 1}", *lines[1:]])
    return talk.changed_at_one(found_rows(talk, 1), edit)


def found_row_doubled(talk):
    """A find returns a row twice, and counts it twice."""
    def edit(answer):
        """The answer that replaces it."""
        lines = answer.split("\n")
        return "\n".join([f"found {len(lines)}", *lines[1:], lines[-1]])
    return talk.changed_at_one(found_rows(talk, 1), edit)


def found_rows_exchanged(talk):
    """A find returns two rows in the other order."""
    def edit(answer):
        """The answer that replaces it."""
        lines = answer.split("\n")
        place = talk.random.randrange(1, len(lines) - 1)
        lines[place:place + 2] = lines[place + 1], lines[place]
        return "\n".join(lines)
    return talk.changed_at_one(found_rows(talk, 2), edit)


def found_count_wrong(talk):
    """A find counts one row more than it returns."""
    def edit(answer):
        """The answer that replaces it."""
        first, *rows = answer.split("\n")
        return "\n".join([raised(first, 1), *rows])
    return talk.changed_at_one(found_rows(talk, 0), edit)


def dead_row_found(talk):
    """A find returns a row that ended."""
    choices = []
    for place in found_rows(talk, 0):
        dead = [row for row, died in talk.commits.ended.items() if died <= talk.counts[place]]
        choices += [(place, row) for row in dead[:1]]
    choice = talk.any_of(choices)
    if choice is None:
        return None
    place, number = choice
    rows = talk.answer(place).split("\n")[1:] + [talk.commits.row_line(talk.commits.rows[number])]
    rows.sort(key=lambda row: int(row.split(" ")[1]))
    return talk.changed({place: "\n".join([f"found {len(rows)}", *rows])})


def empty_too_early(talk):
    """Nothing is left, though there is an item."""
    return talk.changed_at_one([given.place for given in talk.given()], lambda answer: "empty")


def mark_for_empty(talk):
    """A mark is delivered that wasn't requested, instead of `empty`."""
    place = talk.any_of(talk.places("empty"))
    return None if place is None else talk.changed({place: f"mark {talk.counts[place]}"})


def too_many_swept(talk):
    """A sweep counts more rows than are dead."""
    return talk.changed_at_one(talk.places("swept"), lambda answer: f"swept {len(talk.commits.ended) + 1}")


def too_few_swept(talk):
    """The last sweep, with no cursor open, counts one row less."""
    last = talk.places("swept")[-1]
    return None if talk.answer(last) == "swept 0" else talk.changed({last: raised(talk.answer(last), 1, -1)})


def cursor_unknown(talk):
    """An open cursor is refused as unknown, or as closed."""
    return talk.changed_at_one(talk.places("asked", "closed", "empty"), lambda answer: "refused 16 NoSuchCursor")


EDITS = edits.EDITS + [
    found_row_lost, found_row_doubled, found_rows_exchanged, found_count_wrong, dead_row_found, empty_too_early,
    mark_for_empty, too_many_swept, too_few_swept, cursor_unknown,
]
ALLOWED = edits.ALLOWED
