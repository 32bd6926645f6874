"""The numbers and names of refusals, and how one is answered."""

NAMES = {
    1: "OutOfMemory", 2: "BadConfig", 3: "PagesFull", 4: "CommitsFull", 5: "CursorsFull", 6: "FindersFull",
    7: "NotHere", 8: "NodeFull", 9: "TooFew", 10: "Uncovered", 11: "Owed", 12: "Unhung", 13: "BadSides",
    14: "NoSuchRow", 15: "AlreadyDeleted", 16: "NoSuchCursor", 17: "CursorClosed", 18: "NoRoom", 19: "Idle",
    20: "NoSuchFinder", 21: "QueryText", 22: "Line", 23: "FromFuture",
}
NUMBERS = {name: number for number, name in NAMES.items()}


class Refused(Exception):
    """A refusal with its number."""

    def __init__(self, name):
        super().__init__(name)
        self.number = NUMBERS[name]


def refusal_line(number, place=None):
    """The answer for a refusal, with its place if it has one."""
    return f"refused {number} {NAMES[number]}" + ("" if place is None else f" {place}")


def refused_number(answer):
    """The number of an answer's refusal, or None."""
    words = answer.split(" ")
    return int(words[1]) if words[0] == "refused" else None
