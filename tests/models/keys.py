"""Keys of the three classes, what an atom and a query say of them, and how keys are written.

Keys of intervals and boxes are tuples, first the lower ends and then the upper ones. A key of sets is a number whose
bit e tells whether the element e is in. A query is a tuple: a relation and a key, `and` or `or` and two queries, or
`not` and a query. Each class also says what follows from a bound for the keys that it covers: when nothing below it can
match.
"""
from functools import lru_cache

RELATIONS = ("overlaps", "within", "holds", "same")


class Ranges:
    """Intervals and boxes: a range of whole numbers in each dimension, both ends inside."""

    def __init__(self, name, dimensions, least, greatest):
        self.name = name
        self.dimensions = dimensions
        self.least = least
        self.greatest = greatest

    def covers(self, bound, key):
        """Whether a bound covers a key."""
        lower = all(outer <= inner for outer, inner in zip(bound[:self.dimensions], key[:self.dimensions]))
        return lower and all(inner <= outer for outer, inner in zip(bound[self.dimensions:], key[self.dimensions:]))

    def meets(self, key, other):
        """Whether two keys have a common point."""
        below = all(low <= high for low, high in zip(key[:self.dimensions], other[self.dimensions:]))
        return below and all(low <= high for low, high in zip(other[:self.dimensions], key[self.dimensions:]))

    def union(self, key, other):
        """The least key that covers two."""
        lower = map(min, key[:self.dimensions], other[:self.dimensions])
        return (*lower, *map(max, key[self.dimensions:], other[self.dimensions:]))

    def may_match_below(self, relation, bound, operand):
        """Whether a key that a bound covers may match an atom."""
        if relation in ("overlaps", "within"):
            return self.meets(bound, operand)
        return self.covers(bound, operand)

    def text(self, key):
        """A key as the program prints it."""
        return "(" + " ".join(map(str, key)) + ")"

    def everything(self):
        """A query that every key matches."""
        return ("within", (self.least,) * self.dimensions + (self.greatest,) * self.dimensions)


class Sets:
    """Sets of some of the numbers 0 to 127."""

    name = "set"
    most_elements = 128

    def covers(self, bound, key):
        """Whether each element of a set is in another."""
        return key & ~bound == 0

    def meets(self, key, other):
        """Whether two sets have a common element."""
        return key & other != 0

    def union(self, key, other):
        """The least set that covers two."""
        return key | other

    def may_match_below(self, relation, bound, operand):
        """Whether a set that a bound covers may match an atom. The empty set, below any bound, is within each set."""
        if relation == "within":
            return True
        return self.meets(bound, operand) if relation == "overlaps" else self.covers(bound, operand)

    def elements(self, key):
        """The elements of a set, rising."""
        return [element for element in range(self.most_elements) if key >> element & 1]

    def text(self, key):
        """A key as the program prints it."""
        return "{" + " ".join(map(str, self.elements(key))) + "}"

    def everything(self):
        """A query that every key matches: nothing has an element in common with the empty set."""
        return ("not", ("overlaps", 0))


INTERVALS = Ranges("interval", 1, -2**63, 2**63 - 1)
BOXES = Ranges("box", 2, -2**31, 2**31 - 1)
SETS = Sets()
CLASSES = (INTERVALS, BOXES, SETS)


def keys_of(name):
    """The keys of the class with a name."""
    return next(keys for keys in CLASSES if keys.name == name)


def atom_matches(keys, relation, key, operand):
    """Whether a key matches an atom."""
    if relation == "overlaps":
        return keys.meets(key, operand)
    if relation == "within":
        return keys.covers(operand, key)
    if relation == "holds":
        return keys.covers(key, operand)
    return key == operand


def matches(keys, query, key):
    """Whether a key matches a query."""
    if query[0] == "not":
        return not matches(keys, query[1], key)
    if query[0] == "and":
        return matches(keys, query[1], key) and matches(keys, query[2], key)
    if query[0] == "or":
        return matches(keys, query[1], key) or matches(keys, query[2], key)
    return atom_matches(keys, query[0], key, query[1])


def wanted(keys, query):
    """Tests whether keys match a query, and caches the results."""
    return lru_cache(maxsize=None)(lambda key: matches(keys, query, key))


def may_match_below(keys, query, bound):
    """Whether a key that a bound covers may match a query.

    That a bound may hold a match of q doesn't mean that all keys below it match q, so some key may always match `not
    q`.
    """
    if query[0] == "not":
        return True
    if query[0] == "and":
        return may_match_below(keys, query[1], bound) and may_match_below(keys, query[2], bound)
    if query[0] == "or":
        return may_match_below(keys, query[1], bound) or may_match_below(keys, query[2], bound)
    return keys.may_match_below(query[0], bound, query[1])


def depth(query):
    """How deep a query is; an atom is 1 deep."""
    return 1 if query[0] in RELATIONS else 1 + max(map(depth, query[1:]))
