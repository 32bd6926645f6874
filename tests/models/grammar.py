"""A slow reader of lines, written only from the grammar: the request of a line of a session or a replay, or its fault.

A line is a run of tokens with spaces before, between and after them. A token is one of `( ) { }`, a word of the
letters `a` to `z`, or a number: digits, perhaps with a `-` before them. Words and numbers need a space between them;
one without it is no token, nor is a byte that can't begin one. Lines are read from the left, and the first fault is
reported:

- from where a query begins: `refused 21 QueryText PLACE`, for any other fault: `refused 22 Line PLACE`;
- the place is that of the token that isn't allowed there or whose number is out of its range, of the opening bracket of a
  key whose ends are out of order (once its closing bracket was read), or the line's length if it ends too early;
- last, a query deeper than 32, an atom being 1, is refused at its first token;
- a line of more than 4,096 bytes is refused at 4,096, whatever it says.

Keys and queries are those of keys.py.
"""
import functools
import re
import sys
from typing import NamedTuple

MOST_BYTES = 4_096
MOST_DEPTH = 32

RELATIONS = (b"overlaps", b"within", b"holds", b"same")

# The ranges of numbers: tags, rows, pages, serials and rooms; ends of intervals; sides of boxes; elements of sets
UNSIGNED = range(2**64)
SIGNED = range(-(2**63), 2**63)
SHORT = range(-(2**31), 2**31)
ELEMENT = range(128)

TOKEN = re.compile(rb"[a-z]+|-?[0-9]+|[(){}]")

# What begins a token, and the space: all other bytes are read as one of them is, as `?`
KNOWN = b"abcdefghijklmnopqrstuvwxyz0123456789(){}- "
AS_READ = bytes(byte if byte in KNOWN else ord("?") for byte in range(256))

# A line may open as many brackets as it has bytes, and the reader calls itself for each
sys.setrecursionlimit(50_000)


class Token(NamedTuple):
    """A token, and where it begins. Its kind is a bracket, `word`, `number` or `stray`."""

    kind: str
    text: bytes
    place: int


class Request(NamedTuple):
    """The request of a line: a verb and its arguments.

    A line without a token is `blank`; a wrong line is a `fault`, whose argument is the answer; `open ROOM from N QUERY`
    is `follow`.
    """

    verb: str
    arguments: tuple = ()


class Fault(Exception):
    """A line is wrong at a place."""


def kind_of(text):
    """The kind of a token that isn't stray."""
    first = text[:1]
    if first in (b"(", b")", b"{", b"}"):
        return first.decode("ascii")
    return "word" if first.isalpha() else "number"


def tokens_of(line):
    """The tokens of a line. A stray one is the last: nothing after it is ever read."""
    tokens, place, is_close = [], 0, False
    while place < len(line):
        if line[place] == ord(" "):
            place, is_close = place + 1, False
            continue
        found = TOKEN.match(line, place)
        if not found:
            return [*tokens, Token("stray", line[place:place + 1], place)]
        kind = kind_of(found[0])
        needs_space = kind in ("word", "number")
        if needs_space and is_close:
            return [*tokens, Token("stray", found[0], place)]
        tokens.append(Token(kind, found[0], place))
        place, is_close = found.end(), needs_space
    return tokens


class Reading:
    """A line that is read token by token, and how many tokens have been read."""

    def __init__(self, class_name, line):
        self.class_name = class_name
        self.tokens = tokens_of(line)
        self.end = Token("end", b"", len(line))
        self.read = 0
        self.is_in_query = False

    def front(self):
        """The token that comes next, or the line's end."""
        return self.tokens[self.read] if self.read < len(self.tokens) else self.end

    def fault(self, place):
        """The refusal of a fault at a place."""
        return Fault(f"refused 21 QueryText {place}" if self.is_in_query else f"refused 22 Line {place}")

    def take(self, kind):
        """The next token, which has to be of this kind."""
        token = self.front()
        if token.kind != kind:
            raise self.fault(token.place)
        self.read += 1
        return token

    def takes_word(self, word):
        """Whether the next token is this word, which is then read."""
        is_there = self.front().kind == "word" and self.front().text == word
        self.read += is_there
        return is_there

    def number(self, allowed=UNSIGNED):
        """The next number, which has to be in this range."""
        token = self.take("number")
        number = int(token.text)
        if number not in allowed:
            raise self.fault(token.place)
        return number

    def sides(self):
        """A word of the letters `l` and `r`."""
        token = self.take("word")
        if set(token.text) - set(b"lr"):
            raise self.fault(token.place)
        return token.text.decode("ascii")

    def key(self):
        """The next key."""
        readers = {"interval": self.interval, "box": self.box, "set": self.elements}
        return readers[self.class_name]()

    def interval(self):
        """`(lo hi)`, with lo at most hi."""
        place = self.take("(").place
        low, high = self.number(SIGNED), self.number(SIGNED)
        self.take(")")
        if low > high:
            raise self.fault(place)
        return low, high

    def box(self):
        """`(x1 y1 x2 y2)`, with x1 at most x2 and y1 at most y2."""
        place = self.take("(").place
        left, low, right, high = (self.number(SHORT) for _ in range(4))
        self.take(")")
        if left > right or low > high:
            raise self.fault(place)
        return left, low, right, high

    def elements(self):
        """`{`, numbers from 0 to 127 in any order, `}`."""
        self.take("{")
        elements = 0
        while self.front().kind != "}":
            elements |= 1 << self.number(ELEMENT)
        self.take("}")
        return elements

    def query(self):
        """A query, up to the line's end."""
        self.is_in_query = True
        first = self.front().place
        query, depth = self.alternatives()
        self.line_end()
        if depth > MOST_DEPTH:
            raise self.fault(first)
        return query

    def alternatives(self):
        """Conjunctions with `or` between them, grouped to the left, and their depth."""
        return self.joined(b"or", self.conjunction)

    def conjunction(self):
        """Units with `and` between them, grouped to the left, and their depth."""
        return self.joined(b"and", self.unit)

    def joined(self, word, read_part):
        """Parts with a word between them, grouped to the left, and their depth."""
        query, depth = read_part()
        while self.takes_word(word):
            other, other_depth = read_part()
            query, depth = (word.decode("ascii"), query, other), 1 + max(depth, other_depth)
        return query, depth

    def unit(self):
        """`not` and a unit, a query in round brackets, or a relation and a key, and its depth."""
        if self.takes_word(b"not"):
            query, depth = self.unit()
            return ("not", query), depth + 1
        if self.front().kind == "(":
            self.take("(")
            inner = self.alternatives()
            self.take(")")
            return inner
        relation = self.take("word")
        if relation.text not in RELATIONS:
            raise self.fault(relation.place)
        return (relation.text.decode("ascii"), self.key()), 1

    def line_end(self):
        """Nothing may be left."""
        if self.front() is not self.end:
            raise self.fault(self.front().place)

    def opening(self):
        """What follows `open`: the room, the commit after `from` if there is one, and the query."""
        room = self.number()
        return (room, self.number(), self.query()) if self.takes_word(b"from") else (room, self.query())

    def numbers(self, count):
        """Several numbers, one after the other."""
        return tuple(self.number() for _ in range(count))


# What comes after each word of a session's line
COMMANDS = {
    b"insert": lambda line: (line.key(), line.number()),
    b"delete": lambda line: line.numbers(1),
    b"move": lambda line: (line.number(), line.key()),
    b"open": Reading.opening,
    b"next": lambda line: line.numbers(1),
    b"mark": lambda line: line.numbers(1),
    b"find": lambda line: (line.query(),),
    b"sweep": lambda line: (),
    b"close": lambda line: line.numbers(1),
}

# What comes after each word of an event's line
EVENTS = {
    b"enlarge": lambda line: (*line.numbers(2), line.key()),
    b"place": lambda line: (line.number(), line.key(), line.number()),
    b"split": lambda line: (line.number(), line.sides()),
    b"post": lambda line: line.numbers(2),
    b"grow": lambda line: (line.sides(),),
    b"find": lambda line: line.numbers(1),
    b"seek": lambda line: line.numbers(1),
    b"move": lambda line: (*line.numbers(2), line.key()),
    b"unfind": lambda line: line.numbers(1),
    b"sweep": lambda line: line.numbers(1),
    b"open": Reading.opening,
    b"turn": lambda line: line.numbers(1),
    b"askmark": lambda line: line.numbers(1),
    b"take": lambda line: line.numbers(1),
    b"close": lambda line: line.numbers(1),
}

LANGUAGES = {"serve": COMMANDS, "replay": EVENTS}


@functools.cache
def read_known(language, class_name, line):
    """The request of a line, as `read_line` returns it; bytes that begin no token are replaced by `?`."""
    reading = Reading(class_name, line)
    if not reading.tokens:
        return Request("blank")
    word = reading.front()
    try:
        reading.take("word")
        if word.text not in LANGUAGES[language]:
            raise reading.fault(word.place)
        values = LANGUAGES[language][word.text](reading)
        reading.line_end()
    except Fault as fault:
        return Request("fault", (str(fault),))
    is_follow = word.text == b"open" and len(values) == 3
    return Request("follow" if is_follow else word.text.decode("ascii"), values)


def read_line(language, class_name, line):
    """The request of a line, which has no line feed.

    To the grammar all bytes that begin no token are alike, so they are replaced by one of them, and results are cached:
    a line that is like an earlier one isn't read again.
    """
    if len(line) > MOST_BYTES:
        return Request("fault", (f"refused 22 Line {MOST_BYTES}",))
    return read_known(language, class_name, line.translate(AS_READ))


def forget():
    """Clears the cache of lines that were read."""
    read_known.cache_clear()
