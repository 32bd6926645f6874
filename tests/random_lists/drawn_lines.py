"""Random lines: keys, queries and numbers as tokens, the spaces between them, and lines that are refused at a known
place."""
import string
from typing import NamedTuple, Optional

from models.keys import RELATIONS, Sets, depth
from models.refusals import NUMBERS, refusal_line

GREATEST = 2**64 - 1
MOST_BYTES = 4_096
MOST_DEPTH = 32
LETTERS = set(string.ascii_lowercase)
DIGITS = set(string.digits)

# Bytes that begin no token
STRANGE = (b"?", b"A", b"\t", b"\r", b"\0", b"+1", b"-", b"- 1", b"\xff", b"\xc3\xa4", b"[", b"`", b"~", b"|")


class Line(NamedTuple):
    """A line: what it asks (a verb and its arguments), and its text. A refused line has its answer as the argument."""
    verb: str
    arguments: tuple
    text: bytes


class Draft(NamedTuple):
    """What a line is made of: what it asks, its tokens, which of them are numbers from 0, and where a query begins."""
    verb: str
    arguments: tuple
    tokens: list
    naturals: tuple = ()
    query_at: Optional[int] = None

    def refused(self, index, place):
        """The answer to a fault at the token with this index."""
        is_query = self.query_at is not None and index >= self.query_at
        return refusal_line(NUMBERS["QueryText" if is_query else "Line"], place)

    def is_parted_at(self, index):
        """Whether a token and the one before are a word and a number: without a space they are still two tokens.

        If the token is the word `from` it is open whether a query would begin there, so such a pair is left out.
        """
        left, right = self.tokens[index - 1][-1], self.tokens[index][0]
        is_pair = (left in LETTERS and right in DIGITS) or (left in DIGITS and right in LETTERS)
        return is_pair and self.tokens[index] != "from"


def is_glued(left, right):
    """Whether two tokens need a space between them: each is a word or a number."""
    signs = LETTERS | DIGITS | {"-"}
    return left[-1] in signs and right[0] in signs


def spaces(random, token, before):
    """How many spaces come before a token."""
    needed = 1 if before is not None and is_glued(before, token) else 0
    if random.random() < 0.04:
        return needed + random.randrange(4)
    is_usual = before is not None and before not in ("(", "{") and token not in (")", "}")
    return max(needed, 1 if is_usual else 0)


def joined(random, tokens):
    """The text of some tokens, and the place of each."""
    text, places, before = "", [], None
    for token in tokens:
        text += " " * spaces(random, token, before)
        places.append(len(text))
        text += token
        before = token
    return text + " " * (random.randrange(3) if random.random() < 0.03 else 0), places


def number_token(random, number):
    """A number, rarely with leading zeros."""
    if random.random() < 0.02:
        return "-" * (number < 0) + "0" * random.randrange(1, 4) + str(abs(number))
    return str(number)


def key_tokens(keys, random, key):
    """The tokens of a key. Elements of a set are in any order, and some twice."""
    if not isinstance(keys, Sets):
        return ["(", *(number_token(random, end) for end in key), ")"]
    elements = keys.elements(key)
    if random.random() < 0.2:
        elements += random.sample(elements, min(2, len(elements)))
        random.shuffle(elements)
    return ["{", *(number_token(random, element) for element in elements), "}"]


def part_tokens(keys, random, query, bracketed):
    """The tokens of a part of a query, in round brackets if its kind needs them, and seldom if it doesn't."""
    tokens = query_tokens(keys, random, query)
    if query[0] in bracketed or random.random() < 0.02:
        return ["(", *tokens, ")"]
    return tokens


def query_tokens(keys, random, query):
    """The tokens of a query. Joints group to the left; `and` binds closer than `or`, and `not` closest."""
    if query[0] == "or":
        return part_tokens(keys, random, query[1], ()) + ["or"] + part_tokens(keys, random, query[2], ("or",))
    if query[0] == "and":
        left = part_tokens(keys, random, query[1], ("or",))
        return left + ["and"] + part_tokens(keys, random, query[2], ("or", "and"))
    if query[0] == "not":
        return ["not", *part_tokens(keys, random, query[1], ("or", "and"))]
    return [query[0], *key_tokens(keys, random, query[1])]


class Drawer:
    """Draws keys, queries, numbers and lines of a class.

    Of each verb `shapes` has a letter for each argument: n for a number from 0, k for a key, q for a query, s for
    sides; and f for the word `from`, which is no argument.
    """

    def __init__(self, keys, random, shapes):
        self.keys = keys
        self.random = random
        self.shapes = shapes

    def chance(self, probability):
        """True with this probability."""
        return self.random.random() < probability

    def set_key(self):
        """A set of few elements, mostly small ones."""
        greatest = 127 if self.chance(0.05) else 11
        return sum({1 << self.random.randint(0, greatest) for _ in range(self.random.choice((0, 1, 1, 2, 2, 3, 4)))})

    def range_ends(self):
        """The lower and the upper end of a range: mostly a short one, seldom a wide one."""
        if self.chance(0.05):
            return sorted(self.random.randint(self.keys.least, self.keys.greatest) for _ in range(2))
        if self.chance(0.01):
            return self.keys.least, self.random.choice((self.keys.least, -1, self.keys.greatest))
        if self.chance(0.01):
            return self.random.choice((0, self.keys.greatest - 1, self.keys.greatest)), self.keys.greatest
        low = self.random.randint(-4, 27)
        return low, low + self.random.choice((0, 0, 1, 2, 3, 8, 20))

    def key(self):
        """A key."""
        if isinstance(self.keys, Sets):
            return self.set_key()
        ends = [self.range_ends() for _ in range(self.keys.dimensions)]
        return (*(low for low, _ in ends), *(high for _, high in ends))

    def key_inside(self, bound):
        """A key that a bound covers."""
        if isinstance(self.keys, Sets):
            return sum(1 << element for element in self.keys.elements(bound) if self.chance(0.5))
        lows, highs = bound[:self.keys.dimensions], bound[self.keys.dimensions:]
        ends = [sorted(self.random.randint(low, high) for _ in range(2)) for low, high in zip(lows, highs)]
        if self.chance(0.5):
            ends = [(low, low) for low, _ in ends]
        return (*(low for low, _ in ends), *(high for _, high in ends))

    def rows(self):
        """The rows that were made, by number."""
        raise NotImplementedError

    def atom(self):
        """A relation and a key: of a row, or for `overlaps` and `within` mostly one that many keys match."""
        relation = self.random.choice(("overlaps", "overlaps", "overlaps", "within", "within", "holds", "same"))
        if self.rows() and self.chance(0.25):
            return (relation, self.random.choice(list(self.rows().values())).key)
        key = self.key()
        if relation in ("overlaps", "within") and self.chance(0.7):
            key = self.keys.union(key, self.key())
        return (relation, key)

    def query(self):
        """A query: everything, an atom, or joints of some atoms; seldom as deep as may be."""
        if self.chance(0.2):
            return self.keys.everything()
        query = self.atom()
        for _ in range(self.random.choice((0, 0, 0, 1, 2, 3))):
            other = self.atom() if self.chance(0.7) else ("or", self.atom(), self.atom())
            joints = [("not", query), ("and", query, ("not", other)), ("or", query, other), ("or", other, query)]
            joints += [("and", query, other), ("and", other, query), ("and", self.keys.everything(), query)]
            query = self.random.choice(joints)
        return self.deep(query, MOST_DEPTH) if self.chance(0.02) else query

    def deep(self, query, most):
        """A query, negated until it is `most` deep."""
        for _ in range(most - depth(query)):
            query = ("not", query)
        return query

    def tag(self):
        """A tag, mostly a small one."""
        return self.random.choice((0, 1, 2, 7, 99, self.random.randint(0, GREATEST), GREATEST))

    def name(self, sensible, greatest):
        """A number that names something: mostly one of the sensible ones, else one up to twice the greatest given.

        Seldom it is a sensible one and a power of 2 more, which a shorter number would take for the sensible one.
        """
        if sensible and self.chance(0.02):
            return self.random.choice(sensible) + self.random.choice((2**32, 2**63))
        if not sensible or self.chance(0.15):
            return GREATEST if self.chance(0.02) else self.random.randint(0, 2 * greatest)
        return self.random.choice(sensible)

    def room(self):
        """The room of a mailbox, seldom one out of range."""
        if self.chance(0.08):
            return self.random.choice((0, 4_096, 4_097, 2**32 + 1, GREATEST))
        return self.random.choice((1, 1, 2, 3, 4, 8, 40))

    # Lines

    def draft(self, verb, *arguments):
        """What the line of a verb with its arguments is made of."""
        tokens, naturals, query_at, left = ["open" if verb == "follow" else verb], [], None, list(arguments)
        for letter in self.shapes[verb]:
            if letter == "n":
                naturals.append(len(tokens))
                tokens.append(number_token(self.random, left.pop(0)))
            elif letter == "k":
                tokens += key_tokens(self.keys, self.random, left.pop(0))
            elif letter == "q":
                query_at = len(tokens)
                tokens += query_tokens(self.keys, self.random, left.pop(0))
            else:
                tokens.append("from" if letter == "f" else left.pop(0))
        return Draft(verb, arguments, tokens, tuple(naturals), query_at)

    def finished(self, draft):
        """The line of a draft, with random spaces; seldom padded to the most bytes that a line may have."""
        text, _ = joined(self.random, draft.tokens)
        if self.chance(0.001):
            text = text.ljust(MOST_BYTES)
        return Line(draft.verb, draft.arguments, text.encode("ascii"))

    def fault(self, draft):
        """A line that is refused, made of a draft."""
        kinds = [self.longer, self.shorter, self.strange_byte, self.wrong_number, self.wrong_word, self.glued]
        kinds += [self.too_long, self.too_deep, self.wrong_key]
        fault = None
        while fault is None:
            fault = self.random.choice(kinds)(draft)
        text, answer = fault
        return Line("fault", (answer,), text if isinstance(text, bytes) else text.encode("ascii"))

    def longer(self, draft):
        """A token too many."""
        tokens = draft.tokens + [self.random.choice(("7", ")", "}", "x"))]
        text, places = joined(self.random, tokens)
        return text, draft.refused(len(tokens) - 1, places[-1])

    def shorter(self, draft):
        """The last token is missing."""
        if len(draft.tokens) == 1:
            return None
        text, _ = joined(self.random, draft.tokens[:-1])
        return text, draft.refused(len(draft.tokens) - 1, len(text))

    def strange_byte(self, draft):
        """A byte that begins no token, instead of one."""
        index = self.random.choice([index for index, token in enumerate(draft.tokens) if token != "from"])
        text, places = joined(self.random, draft.tokens[:index] + ["("])
        byte = self.random.choice(STRANGE)
        rest = " ".join(draft.tokens[index:]).encode("ascii")
        return text[:places[-1]].encode("ascii") + byte + b" " + rest, draft.refused(index, places[-1])

    def wrong_number(self, draft):
        """A number from 0 that is out of its range, or no number."""
        if not draft.naturals:
            return None
        index = self.random.choice(draft.naturals)
        wrong = self.random.choice((str(GREATEST + 1), "-1", "9" * 40, "(", "}", "x"))
        tokens = draft.tokens[:index] + [wrong] + draft.tokens[index + 1:]
        text, places = joined(self.random, tokens)
        return text, draft.refused(index, places[index])

    def wrong_word(self, draft):
        """Another word at the front."""
        word = self.random.choice(("inserts", "f", "no", "l", "from", "overlaps", draft.tokens[0] + "a", "12", "("))
        text, places = joined(self.random, [word] + draft.tokens[1:])
        return text, refusal_line(NUMBERS["Line"], places[0])

    def glued(self, draft):
        """No space between a word and a number."""
        pairs = [index for index in range(1, len(draft.tokens)) if draft.is_parted_at(index)]
        if not pairs:
            return None
        index = self.random.choice(pairs)
        text, places = joined(self.random, draft.tokens[:index])
        end = places[-1] + len(draft.tokens[index - 1])
        rest, _ = joined(self.random, draft.tokens[index:])
        return text[:end] + rest.lstrip(" "), draft.refused(index, end)

    def too_long(self, draft):
        """A line of more bytes than a line may have."""
        if self.chance(0.8):
            return None
        text, _ = joined(self.random, draft.tokens)
        return text.ljust(MOST_BYTES + 1 + self.random.randrange(2_000)), refusal_line(NUMBERS["Line"], MOST_BYTES)

    def too_deep(self, draft):
        """A query of one depth too many."""
        if draft.query_at is None:
            return None
        query = self.deep(self.atom(), MOST_DEPTH + 1)
        tokens = draft.tokens[:draft.query_at] + query_tokens(self.keys, self.random, query)
        text, places = joined(self.random, tokens)
        return text, draft.refused(draft.query_at, places[draft.query_at])

    def wrong_key(self, draft):
        """A key whose ends are out of order, or with a number out of range, instead of the line's first key."""
        opening = "{" if isinstance(self.keys, Sets) else "("
        first = draft.tokens.index(opening) if opening in draft.tokens else None
        if first is None or (draft.query_at is not None and draft.tokens[first - 1] not in RELATIONS):
            return None
        after = draft.tokens.index("}" if opening == "{" else ")", first)
        key, wrong = self.unreadable_key()
        tokens = draft.tokens[:first] + key + draft.tokens[after + 1:]
        text, places = joined(self.random, tokens)
        return text, draft.refused(first, places[first + wrong])

    def unreadable_key(self):
        """The tokens of a key that is refused, and the index of the token at which it is."""
        if isinstance(self.keys, Sets):
            return ["{", "1", self.random.choice(("128", "-1", "300")), "7", "}"], 2
        lows, highs = ["3"] * self.keys.dimensions, ["3"] * self.keys.dimensions
        at = self.random.randrange(self.keys.dimensions)
        if self.chance(0.5):
            lows[at] = "4"
            return ["(", *lows, *highs, ")"], 0
        lows[at] = self.random.choice((str(self.keys.least - 1), str(self.keys.greatest + 1)))
        return ["(", *lows, *highs, ")"], 1 + at

    def blank(self):
        """A line without a token, which has no answer."""
        return Line("blank", (), b" " * self.random.choice((0, 0, 1, 7)))
