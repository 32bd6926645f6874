"""The functions of a source file in Rattle, named as the checker names them."""
from __future__ import annotations

import functools
import re
from typing import NamedTuple

FUNCTION = re.compile(r"^( *)(?:pub(?:\([a-z]+\))? )?(?:unsafe )?(?:const )?(?:extern \"C\" )?fn (\w+)")
TRAIT = re.compile(r"^(?:pub(?:\([a-z]+\))? )?(?:unsafe )?trait (\w+)")
CLAUSE = re.compile(r"^ *(?:ensures|requires|ghost|variant)\b")
COMMENT = ("//", "--")
WORD = re.compile(r"[^\W\d]\w*")


class Function(NamedTuple):
    """A function: its name with its owner's, its first line, the line of its body's brace, and its last.

    Lines count from 0.
    """

    name: str
    first: int
    body: int
    last: int

    @property
    def short(self) -> str:
        """The name without the owner's."""
        return self.name.split("::")[-1]


@functools.cache
def functions_in(text: str) -> tuple[Function, ...]:
    """The functions of a source text, in its order."""
    lines, found, owner = text.split("\n"), [], ""
    for at, line in enumerate(lines):
        trait = TRAIT.match(line)
        if line.startswith("impl"):
            owner = owner_of(head_at(lines, at))
        elif trait:
            owner = trait.group(1)
        elif line == "}":
            owner = ""
        match = FUNCTION.match(line)
        if match:
            indent, name = match.group(1), match.group(2)
            body = at
            while not (opens_body(lines[body]) or lines[body].endswith(";")):
                body += 1
            last = body
            while not (lines[last] == indent + "}" or last == body and lines[last].endswith((";", "{}"))):
                last += 1
            found.append(Function("::".join(it for it in (owner if indent else "", name) if it), at, body, last))
    return tuple(found)


def opens_body(line: str) -> bool:
    """Whether a line of a function's head is the one with its body's brace."""
    return line.endswith(("{", "{}")) and not CLAUSE.match(line)


def head_at(lines: list[str], at: int) -> str:
    """The head of the impl or trait that begins in a line, as one line."""
    end = at
    while "{" not in lines[end]:
        end += 1
    return " ".join(it.strip() for it in lines[at:end + 1])


def owner_of(line: str) -> str:
    """The checker's name for the owner of an impl's functions: the type, then the trait with its arguments if any."""
    head = line[len("impl"):].split("{")[0].split(" where ")[0].strip()
    own: set[str] = set()
    if head.startswith("<"):
        end = closing(head, 0)
        own = {it.split(":")[0].strip().removeprefix("const ") for it in parted(head[1:end])}
        head = head[end + 1:].strip()
    names = [type_word(it, own) for it in head.split(" for ")]
    if len(names) == 2:
        return names[1] + names[0]
    # methods of a type at certain arguments: all words of the type
    is_plain = re.fullmatch(r"[\w:]+(<[\w, ']*>)?", head) and not named_arguments(head, own)
    return names[0] if is_plain else "+".join(re.findall(r"\w+", head))


def named_arguments(head: str, own: set[str]) -> list[str]:
    """The type's arguments that aren't parameters of the impl."""
    words = re.findall(r"[\w']+", head.partition("<")[2])
    return [it for it in words if it not in own and not it.startswith("'")]


def type_word(text: str, own: set[str]) -> str:
    """The last name of a type's path and those of its arguments, without the impl's own parameters."""
    text = text.strip()
    if text.startswith("<"):
        text = text[closing(text, 0) + 1:]
    if text == "()":
        return "Unit"
    at = text.find("<")
    name = (text if at < 0 else text[:at]).split("::")[-1].strip("&")
    arguments = [it.strip() for it in parted(text[at + 1:closing(text, at)])] if at >= 0 else []
    return name + "".join(type_word(it, own) for it in arguments if it not in own and not it.startswith("'"))


def closing(text: str, at: int) -> int:
    """The position of the bracket that closes the one at `at`."""
    depth = 0
    for place in range(at, len(text)):
        depth += (text[place] == "<") - (text[place] == ">")
        if depth == 0:
            return place
    return len(text)


def parted(text: str) -> list[str]:
    """The parts of a text between the commas that are outside of all brackets."""
    found, depth, start = [], 0, 0
    for place, letter in enumerate(text):
        depth += (letter == "<") - (letter == ">")
        if letter == "," and depth == 0:
            found.append(text[start:place])
            start = place + 1
    return [*found, text[start:]]


def module_of(path: str) -> str:
    """The module that a source file below src/ is."""
    inside = path[len("src/"):-len(".rt")]
    return "" if inside in ("lib", "main") else inside.replace("/", "::")


def symbol_in(path: str, function: Function) -> str:
    """The end of a function's name as the checker prints it.

    The methods of a type bear the name of the module where the type is, whichever file they are in, so it is left out.
    """
    if "::" in function.name:
        return function.name
    return "::".join(it for it in (module_of(path), function.name) if it)


def with_attributes(lines: list[str], first: int) -> int:
    """The first line of a function's comment and attributes."""
    while first > 0 and lines[first - 1].lstrip().startswith(("///", "#[")):
        first -= 1
    return first


@functools.cache
def words_of(text: str) -> frozenset[str]:
    """The words of a text without its comments."""
    return frozenset(WORD.findall("\n".join(it for it in text.split("\n") if not it.lstrip().startswith(COMMENT))))
