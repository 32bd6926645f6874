"""The mutants of a crate: one file with an edit for each, and the sources with a mutant in them.

A file of mutants has, for each mutant, a line `mutant: FUNCTION-WHAT`, a line `file: src/x.rt`, and pairs of lines
`old: TEXT` and `new: TEXT`. A mutant that only tests detect also has a line `test: CRATE::MODULE::NAME`. Mutants are in
the order of their names, with empty lines between them; a line that begins with # is a comment.
"""
from __future__ import annotations

import dataclasses
import os
import re
from collections.abc import Callable
from typing import NamedTuple

from gistdev.mutation.source import functions_in, symbol_in
from gistdev.sources import files_below, text_of

# A crate's mutants that the checker must reject, and those that only tests detect
FILE, TEST_FILE = "mutants", "test-mutants"

NAME = re.compile(r"\w+-[\w.-]+")


class BadMutant(Exception):
    """A mutant that can't be read, or whose text isn't in the source."""


class Edit(NamedTuple):
    """A replacement: the path of the file in the crate, the text that occurs there once, and the new text."""

    path: str
    old: str
    new: str


@dataclasses.dataclass(frozen=True)
class Mutant:
    """A changed function. `symbol` is the end of the function's name as the checker prints it, once it was located."""

    crate: str
    name: str
    edits: tuple[Edit, ...]
    test: str = ""
    symbol: str = ""

    def __str__(self) -> str:
        return f"{self.crate}/{self.name}"

    @property
    def function(self) -> str:
        """The name of the function whose proof, or test, must fail."""
        return self.name.partition("-")[0]

    @property
    def text(self) -> str:
        """All that the mutant changes, as one text."""
        return "\n".join("\0".join(it) for it in self.edits)


def parsed(crate: str, text: str) -> list[Mutant]:
    """The mutants of a crate's file."""
    found: list[Mutant] = []
    name = path = test = ""
    old: str | None = None
    edits: list[Edit] = []

    def end() -> None:
        if old is not None:
            raise BadMutant(f"{crate}/{name}: old: without new:")
        if name and not edits:
            raise BadMutant(f"{crate}/{name}: it changes nothing")
        if name:
            found.append(Mutant(crate, name, tuple(edits), test))

    for number, line in enumerate(text.split("\n"), 1):
        key, colon, rest = line.partition(":")
        rest = rest.removeprefix(" ")
        fault = ""
        if not line.strip() or line.startswith("#"):
            continue
        if key == "mutant" and colon:
            end()
            if not NAME.fullmatch(rest):
                fault = "a name has the form FUNCTION-WHAT"
            elif found and rest <= found[-1].name:
                fault = f"{rest} must come before {found[-1].name}, and each name once"
            name, path, test, old, edits = rest, "", "", None, []
        elif not name:
            fault = "this line comes before the first line `mutant: NAME`"
        elif key == "test" and colon:
            test = rest.strip()
        elif key == "file" and colon:
            path = rest.strip()
        elif key == "old" and colon and old is None and path:
            old = rest
        elif key == "new" and colon and old is not None:
            edits.append(Edit(path, old, rest))
            old = None
        else:
            fault = "expected mutant:, test:, file:, or old: followed by new:"
        if fault:
            raise BadMutant(f"crates/{crate}, mutants, line {number}: {fault}")
    end()
    return found


def mutants_of(crate: str, folder: str, file: str = FILE) -> list[Mutant]:
    """The mutants of a crate in a folder. Each is located, and its texts are found in the sources."""
    path = f"{folder}/{file}"
    found = parsed(crate, text_of(path)) if os.path.exists(path) else []
    return [located(it, folder) for it in found]


def located(mutant: Mutant, folder: str) -> Mutant:
    """The mutant with its symbol."""
    mutated(mutant, lambda path: text_of(f"{folder}/{path}"))
    return dataclasses.replace(mutant, symbol=symbol_of(mutant, folder))


def symbol_of(mutant: Mutant, folder: str) -> str:
    """The end of the function's name as the checker prints it."""
    first = mutant.edits[0]
    sources = (os.path.relpath(it, folder) for it in files_below(f"{folder}/src") if it.endswith(".rt"))
    for path in dict.fromkeys([first.path, *sources]):
        text = text_of(f"{folder}/{path}")
        found = [it for it in functions_in(text) if it.short == mutant.function]
        if len(found) > 1:
            lines = text.split("\n")
            found = [it for it in found if first.old in "\n".join(lines[it.first:it.last + 1])]
        if len(found) > 1:
            raise BadMutant(f"{mutant}: several functions of that name have its text in {path}")
        if found:
            return symbol_in(path, found[0])
    raise BadMutant(f"{mutant}: there is no function {mutant.function} in {folder}/src")


def mutated(mutant: Mutant, read: Callable[[str], str]) -> dict[str, str]:
    """The texts of the files that a mutant changes, by their path in the crate; `read` returns the present ones.

    Each old text occurs once in the function, or once in the file if no function of that name has it.
    """
    texts: dict[str, str] = {}
    for path, old, new in mutant.edits:
        text = texts.get(path) or read(path)
        lines = text.split("\n")
        places: list[int] = []
        for name, first, _, last in functions_in(text):
            if name.split("::")[-1] == mutant.function:
                start = len("\n".join(lines[:first])) + 1 if first else 0
                body = "\n".join(lines[first:last + 1])
                places += [start + it.start() for it in re.finditer(re.escape(old), body)]
        if not places:
            places = [it.start() for it in re.finditer(re.escape(old), text)]
        if len(places) != 1:
            raise BadMutant(f"{mutant}: its old text occurs {len(places)} times in {path}: {old}")
        texts[path] = text[:places[0]] + new + text[places[0] + len(old):]
    return texts
