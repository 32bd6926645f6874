"""Looks up each clause, definition and test that README.md, docs/PROVED.md and docs/proved name, and each block of code
that the documents show, and lists those that don't exist.

    dev/check-clauses [--list]

A name is the text between two backticks, outside of blocks of code, in one of these forms:

  crate::function/label          a function of crates/CRATE/src that has the clause `ensures label {`
  crate::function                one that has an `ensures {` without a label, or is a test
  crate::Type::function/label    a function of a type or a trait of that name; a name that `pub type` defines counts, too
  crate/specs/File/Name          a definition in crates/CRATE/specs/File.antt
  crate/specs/File/Name.field    a part of a record there; a further .field is a part of the record that is this part's type

Several labels of one function follow the slash, separated by commas, as in `store::Store::insert/number, ok`. Names that
begin with `std::` are not looked up. A name with `::` or `/specs/` that has none of these forms counts as failed.

Code marked as `rust` must be in source files of crates or in the library's examples in Rust, each group of lines in one
file; code marked as `c`, `cpp` or `python` must be in the examples in that language. The sessions that documents show
are tested with the program itself (`tests/transcripts`).

The command only looks names up: whether a clause says what a sentence claims, a reader has to judge. --list shows each
name that was found with its place. The last line is `N passed, M failed`; the status is 1 if M isn't 0.
"""
from __future__ import annotations

import functools
import os
import re
import sys
from collections.abc import Iterator, Sequence
from typing import NamedTuple

from gistdev.documents import FENCE, blocks_of, documents
from gistdev.sources import ROOT, files_below, text_of

SPAN = re.compile(r"`([^`]+)`")
CLAUSE = re.compile(r"^(\w+)((?:::\w+)+)(?:/(\w+(?:, \w+)*))?$")
DEFINITION = re.compile(r"^(\w+)/specs/(\w+)/(\w+)((?:\.\w+)*)$")

ITEM = re.compile(r"^(?:pub(?:\([a-z]+\))? )?(impl|trait)\b")
ALIAS = re.compile(r"^(?:pub )?type (\w+)\b.*?= (\w+)")
FUNCTION = re.compile(r"^ *(?:pub(?:\([a-z]+\))? )?(?:unsafe )?(?:const )?(?:extern \"C\" )?fn (\w+)")
ENSURES = re.compile(r"^ *ensures\*?(?: (\w+))? \{")
DEFINED = r"^(?:( *)(?:(?:pub )?(?:record|data)|(?:abbrev|unfoldable)(?: pub)?)|pub) {}(?: |$)"


def files_with(folder: str, ending: str) -> list[str]:
    """The files below a folder whose names have an ending."""
    return [path for path in files_below(folder) if path.endswith(ending)]


def naming_pages() -> list[str]:
    """The pages whose names of clauses, definitions and tests are looked up."""
    return [page for page in documents() if page in ("README.md", "docs/PROVED.md") or page.startswith("docs/proved/")]


# What the pages name


def paragraphs_of(page: str) -> Iterator[tuple[int, str]]:
    """(number of the first line, text) of each paragraph that isn't in a block of code."""
    is_code, first = False, 1
    lines: list[str] = []
    for number, line in enumerate([*text_of(page).split("\n"), ""], 1):
        is_fence = FENCE.match(line)
        if line.strip(" >") and not is_fence and not is_code:
            lines.append(line)
            continue
        if lines:
            yield first, "\n".join(lines)
        is_code, first, lines = is_code != bool(is_fence), number + 1, []


def spans_of(page: str) -> Iterator[tuple[int, str]]:
    """(line, text) of each piece of code within a paragraph."""
    for first, text in paragraphs_of(page):
        for match in SPAN.finditer(text):
            yield first + text.count("\n", 0, match.start()), " ".join(match.group(1).split())


def is_claim(span: str) -> bool:
    return (re.match(r"^\w+::", span) is not None or "/specs/" in span) and not span.startswith("std::")


# What the crates have


def owners_of(line: str) -> set[str]:
    """The names of the types and traits of an impl's or a trait's first line, without their arguments."""
    head = line.split("{")[0].split(" where ")[0]
    depth, kept = 0, ""
    for letter in head:
        depth -= letter == ">"
        kept += letter if depth == 0 and letter not in "<>" else ""
        depth += letter == "<"
    words = kept.split(":")[0] if "trait " in kept else kept
    return {it for it in re.findall(r"\w+", words) if it not in ("pub", "impl", "trait", "for", "crate")}


class Function(NamedTuple):
    """A function: its name, the names of its owners, the labels of its clauses, and whether it is a test."""

    name: str
    owners: set[str]
    labels: set[str]
    is_test: bool


def functions_of(path: str) -> list[Function]:
    """The functions of a source file."""
    owners: set[str] = set()
    found: list[Function] = []
    is_test = False
    for line in text_of(path).split("\n"):
        if ITEM.match(line):
            owners = owners_of(line)
        elif line == "}":
            owners = set()
        function, clause = FUNCTION.match(line), ENSURES.match(line)
        if function:
            found.append(Function(function.group(1), owners if line.startswith(" ") else set(), set(), is_test))
        elif clause and found:
            found[-1].labels.add(clause.group(1) or "")
        is_test = line.strip() == "#[test]" or is_test and line.lstrip().startswith(("#[", "///"))
    return found


@functools.cache
def crate_of(name: str) -> tuple[list[Function], dict[str, str]]:
    """The functions of a crate, and which type each other name of a type stands for."""
    functions: list[Function] = []
    aliases: dict[str, str] = {}
    for path in files_with(f"crates/{name}/src", ".rt"):
        functions += functions_of(path)
        aliases.update((it[1], it[2]) for it in map(ALIAS.match, text_of(path).split("\n")) if it)
    return functions, aliases


def block_of(lines: Sequence[str], name: str) -> list[str] | None:
    """The lines of a definition: its first, and those below it that are indented more."""
    for at, line in enumerate(lines):
        match = re.match(DEFINED.format(re.escape(name)), line)
        if match:
            end, further_in = at + 1, (match.group(1) or "") + " "
            while end < len(lines) and (not lines[end].strip() or lines[end].startswith(further_in)):
                end += 1
            return list(lines[at:end])
    return None


# Whether a name exists


def fault_of_clause(crate: str, path: str, labels: str | None) -> str:
    functions, aliases = crate_of(crate)
    *owners, name = path.strip(":").split("::")
    named = [it for it in functions if it.name == name]
    for owner in owners:
        named = [it for it in named if {owner, aliases.get(owner, owner)} & it.owners]
    if not named:
        return f"no function {'::'.join([*owners, name])} in crates/{crate}/src"
    if labels is None:
        return "" if any("" in it.labels or it.is_test for it in named) else "it has no clause without a label, and is no test"
    known = {label for it in named for label in it.labels}
    missing = [it for it in labels.split(", ") if it not in known]
    return f"no clause {', '.join(missing)}" if missing else ""


def fault_of_definition(crate: str, file: str, name: str, fields: str) -> str:
    path = f"crates/{crate}/specs/{file}.antt"
    if not os.path.isfile(path):
        return f"no file {path}"
    lines = text_of(path).split("\n")
    block = block_of(lines, name)
    if not block:
        return f"no definition {name} in {path}"
    for field in fields.split(".")[1:]:
        parts = [it for it in (re.match(rf"^ *pub {field} : (\w*)", line) for line in block[1:]) if it]
        if not parts:
            return f"no part {field} in {name}"
        name = parts[0].group(1)
        block = block_of(lines, name) or [name]
    return ""


def fault_of(span: str) -> str:
    """Why what a span names doesn't exist; empty if it does."""
    clause, definition = CLAUSE.match(span), DEFINITION.match(span)
    match = clause or definition
    if not match:
        return "it has none of the forms"
    if not os.path.isdir(f"crates/{match.group(1)}"):
        return f"no crate {match.group(1)}"
    return fault_of_clause(*match.groups()) if clause else fault_of_definition(*match.groups())


# What the documents show


# How the names of examples end, by the language that code is set apart as
ENDINGS = {"c": ".c", "cpp": ".cpp", "python": ".py"}


@functools.cache
def sources(language: str) -> list[list[str]]:
    """The lines of each source file in a language."""
    if language in ENDINGS:
        paths = files_with("examples", ENDINGS[language])
    else:
        paths = [path for path in files_with("crates", ".rt") if "/src/" in path] + files_with("examples", ".rs")
    return [[line.strip() for line in text_of(path).split("\n")] for path in paths]


def parts_of(lines: Sequence[str]) -> list[list[str]]:
    """The groups of lines between empty ones."""
    return [part.split("\n") for part in "\n".join(line.strip() for line in lines).split("\n\n")]


def is_in_a_source(wanted: Sequence[str], language: str) -> bool:
    """Whether a source file has these lines, one after the other."""
    wanted = list(wanted)
    return any(source[at:at + len(wanted)] == wanted for source in sources(language) for at, line in enumerate(source) if line == wanted[0])


def fault_of_block(language: str, lines: Sequence[str]) -> str | None:
    """Why shown code isn't in a source; empty if it is, and None if the block isn't code of one of these languages."""
    if language in ("rust", *ENDINGS):
        return "" if all(is_in_a_source(it, language) for it in parts_of(lines)) else "no source has this code"
    return None


def main() -> int:
    if sys.argv[1:] not in ([], ["--list"]):
        sys.exit(__doc__)
    os.chdir(ROOT)
    passed = failed = 0
    for page in naming_pages():
        for line, span in spans_of(page):
            if not is_claim(span):
                continue
            fault = fault_of(span)
            if fault:
                print(f"{page}:{line}: {span}: {fault}")
            elif sys.argv[1:]:
                print(f"{page}:{line}: {span}")
            passed, failed = passed + (not fault), failed + bool(fault)
    for page in documents():
        for line, language, lines in blocks_of(page):
            block_fault = fault_of_block(language, lines)
            if block_fault:
                print(f"{page}:{line}: {block_fault}")
            passed, failed = passed + (block_fault == ""), failed + bool(block_fault)
    print(f"{passed} passed, {failed} failed")
    return 1 if failed else 0
