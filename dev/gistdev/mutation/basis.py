"""A checksum of everything that the verdicts on a crate's mutants depend on.

That is the crate's sources, definitions and proofs, whatever it can name of the crates below, and the version of the
logic in which they are read. A definition or a function of a crate below counts if its name is a word of the crate's
own files, or of a text that counts already. Types, traits, impls and models count always, since they are used without a
name. The body and the proof of a function below never count, since they don't change its contract.
"""
from __future__ import annotations

import functools
import hashlib
import os
import re
from collections.abc import Iterable

from gistdev.mutation.edits import FILE, Mutant
from gistdev.mutation.source import COMMENT, WORD, functions_in, head_at, with_attributes, words_of
from gistdev.sources import PARTS, files_below, text_of
from gistdev.toolchain import Crate

IMPORT = {".rt": re.compile(r"^ *(?:ghost |pub )?use [^;]*;\n?", re.M), ".antt": re.compile(r"^use .*\n?", re.M)}
ITEM = re.compile(r"^(?:pub use ([^;]*)|(?:pub |pub\(crate\) )?const (\w+): [^;]*);$", re.M)
KEYWORDS = {"abbrev", "data", "infixl", "mod", "pub", "record", "unfoldable"}
DEFINITION = re.compile(r"(?:abbrev|infixl|pub|unfoldable) |[\w -]+ :(?: |$)")


# The names of a declaration, and the places of its lines
Declaration = tuple[frozenset[str], Iterable[int]]


def basis_of(crate: Crate, logic: str) -> str:
    """A checksum of what the verdicts on any of a crate's mutants depend on. `logic` is the version of the logic."""
    texts = [(path, text_of(path)) for path in files_of(crate)]
    return checksum([("logic", logic), *((os.path.relpath(path), text) for path, text in [*texts, *rests_on(crate)])])


def print_of(mutant: Mutant, basis: str) -> str:
    """A checksum of what the verdict on a mutant depends on."""
    return checksum([("basis", basis), ("edits", mutant.text)])


def checksum(parts: Iterable[tuple[str, str]]) -> str:
    digest = hashlib.sha256()
    for name, text in parts:
        digest.update(f"{name}\0{text}\0".encode())
    return digest.hexdigest()[:24]


def files_of(crate: Crate) -> list[str]:
    """The crate's own files that count."""
    return [path for part in PARTS for path in files_below(f"{crate.folder}/{part}")]


def rests_on(crate: Crate) -> list[tuple[str, str]]:
    """(path, text) of what a crate can name of those below, by file."""
    crates = sorted(crate.below(), key=lambda it: it.name)
    files = [path for it in crates for part in ("specs", "src") for path in files_below(f"{it.folder}/{part}")]
    # a mutant may name what no other file of the crate does
    mutants = [it for it in [f"{crate.folder}/{FILE}"] if os.path.exists(it)]
    words = frozenset([""]).union(*(words_of(text_of(it)) for it in [*files_of(crate), *mutants]))
    while True:
        texts = [(it, named_text(it, names_in(it) & words)) for it in files if module_in(it) in words]
        more = words.union(*(words_of(text) for _, text in texts))
        if more == words:
            return [(path, text) for path, text in texts if text]
        words = more


def module_in(path: str) -> str:
    """The module that has to be named for a file's definitions to be in reach, or nothing."""
    module, ending = os.path.splitext(os.path.basename(path))
    return module if ending == ".antt" and module != "Lib" else ""


@functools.cache
def names_in(path: str) -> frozenset[str]:
    """All names that a file declares."""
    return frozenset[str]().union(*(names for names, _ in declarations_in(path)))


@functools.cache
def named_text(path: str, named: frozenset[str]) -> str:
    """The declarations of a file that have one of these names or count always, and the imports that they use."""
    counted = {at for names, places in declarations_in(path) if not names or names & named for at in places}
    lines = [line for at, line in enumerate(text_of(path).split("\n")) if at in counted]
    left = "\n".join(line for line in lines if line.strip() and not line.lstrip().startswith(COMMENT))
    pattern = IMPORT[os.path.splitext(path)[1]]
    rest, others = pattern.sub("", left), " ".join(sorted(named))
    imports = [
        import_for(others if it.startswith("pub ") else rest, " ".join(it.split())) for it in pattern.findall(left)
    ]
    return "\n".join(filter(None, [*imports, rest]))


@functools.cache
def declarations_in(path: str) -> list[Declaration]:
    """The declarations of a file that other files see. One without names counts always."""
    return definitions_in(text_of(path)) if path.endswith(".antt") else items_shown(text_of(path))


def definitions_in(text: str) -> list[Declaration]:
    """Those of a file of definitions, each with the heads of the modules that it is in, and the file's imports."""
    imports: list[int] = []
    last = imports
    found: list[tuple[frozenset[str], list[int]]] = [(frozenset(), imports)]
    lines = text.split("\n")
    heads: list[int] = []
    for at, line in enumerate(lines):
        indent = len(line) - len(line.lstrip())
        if line.strip():
            heads = [it for it in heads if len(lines[it]) - len(lines[it].lstrip()) < indent]
        if line.startswith("use "):
            imports.append(at)
        elif line.lstrip().startswith("module "):
            heads.append(at)
        elif indent == 2 * len(heads) and DEFINITION.match(line, indent):
            names = set(WORD.findall(re.split("[({:]", line)[0])) - KEYWORDS
            last = [*heads, at]
            found.append((frozenset(names), last))
        else:
            last.append(at)
    return list(found)


def items_shown(text: str) -> list[Declaration]:
    """Those of a source file: constants, what it exports of other modules, each function that others may call, without
    its body and those of traits always, and whatever is none of these. The modules of a crate are its own affair."""
    lines = text.split("\n")
    found: list[Declaration] = []
    blocks = blocks_in(lines)
    rest = {at for at, line in enumerate(lines) if not re.match(r"mod \w+;", line)}
    for item in ITEM.finditer(text):
        places = range(text.count("\n", 0, item.start()), text.count("\n", 0, item.end()) + 1)
        rest.difference_update(places)
        found.append((frozenset(WORD.findall(item.group(1) or item.group(2))), places))
    for function in functions_in(text):
        begin = with_attributes(lines, function.first)
        rest.difference_update(range(begin, function.last + 1))
        is_always = is_of_trait(blocks[function.first])
        if is_always or lines[function.first].lstrip().startswith("pub "):
            names = frozenset(() if is_always else [function.short])
            found.append((names, [*range(begin, function.body + 1), function.last]))
    return [*found, (frozenset(), rest)]


def blocks_in(lines: list[str]) -> list[str]:
    """For each line the head of the impl or trait around it, or nothing."""
    found, head = [], ""
    for at, line in enumerate(lines):
        if re.match(r"(pub )?(unsafe )?(impl|trait)\b", line):
            head = head_at(lines, at)
        found.append(head)
        if line.startswith("}"):
            head = ""
    return found


def is_of_trait(head: str) -> bool:
    """Whether an impl or trait has functions that whoever has the trait may call."""
    return " for " in head or re.match(r"(pub )?(unsafe )?trait\b", head) is not None


def import_for(text: str, line: str) -> str:
    """An import, reduced to the names that occur in the text."""
    head, _, names = line.rstrip(";").partition("{")
    if not names:
        return line if is_in(text, re.split(r"::|\.| as ", head)[-1]) else ""
    kept = [it.strip() for it in names.rstrip("}").split(",") if it.strip() and is_in(text, it.split(" as ")[-1])]
    return f"{head}{{{', '.join(sorted(kept))}}}" if kept else ""


def is_in(text: str, name: str) -> bool:
    """Whether a name occurs in a text. An operator does if its signs do, with spaces around them between two terms."""
    name = name.strip()
    if "◌" in name:
        signs = [it for it in name.split("◌") if it]
        if re.fullmatch("◌[^◌]+◌", name):
            return all(re.search(rf"(?<!\S){re.escape(it)}(?!\S)", text) for it in signs)
        return all(it in text for it in signs)
    return name in text and re.search(rf"(?<!\w){re.escape(name)}(?!\w)", text) is not None
