"""Checks the documents as texts: the length of pages, the width of lines, and whether links and file names exist.

    dev/lint-docs [--list]

- README.md has at most 160 lines, every other page at most 250.
- A line of prose has at most 120 columns. Rows of tables may be wider, and code is as wide as its source.
- A link to a file of the repository leads to a file that exists, and if it names a heading, to a heading of that page.
- Each page of docs is linked from another page, and so is each picture below docs.
- A file that a page names exists: below crates, dev, tools, tests, examples, bench, include or docs, or as
  CRATE/src/FILE, CRATE/specs/FILE or CRATE/proofs/FILE, with its ending or without it. Files below a folder `out` are
  built, and a name in capitals is a placeholder; neither is looked for.

Pages are README.md, CONTRIBUTING.md, bench/README.md and all pages below docs. --list shows the length and the widest
line of each. The last line is `N passed, M failed`, one check for each page, link, picture and file; the status is 1 if M isn't 0.
"""
from __future__ import annotations

import functools
import os
import re
import sys
from collections.abc import Iterator

from gistdev.documents import documents, lines_of, prose_of
from gistdev.sources import ROOT, files_below

MOST_LINES, MOST_OF_README, MOST_COLUMNS = 250, 160, 120

LINK = re.compile(r"\]\(([^()\s]+)\)|(?:srcset|src|href)=\"([^\"]+)\"")
HEADING = re.compile(r"^#+ (.*)$")
FILE = re.compile(r"(?<![\w/.-])((?:crates|dev|tools|tests|examples|bench|include|docs)/[\w./-]*\w|\w+/(?:src|specs|proofs)/[\w./-]*\w)")


def widths(page: str) -> list[tuple[int, int]]:
    """(columns, number) of each line that is neither a row of a table nor code."""
    return [(len(line), number) for number, line in prose_of(page) if not line.lstrip("> ").startswith("|")]


def widest(page: str) -> tuple[int, int]:
    """(columns, number) of the widest line."""
    return max(widths(page))


@functools.cache
def anchors_of(page: str) -> set[str]:
    """What comes after # in a link to each heading of a page."""
    found = set()
    for _, line in prose_of(page):
        heading = HEADING.match(line)
        if heading:
            text = re.sub(r"[`*]|\]\([^)]*\)|\[", "", heading.group(1)).lower()
            found.add(re.sub(r"[^\w\- ]", "", text).replace(" ", "-"))
    return found


def links_of(page: str) -> Iterator[tuple[int, str, str]]:
    """(number of the line, file, heading) of each link of a page to a file of the repository."""
    for number, line in prose_of(page):
        for groups in LINK.findall(re.sub(r"`[^`]*`", "", line)):
            target = groups[0] or groups[1]
            if "://" in target:
                continue
            path, _, heading = target.partition("#")
            yield number, os.path.normpath(os.path.join(os.path.dirname(page), path)) if path else page, heading


def fault_of_link(path: str, heading: str) -> str:
    if not os.path.exists(path):
        return f"there is no {path}"
    if heading and heading not in anchors_of(path):
        return f"{path} has no heading #{heading}"
    return ""


def files_of(page: str) -> Iterator[tuple[int, str]]:
    """(number of the line, file) of each file that a page names, links left out."""
    for number, line in prose_of(page):
        for name in FILE.findall(re.sub(r"\]\([^)]*\)", "]", line)):
            if "/out/" not in f"{name}/" and not re.search(r"(?:^|/)[A-Z-]+(?:$|/|\.)", name):
                yield number, name


def exists(name: str) -> bool:
    """Whether a file exists, or a file of a crate that has this name or, as a definition of a module, begins it."""
    if os.path.exists(name):
        return True
    parts = name.split("/")
    begun = ["/".join(["crates", *parts[:end]]) for end in range(3, len(parts) + 1)]
    return any(os.path.exists(f"{it}{ending}") for it in begun[-1:] for ending in ("", ".rt")) or any(os.path.exists(f"{it}.antt") for it in begun)


def faults_of_page(page: str) -> Iterator[str]:
    most = MOST_OF_README if page == "README.md" else MOST_LINES
    if len(lines_of(page)) > most:
        yield f"{page} has {len(lines_of(page))} lines, more than {most}"
    for columns, number in widths(page):
        if columns > MOST_COLUMNS:
            yield f"{page}:{number} has {columns} columns, more than {MOST_COLUMNS}"


def main() -> int:
    if sys.argv[1:] not in ([], ["--list"]):
        sys.exit(__doc__)
    os.chdir(ROOT)
    pages = [*documents(), "CONTRIBUTING.md", "bench/README.md"]
    passed = 0
    faults: list[str] = []
    linked: set[str] = set()
    for page in pages:
        if sys.argv[1:]:
            print(f"{page}: {len(lines_of(page))} lines, {widest(page)[0]} columns at {widest(page)[1]}")
        found = list(faults_of_page(page))
        passed, faults = passed + (not found), faults + found
        for number, path, heading in links_of(page):
            fault = fault_of_link(path, heading)
            passed, faults = passed + (not fault), faults + [f"{page}:{number}: {fault}"] * bool(fault)
            if path != page:
                linked.add(path)
        for number, name in files_of(page):
            passed, faults = passed + exists(name), faults + [f"{page}:{number}: there is no {name}"] * (not exists(name))
    pictures = [path for path in files_below("docs") if path.endswith(".svg")]
    for path in [it for it in pages if it != "README.md"] + pictures:
        passed, faults = passed + (path in linked), faults + [f"{path}: no other page links to it"] * (path not in linked)
    print("".join(f"{it}\n" for it in faults), end="")
    longest = max(pages, key=lambda it: len(lines_of(it)))
    wide = max(pages, key=widest)
    print(f"the longest page: {longest}, {len(lines_of(longest))} lines; the widest line: {wide}:{widest(wide)[1]}, {widest(wide)[0]} columns")
    print(f"{passed} passed, {len(faults)} failed")
    return 1 if faults else 0
