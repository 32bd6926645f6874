"""The repository's pages, their prose, and the code that they show."""
from __future__ import annotations

import functools
import re
from collections.abc import Iterator

from gistdev.sources import files_below, text_of

FENCE = re.compile(r"^[ >]*```")


def documents() -> list[str]:
    """README.md and the pages below docs, seen from the top of the repository."""
    return ["README.md", *(path for path in files_below("docs") if path.endswith(".md"))]


@functools.cache
def lines_of(page: str) -> list[str]:
    """The lines of a page."""
    return text_of(page).splitlines()


def prose_of(page: str) -> Iterator[tuple[int, str]]:
    """(number, line) of each line of a page that isn't in a block of code."""
    is_code = False
    for number, line in enumerate(lines_of(page), 1):
        if FENCE.match(line):
            is_code = not is_code
        elif not is_code:
            yield number, line


def blocks_of(page: str) -> Iterator[tuple[int, str, list[str]]]:
    """(number of the first line, language, lines) of each block of code."""
    lines, began = lines_of(page), None
    for number, line in enumerate(lines, 1):
        if not FENCE.match(line):
            continue
        if began is None:
            began = number
        else:
            yield began + 1, lines[began - 1].strip(" >`"), lines[began:number - 1]
            began = None
