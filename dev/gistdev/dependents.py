"""Writes the table of CONTRIBUTING.md: what each crate's check costs, and which crates are checked again after a change.

    dev/dependents [--check]

The table is made from crates.txt and dev/check-minutes. With --check nothing is written, and the status is 1 if the
table isn't current.
"""
from __future__ import annotations

import sys
from collections.abc import Mapping, Sequence

from gistdev import check_minutes
from gistdev.sources import ROOT, lines_of_crates, text_of

PAGE = f"{ROOT}/CONTRIBUTING.md"
BEGIN, END = "<!-- dependents: written by dev/dependents -->\n", "<!-- end of dependents -->\n"

# The most dependents that a row names; a longer row only counts them
MOST_NAMED = 8


def uses() -> dict[str, list[str]]:
    """The crates of the repository that each crate uses, in the order of crates.txt."""
    listed = lines_of_crates()
    return {crate: [it for it in below if it in listed] for crate, (_, below) in listed.items()}


def above(used: Mapping[str, Sequence[str]]) -> dict[str, set[str]]:
    """For each crate those that use it, directly or through others."""
    found: dict[str, set[str]] = {crate: set() for crate in used}

    def note(crate: str, user: str) -> None:
        if user not in found[crate]:
            found[crate].add(user)
            for below in used[crate]:
                note(below, user)

    for user, crates in used.items():
        for crate in crates:
            note(crate, user)
    return found


def table() -> str:
    """The table's rows, in the order of crates.txt."""
    used, minutes = uses(), check_minutes.read()
    dependents = above(used)
    rows = ["| Crate | Check, processor minutes | Crates above it |", "|---|---|---|"]
    for crate in used:
        found = [it for it in used if it in dependents[crate]]
        named = ", ".join(found) if len(found) <= MOST_NAMED else str(len(found))
        cost = f"{minutes[crate]:.1f}" if crate in minutes else "not measured"
        rows.append(f"| {crate} | {cost} | {named or 'none'} |")
    return "\n".join(rows) + "\n"


def main() -> int:
    if sys.argv[1:] not in ([], ["--check"]):
        sys.exit(__doc__)
    text = text_of(PAGE)
    before, rest = text.split(BEGIN)
    new = before + BEGIN + "\n" + table() + "\n" + END + rest.split(END)[1]
    if sys.argv[1:] == ["--check"]:
        if new != text:
            print("the table of CONTRIBUTING.md is not that of crates.txt and dev/check-minutes: run dev/dependents")
        print("1 passed, 0 failed" if new == text else "0 passed, 1 failed")
        return 0 if new == text else 1
    with open(PAGE, "w", encoding="utf-8") as file:
        file.write(new)
    return 0
