"""Which mutants a run tries, and in which order.

A run in CI has less time than all promised mutants take. So each landing begins at another place of one fixed order,
which the number of commits determines, and goes on until its time is over. The places are spread so that landings one
after another go through all crates, and that ROUND of them begin at all places.
"""
from __future__ import annotations

import re
import subprocess
from collections.abc import Iterable, Sequence
from typing import TypeVar

from gistdev.mutation.edits import FILE, BadMutant, Mutant, parsed

# The places at which landings begin, and how far apart two consecutive landings are. ROUND is a prime number, so that
# all places come up even if each landing has the same number of commits.
ROUND, STEP = 19, 7

NAMED = re.compile(r"`(\w+/\w+-[\w.-]+)`")

Item = TypeVar("Item")


def promised(page: str, crates: Iterable[str]) -> set[str]:
    """The mutants that the page of promises names."""
    known = set(crates)
    return {it for it in NAMED.findall(page) if it.split("/")[0] in known}


def rotated(items: Sequence[Item], number: int) -> list[Item]:
    """The items, beginning at the place of the landing with that number of commits."""
    start = number * STEP % ROUND * len(items) // ROUND
    return [*items[start:], *items[:start]]


def order(mutants: Sequence[Mutant], names: set[str], number: int, changed: set[str], new: set[str]) -> list[Mutant]:
    """The mutants that a landing tries if it has the time, in their order.

    First come those that the landing adds or changes, whether a promise names them or not, then the promised ones of
    the crates that it changes, then all other promised ones in rotation. `names` are the promised ones.
    """
    fresh = [it for it in mutants if str(it) in new]
    due = [it for it in mutants if str(it) in names and it not in fresh]
    return [
        *fresh,
        *(it for it in rotated(due, number) if it.crate in changed),
        *(it for it in rotated(due, number) if it.crate not in changed),
    ]


def share_of(mutants: Sequence[Mutant], names: set[str], changed: set[str]) -> int:
    """How many mutants at the beginning of an order a landing has to try, so that ROUND landings try all promised ones.

    These are the ones that come before the rotation, and as many more as lie between two places.
    """
    first = sum(str(it) not in names or it.crate in changed for it in mutants)
    return first + -(-len(names) // ROUND)


def git(*words: str) -> str | None:
    """What a git command prints; None if it fails, as for a commit that a shallow clone doesn't have."""
    ran = subprocess.run(["git", *words], capture_output=True, encoding="utf-8", check=False)
    return ran.stdout if ran.returncode == 0 else None


def landing_number() -> int:
    """The number of commits up to HEAD."""
    return int(git("rev-list", "--count", "HEAD") or 0)


def changed_crates(since: str) -> set[str]:
    """The crates with a file that isn't as at the commit `since`."""
    files = (git("diff", "--name-only", since, "--", "crates") or "").splitlines()
    return {it.split("/")[1] for it in files if it.count("/") > 1}


def new_mutants(mutants: Sequence[Mutant], changed: set[str], since: str) -> set[str]:
    """The names of the mutants in changed crates that weren't there at the commit `since`, or had another text.

    A crate without a file of mutants at that commit counts as having none that are new.
    """
    found = set()
    for crate in changed:
        text = git("show", f"{since}:crates/{crate}/{FILE}")
        if text is None:
            continue
        try:
            before = {it.name: it.edits for it in parsed(crate, text)}
        except BadMutant:
            before = {}
        found |= {str(it) for it in mutants if it.crate == crate and before.get(it.name) != it.edits}
    return found
