"""Checks that passed, failed or were skipped, and how they are reported."""
from __future__ import annotations

import sys


def skipped(what: str, why: str) -> None:
    """Reports what isn't tested, and why. tests/run repeats such lines at its end."""
    print(f"skipped: {what}: {why}", flush=True)


class Tally:
    """Counts checks, and prints a line for each that passes, fails or is skipped, unless it shows only some."""

    def __init__(self, shows_passed: bool = True, shows_failed: bool = True) -> None:
        self.passed, self.failed, self.skipped = 0, 0, 0
        self.shows_passed, self.shows_failed = shows_passed, shows_failed

    def note(self, what: str, is_well: bool, said: str = "") -> None:
        """Counts a check. What it printed is shown on standard error if it failed."""
        self.passed += is_well
        self.failed += not is_well
        if not (self.shows_passed if is_well else self.shows_failed):
            return
        print(f"{'passed' if is_well else 'FAILED'}: {what}", flush=True)
        if said and not is_well:
            print(said, file=sys.stderr, flush=True)

    def skip(self, what: str, why: str) -> None:
        """Counts what isn't tested."""
        self.skipped += 1
        if self.shows_passed:
            skipped(what, why)

    def end(self) -> int:
        """Prints the last line, `N passed, M failed`, and returns the status."""
        print(f"{self.passed} passed, {self.failed} failed")
        return 1 if self.failed else 0
