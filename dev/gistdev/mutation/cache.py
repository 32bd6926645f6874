"""Verdicts of earlier runs on this machine, so that what hasn't changed since isn't tried again.

They are in a file outside the repository: `$XDG_CACHE_HOME/gist/mutants.json`, or below ~/.cache. A verdict holds as
long as everything that it depends on is the same (mutation.basis).
"""
from __future__ import annotations

import contextlib
import fcntl
import json
import os
from collections.abc import Iterator

from gistdev.mutation.judge import Judgement, Verdict

# The verdicts that are kept; the others are faults of the mutant or of the run
KEPT = (Verdict.KILLED, Verdict.SURVIVED, Verdict.NOT_JUDGED)


def cache_folder() -> str:
    """The folder for what this project's commands keep on this machine."""
    return os.path.join(os.environ.get("XDG_CACHE_HOME") or os.path.expanduser("~/.cache"), "gist")


@contextlib.contextmanager
def locked(folder: str) -> Iterator[None]:
    """Keeps other processes out of a folder during the block."""
    descriptor = os.open(folder, os.O_RDONLY)
    try:
        fcntl.flock(descriptor, fcntl.LOCK_EX)
        yield
    finally:
        os.close(descriptor)


class Cache:
    """The verdicts by mutant, each with the checksum of what it depends on. Several runs may add to a file at once."""

    def __init__(self, path: str) -> None:
        self.path = path
        self.known = self.read()

    def read(self) -> dict[str, list[str]]:
        """What the file has; a damaged file counts as empty."""
        try:
            with open(self.path, encoding="utf-8") as file:
                found = json.load(file)
        except (OSError, ValueError):
            return {}
        return found if isinstance(found, dict) else {}

    def find(self, name: str, checksum: str) -> Judgement | None:
        """The verdict on a mutant, if what it depends on is the same."""
        found = self.known.get(name)
        if not isinstance(found, list) or len(found) != 3 or found[0] != checksum:
            return None
        _, verdict, words = found
        return Judgement(Verdict(verdict), words) if verdict in [it.value for it in KEPT] else None

    def put(self, fresh: dict[str, tuple[str, Judgement]]) -> None:
        """Adds verdicts, each with its checksum, to what the file has now."""
        lines = {name: [checksum, *self.line(it)] for name, (checksum, it) in fresh.items() if it.verdict in KEPT}
        folder = os.path.dirname(self.path)
        os.makedirs(folder, exist_ok=True)
        with locked(folder):
            self.known = self.read() | lines
            with open(f"{self.path}.new", "w", encoding="utf-8") as file:
                json.dump(self.known, file, ensure_ascii=False, indent=0, sort_keys=True)
            os.replace(f"{self.path}.new", self.path)

    @staticmethod
    def line(judgement: Judgement) -> list[str]:
        return [judgement.verdict.value, judgement.words[:300]]
