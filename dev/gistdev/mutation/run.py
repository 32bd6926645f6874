"""Checks that try several mutants at once, spread over all cores within a budget of processor time.

Mutants of different functions are put together into a copy of their crate, and the checker proves these functions
alone (`--only`). Of two functions of which one calls the other, only one has a mutant in a check: while the callee
isn't proved, the checker doesn't say anything about the caller.
"""
from __future__ import annotations

import collections
import concurrent.futures
import os
import shutil
import signal
import subprocess
import tempfile
import threading
import time
from collections.abc import Callable, Iterable, Mapping, Sequence
from typing import NamedTuple

from gistdev.mutation.edits import BadMutant, Mutant, mutated
from gistdev.mutation.judge import Judgement, Verdict, judge
from gistdev.mutation.source import functions_in, words_of
from gistdev.sources import PARTS, files_below, text_of
from gistdev.toolchain import Crate, Toolchain

# The gate recognizes the checks of mutants by this beginning of their folder's name
ROOM = "mutants-"

# With a budget, the most mutants in one check, and the part of the budget after which the share of this run comes first
MOST, HALF = 8, 0.5

# Seconds between two looks at a running check
PAUSE = 0.1


class Checked(NamedTuple):
    """What a check printed, and its processor seconds; no output if it didn't end in time or was killed."""

    output: str | None
    seconds: float


def check(
    kit: Toolchain, crate: Crate, texts: Mapping[str, str], symbols: Sequence[str], kept: str, end: float | None = None
) -> Checked:
    """Checks some functions in a copy of a crate with other texts. `kept` is the folder that earlier checks left."""
    with tempfile.TemporaryDirectory(prefix=ROOM) as room:
        for part in PARTS:
            if os.path.isdir(f"{crate.folder}/{part}"):
                shutil.copytree(f"{crate.folder}/{part}", f"{room}/{part}")
        for path, text in texts.items():
            with open(f"{room}/{path}", "w", encoding="utf-8") as file:
                file.write(text)
        words = [kit.RATTLE, "check", *crate.words(["--jobs", "1"], keeps=False), "--incremental", kept]
        words += [word for it in symbols for word in ("--only", it)]
        with tempfile.TemporaryFile() as said:
            running = subprocess.Popen(
                [*kit.guarded(), *words], cwd=room, stdin=subprocess.DEVNULL, stdout=said, stderr=subprocess.STDOUT
            )
            ended = 0
            while not ended:
                ended, status, used = os.wait4(running.pid, os.WNOHANG)
                if not ended and end is not None and time.monotonic() > end:
                    running.kill()
                    _, status, used = os.wait4(running.pid, 0)
                    break
                time.sleep(0 if ended else PAUSE)
            running.returncode = os.waitstatus_to_exitcode(status)
            said.seek(0)
            output = said.read().decode("utf-8", "replace")
        # a check that something kills, as when the machine is out of memory, says nothing about its mutants
        was_killed = not ended or running.returncode < 0 or running.returncode == 128 + signal.SIGKILL
        return Checked(None if was_killed else output, used.ru_utime + used.ru_stime)


def reached_by(crate: Crate) -> dict[str, set[str]]:
    """The names of the crate's functions that each function calls, directly or through others, found by name."""
    words = collections.defaultdict[str, set[str]](set)
    for path in files_below(f"{crate.folder}/src"):
        text = text_of(path)
        lines = text.split("\n")
        for it in functions_in(text) if path.endswith(".rt") else ():
            words[it.short] |= words_of("\n".join(lines[it.body:it.last + 1]))
    calls = {name: found & words.keys() for name, found in words.items()}

    def below(name: str) -> set[str]:
        found: set[str] = set()
        left = [name]
        while left:
            for it in calls.get(left.pop(), set()) - found:
                found.add(it)
                left.append(it)
        return found

    return {name: below(name) for name in calls}


def batch_of(
    pending: Sequence[Mutant],
    alone: set[Mutant],
    reached: Mapping[str, set[str]],
    read: Callable[[str], str],
    most: int,
) -> tuple[list[Mutant], dict[str, str]]:
    """Mutants for one check, the first of those that are left among them, and the texts of the files that they change.

    After the first come those of functions with many, so that few checks are needed.
    """
    count = collections.Counter(it.symbol for it in pending)
    batch: list[Mutant] = []
    texts: dict[str, str] = {}
    for mutant in [pending[0], *sorted(pending[1:], key=lambda it: -count[it.symbol])]:
        if batch and (len(batch) == most or mutant in alone or batch[0] in alone):
            continue
        others = {it.function for it in batch}
        called = reached.get(mutant.function, set())
        if mutant.function in others or others & called or any(mutant.function in reached.get(it, ()) for it in others):
            continue
        try:
            texts.update(mutated(mutant, lambda path: texts.get(path) or read(path)))
        except BadMutant:
            continue
        batch.append(mutant)
    return batch, texts


class Lane:
    """A crate's work: the folders of earlier checks that no check uses now, and the mutants that are tried alone."""

    def __init__(self, crate: Crate, rooms: str) -> None:
        self.crate, self.rooms = crate, rooms
        self.reached = reached_by(crate)
        self.idle: list[str] = []
        self.alone: set[Mutant] = set()
        self.is_built = False
        self.running = self.checks = 0
        self.seconds = 0.0

    def enter(self) -> str:
        """A folder of earlier checks for one check."""
        self.running += 1
        return self.idle.pop() if self.idle else tempfile.mkdtemp(prefix=ROOM, dir=self.rooms)

    def leave(self, kept: str, seconds: float) -> None:
        self.running -= 1
        self.checks += 1
        self.seconds += seconds
        self.idle.append(kept)

    def read(self, path: str) -> str:
        return text_of(f"{self.crate.folder}/{path}")


class Run:
    """Tries mutants in their order, several checks at once.

    After `budget` processor seconds, those of the running checks included, and after the time `end` of
    time.monotonic(), no further check begins; a check that runs at the end is stopped. The first `share` mutants come
    before others once half of the budget is used.
    """

    def __init__(
        self, kit: Toolchain, crates: Iterable[Crate], mutants: Sequence[Mutant], budget: float | None = None,
        end: float | None = None, share: int = 0, built: Callable[[Crate], None] = lambda _: None,
    ) -> None:
        self.kit, self.budget, self.end, self.built = kit, budget, end, built
        self.crates = {it.name: it for it in crates}
        self.pending = list(mutants)
        self.share = set(mutants[:share])
        self.lanes: dict[str, Lane] = {}
        self.seconds = 0.0
        # when each of the running checks began
        self.began: list[float] = []
        self.results: dict[Mutant, Judgement] = {}
        self.guard = threading.Condition()
        self.building = threading.Lock()

    def go(self, jobs: int) -> dict[Mutant, Judgement]:
        """The judgements; mutants that aren't among them are left for another time."""
        # it sets a signal's handler, which only the main thread can, and only the first call does
        self.kit.guarded()
        with tempfile.TemporaryDirectory(prefix=ROOM) as rooms:
            with concurrent.futures.ThreadPoolExecutor(jobs) as pool:
                for it in [pool.submit(self.work, rooms) for _ in range(jobs)]:
                    it.result()
        return self.results

    def work(self, rooms: str) -> None:
        """Runs one check after another until nothing is left, or the time is over."""
        while True:
            with self.guard:
                mutant = self.next()
                while mutant is None and self.pending == [] and any(it.running for it in self.lanes.values()):
                    # a check that runs may put mutants back
                    self.guard.wait(1)
                    mutant = self.next()
                if mutant is None:
                    return
                if mutant.crate not in self.lanes:
                    self.lanes[mutant.crate] = Lane(self.crates[mutant.crate], rooms)
                lane = self.lanes[mutant.crate]
                own = [it for it in self.pending if it.crate == mutant.crate]
                most = MOST if self.budget is not None else len(own)
                batch, texts = batch_of(own, lane.alone, lane.reached, lane.read, most)
                self.pending = [it for it in self.pending if it not in batch]
                kept = lane.enter()
            self.try_batch(lane, batch, texts, kept)

    def next(self) -> Mutant | None:
        """The next mutant: the first whose crate isn't being checked, or else the first. None if the time is over."""
        if self.end is not None and time.monotonic() > self.end:
            return None
        used = self.seconds + sum(time.monotonic() - it for it in self.began)
        if self.budget is not None and used >= self.budget:
            return None
        due = [it for it in self.pending if it in self.share]
        if not due or self.budget is None or used < HALF * self.budget:
            due = self.pending
        busy = {name for name, lane in self.lanes.items() if lane.running}
        return next((it for it in due if it.crate not in busy), due[0] if due else None)

    def try_batch(self, lane: Lane, batch: list[Mutant], texts: dict[str, str], kept: str) -> None:
        """Checks a batch. Mutants about which that shows nothing are put back, to be tried alone or with others."""
        seconds = 0.0
        back: list[tuple[Mutant, bool]] = []
        began: list[float] = []
        try:
            with self.building:
                if not lane.is_built:
                    self.built(lane.crate)
                    lane.is_built = True
            with self.guard:
                began = [time.monotonic()]
                self.began += began
            output, seconds = check(self.kit, lane.crate, texts, [it.symbol for it in batch], kept, self.end)
            for mutant in batch if output is not None else ():
                found = judge(mutant, texts, output or "")
                again = found.verdict in (Verdict.CALLS_UNPROVED, Verdict.UNCLEAR, Verdict.NOT_COMPILED)
                if again and len(batch) > 1:
                    back.append((mutant, found.verdict is not Verdict.CALLS_UNPROVED))
                else:
                    self.results[mutant] = found
        finally:
            with self.guard:
                self.began = [it for it in self.began if it not in began]
                self.seconds += seconds
                lane.leave(kept, seconds)
                self.pending += [it for it, _ in back]
                lane.alone |= {it for it, is_alone in back if is_alone}
                self.guard.notify_all()
