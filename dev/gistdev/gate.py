"""Runs the whole gate, from nothing, step by step, up to the first step that fails.

    dev/gate [--all] [--record]

The steps check pages, names, plots and Python (dev/lint-docs, dev/check-clauses, dev/dependents, bench/plots.py,
dev/lint-python), try programs that must not compile, prove and test every crate (`rt ci`), refuse memory in tests in
Rattle, test the program and the library as they were built (tests/run), compare the release with what these sources
build, start it in a fresh clone, and try mutants.

dev/mutants tries as many of the mutants that docs/PROMISES.md names as 25 processor minutes allow, others each time;
once the gate has run for 120 minutes, fewer, and it ends 150 minutes after it began. --all tries every mutant, without
a limit. --record writes the processor minutes of each crate's check into dev/check-minutes, from which dev/dependents
writes the table of CONTRIBUTING.md.

At the end it reports the processor time of proofs, tests and mutants, and of each crate. Each check is a process of its
own, which is sampled five times a second (Linux, /proc); time after the last sample counts under `rest` with everything
else. The last line is `N passed, M failed`, the sum over all steps; the status is 0 only if M is 0.
"""
from __future__ import annotations

import argparse
import collections
import os
import re
import resource
import subprocess
import tempfile
import threading
import time
from collections.abc import Iterator, Mapping, Sequence

from gistdev import check_minutes
from gistdev.mutation.run import ROOM
from gistdev.sources import ROOT

TICKS = os.sysconf("SC_CLK_TCK")
COUNT = re.compile(r"(\d+) passed, (\d+) failed$")
PARTS = ["proofs", "tests", "mutants"]

# Processor minutes for mutants; minutes from the gate's start after which that is less, and after which the gate has to end
FOR_MUTANTS, LATE, LATEST = 25, 120, 150

# Minutes that the report takes, and the end of the checks that run
ENDING = 1

# The name, and the fields after it, of each process by its number
Processes = Mapping[str, tuple[str, list[str]]]


class Check:
    """A process of the checker: what it works on, and the seconds that it and its finished children have taken."""

    def __init__(self, pid: str) -> None:
        folder = os.readlink(f"/proc/{pid}/cwd")
        with open(f"/proc/{pid}/cmdline", encoding="utf-8", errors="replace") as file:
            words = file.read().split("\0")
        self.crate = words[words.index("--crate-name") + 1] if "--crate-name" in words else "?"
        is_mutant = f"/{ROOM}" in folder
        self.part = "mutants" if is_mutant else "tests" if "--test" in words else "proofs"
        self.seconds = 0.0


# The checks by the process's number and the time of its start
Checks = dict[tuple[str, str], Check]

# Processor seconds by part
Seconds = dict[str, float]


def processes() -> Processes:
    """All processes of the machine."""
    found = {}
    for pid in filter(str.isdigit, os.listdir("/proc")):
        try:
            with open(f"/proc/{pid}/stat", encoding="utf-8", errors="replace") as file:
                text = file.read()
            found[pid] = text[text.index("(") + 1:text.rindex(")")], text[text.rindex(")") + 2:].split()
        except (OSError, ValueError):
            continue
    return found


def ancestors(found: Processes, pid: str) -> Iterator[str]:
    while pid in found:
        pid = found[pid][1][1]
        yield pid


def sample(checks: Checks) -> None:
    """Updates the times of this gate's running checks."""
    found = processes()
    for pid, (name, fields) in found.items():
        # a check's forks are counted with it, once they have ended
        is_fork = any(pid_of == fields[1] for pid_of, _ in checks)
        if name != "rattle" or is_fork or str(os.getpid()) not in ancestors(found, pid):
            continue
        try:
            key = pid, fields[19]
            if key not in checks:
                checks[key] = Check(pid)
            checks[key].seconds = sum(int(it) for it in fields[11:15]) / TICKS
        except (OSError, ValueError):
            continue


def run(words: Sequence[str], checks: Checks) -> tuple[bool, int, int]:
    """Runs a step and shows what it prints: whether it went well, and how many passed and failed by its last count."""
    print(f"== {' '.join(words)}", flush=True)
    running = subprocess.Popen(
        words, stdin=subprocess.DEVNULL, stdout=subprocess.PIPE, stderr=subprocess.STDOUT, errors="replace", text=True
    )
    output = running.stdout or ()
    counts: list[tuple[int, int]] = []

    def show() -> None:
        for line in output:
            print(line, end="", flush=True)
            if found := COUNT.search(line.rstrip("\n")):
                counts.append((int(found[1]), int(found[2])))

    shower = threading.Thread(target=show)
    shower.start()
    while running.poll() is None:
        sample(checks)
        time.sleep(0.2)
    shower.join()
    passed, failed = counts[-1] if counts else (0, 0)
    return running.returncode == 0, passed, failed


def seconds_by_crate(checks: Checks) -> dict[str, Seconds]:
    """The processor seconds of each crate's proofs, tests and mutants."""
    found: dict[str, Seconds] = collections.defaultdict(lambda: dict.fromkeys(PARTS, 0.0))
    for check in checks.values():
        found[check.crate][check.part] += check.seconds
    return found


def report(crates: Mapping[str, Seconds], began: float) -> None:
    """Prints the processor time of all, and of each crate."""
    used = resource.getrusage(resource.RUSAGE_CHILDREN)
    whole = used.ru_utime + used.ru_stime
    parts = {part: sum(seconds[part] for seconds in crates.values()) for part in PARTS}
    rest = max(whole - sum(parts.values()), 0)
    minutes = (time.monotonic() - began) / 60
    print(f"processor minutes: {whole / 60:.1f}, in {minutes:.1f} minutes on {len(os.sched_getaffinity(0))} cores")
    print("  " + "".join(f"{part} {parts[part] / 60:.1f}, " for part in PARTS) + f"rest {rest / 60:.1f}")
    for crate, seconds in sorted(crates.items(), key=lambda it: -sum(it[1].values())):
        print(f"  {crate:16}" + "".join(f"{seconds[part] / 60:8.2f}" for part in PARTS))


def limits(minutes: float) -> list[str]:
    """The limits for mutants, in a gate that has run for so many minutes."""
    left = max(LATEST - ENDING - minutes, 0)
    budget = FOR_MUTANTS * min(left / (LATEST - ENDING - LATE), 1)
    return [f"--processor-minutes={budget:.1f}", f"--until-minutes={left:.1f}"]


def steps(folder: str) -> list[list[str]]:
    """The steps before the mutants; the library for C goes into a folder."""
    return [
        ["dev/check-clauses"], ["dev/lint-docs"], ["dev/dependents", "--check"], ["bench/plots.py", "--check"],
        ["dev/lint-python"], ["tests/must-not-compile"], ["rt", "ci"], ["tests/alloc-faults"], ["tools/library", folder],
        ["tests/run", "--library", folder], ["dev/release", "--check", "--built"], ["tests/install-test"],
        ["dev/mutants", "--self-test"],
    ]


def gate(folder: str, tries_all: bool, records: bool) -> int:
    """Runs the steps, and returns the status."""
    began, passed, failed = time.monotonic(), 0, 0
    checks: Checks = {}
    for words in [*steps(folder), ["dev/mutants"]]:
        if words == ["dev/mutants"]:
            words += ["--all"] if tries_all else limits((time.monotonic() - began) / 60)
        of_step: Checks = {}
        is_well, more, fewer = run(words, of_step)
        checks |= of_step
        passed, failed = passed + more, failed + max(fewer, int(not is_well))
        if not is_well:
            break
        if words == ["rt", "ci"] and records:
            found = seconds_by_crate(of_step)
            check_minutes.write({crate: sum(seconds.values()) / 60 for crate, seconds in found.items()})
    report(seconds_by_crate(checks), began)
    print(f"{passed} passed, {failed} failed")
    return 0 if not failed else 1


def main() -> int:
    parser = argparse.ArgumentParser(description=__doc__, formatter_class=argparse.RawDescriptionHelpFormatter)
    parser.add_argument("--all", action="store_true", help="try every mutant")
    parser.add_argument("--record", action="store_true", help="write dev/check-minutes")
    options = parser.parse_args()
    os.chdir(ROOT)
    with tempfile.TemporaryDirectory() as folder:
        return gate(folder, options.all, options.record)
