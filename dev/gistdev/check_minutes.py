"""The file dev/check-minutes: the processor minutes that a check of each crate takes, from nothing.

Each line has a crate and its minutes; lines that begin with # say at which commit, on which machine and when they were
measured. `dev/gate --record` writes the file, and dev/dependents shows the figures in CONTRIBUTING.md.
"""
from __future__ import annotations

import datetime
import os
import re
from collections.abc import Mapping

from gistdev.sources import ROOT, commit, lines_of_crates, text_of

FILE = f"{ROOT}/dev/check-minutes"


def machine() -> str:
    """The machine's processors."""
    model = re.search(r"model name\s*: (.*)", text_of("/proc/cpuinfo"))
    return f"{len(os.sched_getaffinity(0))} cores of {model[1].strip() if model else 'an unknown processor'}"


def read() -> dict[str, float]:
    """The minutes by crate."""
    lines = (line.split() for line in text_of(FILE).splitlines() if line.strip() and not line.startswith("#"))
    return {crate: float(minutes) for crate, minutes in lines}


def write(minutes: Mapping[str, float]) -> None:
    """Writes the minutes of the crates in the order of crates.txt. A crate that wasn't measured has no line."""
    # the file is a part of the sources: the commit is read before it changes
    measured = f"commit {commit()}, {machine()}, {datetime.date.today()}"
    with open(FILE, "w", encoding="utf-8") as file:
        file.write("# Processor minutes of each crate's check from nothing, written by dev/gate --record.\n")
        file.write(f"# {measured}\n")
        file.writelines(f"{crate} {minutes[crate]:.1f}\n" for crate in lines_of_crates() if crate in minutes)
