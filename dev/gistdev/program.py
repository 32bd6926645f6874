"""The program to test: the options that name it, and how many processes run at once."""
from __future__ import annotations

import argparse
import contextlib
import os
from collections.abc import Iterator

from gistdev.released import Unusable, unpacked
from gistdev.sources import ROOT

BUILT = f"{ROOT}/crates/gist/out/gist"


def processors() -> int:
    """How many processors this process may use."""
    return len(os.sched_getaffinity(0))


def at_least_one(word: str) -> int:
    """The number that a word of an option stands for."""
    if not word.isdecimal() or int(word) < 1:
        raise argparse.ArgumentTypeError(f"{word!r} is no number from 1 on")
    return int(word)


def add_options(parser: argparse.ArgumentParser) -> None:
    """The options of a command that runs the program in several processes at once."""
    program = parser.add_mutually_exclusive_group()
    program.add_argument("--program", metavar="PATH", help="the program to run (default: the one that ./gist --build builds)")
    program.add_argument("--release", action="store_true", help="run the released program, which needs no toolchain")
    help_of_jobs = "how many processes run at once (default: one for each processor)"
    parser.add_argument("--jobs", type=at_least_one, default=processors(), metavar="N", help=help_of_jobs)


@contextlib.contextmanager
def chosen_program(parser: argparse.ArgumentParser, options: argparse.Namespace) -> Iterator[str]:
    """The path of the program that the options name, during the block. If there is none, the process ends with status 2."""
    try:
        with unpacked() if options.release else contextlib.nullcontext() as top:
            program = os.path.abspath(f"{top}/bin/gist" if top else options.program or BUILT)
            if not os.access(program, os.X_OK):
                parser.error(f"there is no program {program}: ./gist --build builds it, --release runs the released one")
            yield program
    except Unusable as why:
        parser.error(str(why))
