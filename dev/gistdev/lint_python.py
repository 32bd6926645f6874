"""Checks the Python of dev, tests, tools, bench, bindings and examples by pyflakes, and the package gistdev by mypy.

    dev/lint-python

dev/setup installs both. What isn't installed is skipped, and that is reported. The last line is `N passed, M failed`,
one check for each; the status is 1 if M isn't 0.
"""
from __future__ import annotations

import os
import shutil
import subprocess
import sys

from gistdev.sources import ROOT
from gistdev.tally import Tally, skipped

FOLDERS = ["dev", "tests", "tools", "bench", "bindings/python", "examples"]

# The names of each checker, and its arguments
CHECKERS = [
    (["pyflakes3", "pyflakes"], FOLDERS),
    (["mypy"], ["--strict", "--no-error-summary", f"--cache-dir={os.devnull}", "dev/gistdev"]),
]


def main() -> int:
    if sys.argv[1:]:
        sys.exit(__doc__)
    os.chdir(ROOT)
    tally = Tally()
    for names, words in CHECKERS:
        installed = [name for name in names if shutil.which(name)]
        if not installed:
            skipped(names[-1], "not installed")
            continue
        ended = subprocess.run([installed[0], *words], text=True, capture_output=True)
        tally.note(names[-1], ended.returncode == 0, ended.stdout + ended.stderr)
    return tally.end()
