"""The repository that is tested, and what tests use of the package in dev, which this module adds to Python's path."""
import os
import sys
import unittest

ROOT = os.path.abspath(os.path.join(os.path.dirname(os.path.abspath(__file__)), ".."))
sys.path.insert(0, f"{ROOT}/dev")

from gistdev import library  # noqa: E402
from gistdev.program import BUILT, add_options, chosen_program, processors  # noqa: E402
from gistdev.released import Unusable, unpacked  # noqa: E402
from gistdev.sources import archive, sum_of, text_of, version_of_header  # noqa: E402
from gistdev.tally import Tally, skipped  # noqa: E402

__all__ = [
    "BUILT", "ROOT", "Tally", "Unusable", "add_options", "archive", "chosen_program", "library", "processors",
    "run_tests_of", "skipped", "sum_of", "text_of", "unpacked", "version_of_header",
]


def run_tests_of(name):
    """Runs the unit tests of a module, prints `N passed, M failed`, and returns the status."""
    tests = unittest.defaultTestLoader.loadTestsFromModule(sys.modules[name])
    result = unittest.TextTestRunner(stream=sys.stdout, verbosity=2).run(tests)
    failed = len(result.failures) + len(result.errors)
    print(f"{result.testsRun - failed} passed, {failed} failed")
    return 1 if failed else 0
