#!/usr/bin/env python3
"""Tests the commands of dev without the toolchain: that linters find faults, and what the gate and the tables compute.

    tests/dev_tests.py

It also tests what no text shows of the slow model of a session. The mutants' commands are tested in tests/mutation_tests.py. The last line is `N passed, M failed`; the status is 1 if M
isn't 0.
"""
import contextlib
import io
import os
import sys
import tempfile
import unittest
from types import SimpleNamespace
from unittest import mock

from checkout import Tally, run_tests_of
from gistdev import build, check_clauses, check_minutes, dependents, documents, gate, lint_docs
from models.grammar import read_line
from models.keys import INTERVALS
from models.session_model import Session


class Folder(unittest.TestCase):
    """Tests in an empty folder, which is the current one."""

    def setUp(self):
        room, before = tempfile.TemporaryDirectory(), os.getcwd()
        self.addCleanup(room.cleanup)
        os.chdir(room.name)
        self.addCleanup(os.chdir, before)
        for cached in (documents.lines_of, lint_docs.anchors_of, check_clauses.crate_of, check_clauses.sources):
            cached.cache_clear()

    @staticmethod
    def put(path, text):
        """Writes a file."""
        os.makedirs(os.path.dirname(path) or ".", exist_ok=True)
        with open(path, "w", encoding="utf-8") as file:
            file.write(text)


class Pages(Folder):
    """Faults of pages."""

    def test_long_pages_and_wide_lines_are_found_but_no_wide_code_and_tables(self):
        wide = "x" * 121
        self.put("docs/A.md", f"{wide}\n| {wide} |\n```\n{wide}\n```\n" + "a line\n" * 250)
        faults = list(lint_docs.faults_of_page("docs/A.md"))
        self.assertEqual(faults, ["docs/A.md has 255 lines, more than 250", "docs/A.md:1 has 121 columns, more than 120"])

    def test_links_lead_to_files_and_headings(self):
        self.put("docs/A.md", "# One `two`\n[b](B.md), [c](#one-two), [d](#none), [e](A.md#one-two), [f](https://x.example)\n")
        links = [(path, heading) for _, path, heading in lint_docs.links_of("docs/A.md")]
        self.assertEqual(links, [("docs/B.md", ""), ("docs/A.md", "one-two"), ("docs/A.md", "none"), ("docs/A.md", "one-two")])
        faults = [lint_docs.fault_of_link(*link) for link in links]
        self.assertEqual(faults, ["there is no docs/B.md", "", "docs/A.md has no heading #none", ""])

    def test_named_files_exist(self):
        self.put("crates/node/src/page.rt", "")
        self.put("docs/A.md", "node/src/page.rt and node/src/page, but tests/none, not crates/node/out/x or `crates/NAME/src`\n")
        named = [name for _, name in lint_docs.files_of("docs/A.md")]
        self.assertEqual(named, ["node/src/page.rt", "node/src/page", "tests/none"])
        self.assertEqual([lint_docs.exists(name) for name in named], [True, True, False])


class Clauses(Folder):
    """Names of clauses, definitions and code that documents show."""

    def test_functions_and_their_clauses_are_looked_up(self):
        self.put("crates/node/src/page.rt", "impl Page {\n    pub fn turn(&self)\n        ensures ok { x }\n    {\n    }\n}\n\n#[test]\nfn turns() {\n}\n")
        faults = {name: check_clauses.fault_of(name) for name in (
            "node::Page::turn/ok", "node::turns", "node::Page::turn/no", "node::Page::turn", "node::Leaf::turn/ok", "leaf::turn/ok", "node::a b",
        )}
        self.assertEqual(faults, {
            "node::Page::turn/ok": "", "node::turns": "", "node::Page::turn/no": "no clause no",
            "node::Page::turn": "it has no clause without a label, and is no test",
            "node::Leaf::turn/ok": "no function Leaf::turn in crates/node/src", "leaf::turn/ok": "no crate leaf", "node::a b": "it has none of the forms",
        })

    def test_definitions_and_their_parts_are_looked_up(self):
        self.put("crates/node/specs/Pages.antt", "pub record Page :\n  pub key : Key\n\npub record Key :\n  pub low : Int\n")
        names = ["Pages/Page", "Pages/Page.key.low", "Pages/Page.key.high", "Pages/Leaf", "Leaves/Leaf"]
        faults = [check_clauses.fault_of(f"node/specs/{name}") for name in names]
        self.assertEqual(faults[:2], ["", ""])
        self.assertEqual(faults[2:4], ["no part high in Key", "no definition Leaf in crates/node/specs/Pages.antt"])
        self.assertEqual(faults[4], "no file crates/node/specs/Leaves.antt")

    def test_shown_code_is_in_an_example(self):
        self.put("examples/a.py", "def one():\n    return 1\n")
        self.assertEqual(check_clauses.fault_of_block("python", ["def one():", "return 1"]), "")
        self.assertEqual(check_clauses.fault_of_block("python", ["return 2"]), "no source has this code")
        self.assertIsNone(check_clauses.fault_of_block("console", ["$ ls"]))


class Tables(Folder):
    """The table of crates."""

    def test_crates_above_are_those_that_use_a_crate_directly_or_through_others(self):
        used = {"low": [], "middle": ["low"], "high": ["middle"], "other": ["low"]}
        self.assertEqual(dependents.above(used), {"low": {"middle", "high", "other"}, "middle": {"high"}, "high": set(), "other": set()})

    def test_minutes_are_read_as_they_were_written(self):
        with mock.patch.object(check_minutes, "FILE", "minutes"):
            check_minutes.write({"world": 3.14, "desk": 15.0, "unknown": 1.0})
            self.assertEqual(check_minutes.read(), {"world": 3.1, "desk": 15.0})


class Gate(unittest.TestCase):
    """The gate's limits and sums."""

    def test_a_late_gate_tries_fewer_mutants(self):
        self.assertEqual(gate.limits(10), ["--processor-minutes=25.0", "--until-minutes=139.0"])
        self.assertEqual(gate.limits(134.5), ["--processor-minutes=12.5", "--until-minutes=14.5"])
        self.assertEqual(gate.limits(200), ["--processor-minutes=0.0", "--until-minutes=0.0"])

    def test_seconds_are_summed_by_crate_and_part(self):
        checks = {number: SimpleNamespace(crate=crate, part=part, seconds=2.0) for number, (crate, part) in enumerate(
            [("node", "proofs"), ("node", "proofs"), ("node", "mutants"), ("leaf", "tests")],
        )}
        found = gate.seconds_by_crate(checks)
        self.assertEqual(found, {"node": {"proofs": 4.0, "tests": 0.0, "mutants": 2.0}, "leaf": {"proofs": 0.0, "tests": 2.0, "mutants": 0.0}})

    def test_a_step_counts_by_its_last_line(self):
        with contextlib.redirect_stdout(io.StringIO()):
            self.assertEqual(gate.run(["sh", "-c", "echo 1 passed, 0 failed; echo 3 passed, 2 failed; exit 1"], {}), (False, 3, 2))


class Building(unittest.TestCase):
    """The order in which crates are built."""

    def test_the_crate_that_most_waits_for_comes_first_as_far_as_memory_allows(self):
        work = build.Work.__new__(build.Work)
        work.waiting = {"short": 1, "long": 9}
        work.memory = lambda crate, jobs: 10 * jobs
        self.assertEqual(work.next(["short", "long"], [], 4, 100), ("long", 2))
        self.assertEqual(work.next(["short"], [("long", 2)], 4, 100), ("short", 2))
        self.assertEqual(work.next(["short"], [("long", 2)], 4, 35), ("short", 1))
        self.assertIsNone(work.next(["short"], [("long", 2)], 4, 25))
        self.assertIsNone(work.next(["short"], [("long", 4)], 4, 100))


class OutOfMemory(unittest.TestCase):
    """The model of a session in which a sweep runs out of memory."""

    def setUp(self):
        self.session, self.sweep = Session(INTERVALS), read_line("serve", "interval", b"sweep")

    def answer(self, *lines):
        """Carries lines out with answers that they may have."""
        return [self.session.some_answer(read_line("serve", "interval", line)) for line in lines]

    def test_some_of_the_rows_may_be_gone_until_the_next_sweep(self):
        self.answer(b"insert (1 1) 0", b"insert (2 2) 0", b"delete 1", b"delete 2")
        self.session.note_out_of_memory(self.sweep)
        self.assertEqual(self.session.answers(self.sweep), ["swept 0", "swept 1", "swept 2"])
        self.session.note(self.sweep, "swept 1")
        self.assertEqual(self.session.answers(self.sweep), ["swept 0"])

    def test_a_scan_under_way_leaves_two_bounds(self):
        self.answer(b"insert (1 1) 0", b"insert (2 2) 0", b"insert (3 3) 0", b"delete 1", b"open 4 overlaps(0 9)", b"next 1", b"delete 2")
        self.assertEqual(self.session.answers(self.sweep), ["swept 1", "swept 2"])
        self.session.note_out_of_memory(self.sweep)
        self.session.note(self.sweep, "swept 1")
        self.assertEqual(self.session.answers(self.sweep), ["swept 0", "swept 1"])

    def test_a_scan_may_have_begun(self):
        self.answer(b"insert (1 1) 0", b"open 4 overlaps(0 9)", b"delete 1")
        self.assertEqual(self.session.answers(self.sweep), ["swept 0"])
        self.session.note_out_of_memory(read_line("serve", "interval", b"next 1"))
        self.assertEqual(self.session.answers(self.sweep), ["swept 0", "swept 1"])


class Counting(unittest.TestCase):
    """Tallies."""

    def test_failures_make_the_status(self):
        printed = io.StringIO()
        with contextlib.redirect_stdout(printed), contextlib.redirect_stderr(io.StringIO()):
            tally = Tally()
            tally.note("one", True)
            self.assertEqual(tally.end(), 0)
            tally.note("two", False, "why")
            tally.skip("three", "not installed")
            self.assertEqual(tally.end(), 1)
        lines = ["passed: one", "1 passed, 0 failed", "FAILED: two", "skipped: three: not installed", "1 passed, 1 failed"]
        self.assertEqual(printed.getvalue().splitlines(), lines)


if __name__ == "__main__":
    sys.exit(run_tests_of(__name__))
