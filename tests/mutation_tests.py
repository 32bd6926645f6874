#!/usr/bin/env python3
"""Tests what dev/mutants does without the checker: reading mutants, choosing, judging recorded output, and budgets.

    tests/mutation_tests.py

tests/mutants has output of the checker, recorded for changed functions of the crate row_version, reduced to the lines
with errors, notes and verdicts. The last line is `N passed, M failed`; the status is 1 if M isn't 0.
"""
import contextlib
import io
import os
import sys
import tempfile
import time
import unittest
from collections.abc import Sequence
from typing import Any, cast
from unittest import mock

from checkout import ROOT, run_tests_of, text_of
from gistdev import mutants as command
from gistdev.mutation import basis, cache, choose, judge, run
from gistdev.mutation.edits import BadMutant, Edit, Mutant, located, mutants_of, mutated, parsed, symbol_of
from gistdev.mutation.judge import Judgement, Verdict
from gistdev.mutation.source import functions_in, owner_of
from gistdev.toolchain import Crate, Toolchain

TWO = """# a comment
mutant: close-nothing_is_kept
file: src/a.rt
old:     keep(x) 
new: 
old: y
new:  z

mutant: open-first_is_lost
test: trials::open::opens
file: src/b.rt
old: mutant: old:
new: file: new:
"""

SOURCE = """impl<K> Store<K> {
    /// Opens.
    pub fn open(&self) -> u64
        ensures { result ≡ 0 }
    {
        self.first(0)
    }

    fn first(&self, at: u64) -> u64 {
        at
    }
}

impl<K> Reader for Store<K> {
    fn read(&self) -> u64 {
        self.first(0) + self.first(0)
    }
}

fn lowest() -> u64 {
    0
}
"""


def mutant(name: str, old: str = "", new: str = "", crate: str = "store", path: str = "src/inner/a.rt") -> Mutant:
    return Mutant(crate, name, (Edit(path, old, new),))


def changed_text(name: str, old: str, new: str) -> str:
    return mutated(mutant(name, old, new), lambda _: SOURCE)["src/inner/a.rt"]


class Reading(unittest.TestCase):
    """A crate's file of mutants."""

    def test_mutants_are_read_with_each_space(self) -> None:
        close, opens = parsed("store", TWO)
        self.assertEqual(close.edits, (Edit("src/a.rt", "    keep(x) ", ""), Edit("src/a.rt", "y", " z")))
        self.assertEqual((str(close), close.function, close.test), ("store/close-nothing_is_kept", "close", ""))
        self.assertEqual(opens.edits, (Edit("src/b.rt", "mutant: old:", "file: new:"),))
        self.assertEqual(opens.test, "trials::open::opens")

    def test_faulty_files_are_refused(self) -> None:
        one = "mutant: a-b\nfile: src/a.rt\nold: x\nnew: y\n"
        faulty = {
            "no mutant before": "file: src/a.rt\n",
            "twice": one + one,
            "not in order": one.replace("a-b", "b-a") + one,
            "no name": one.replace("a-b", "ab"),
            "old without new": one.replace("new: y\n", ""),
            "old twice": one.replace("new: y\n", "old: y\n"),
            "new without old": one.replace("old: x\n", ""),
            "no file": one.replace("file: src/a.rt\n", ""),
            "changes nothing": "mutant: a-b\nfile: src/a.rt\n",
            "other line": one + "more\n",
        }
        for what, text in faulty.items():
            with self.subTest(what), self.assertRaises(BadMutant):
                parsed("store", text)

    def test_mutants_of_the_repository_have_their_text_in_the_sources(self) -> None:
        names = set()
        for crate in sorted(os.listdir(f"{ROOT}/crates")):
            names |= {str(it) for it in mutants_of(crate, f"{ROOT}/crates/{crate}")}
        page = choose.promised(text_of(f"{ROOT}/docs/PROMISES.md"), os.listdir(f"{ROOT}/crates"))
        self.assertEqual(page - names, set())
        self.assertGreater(len(names), 1000)


class Changing(unittest.TestCase):
    """The sources with a mutant in them."""

    def test_a_text_is_replaced_in_its_function(self) -> None:
        opened = changed_text("open-x", "self.first(0)", "self.first(1)")
        self.assertIn("        self.first(1)\n    }\n\n    fn first", opened)
        self.assertIn("fn lowest() -> u64 {\n    1\n}", changed_text("lowest-x", "    0", "    1"))

    def test_a_text_outside_of_the_function_is_replaced_if_it_occurs_once(self) -> None:
        self.assertIn("fn read(&self) -> u32", changed_text("open-x", "fn read(&self) -> u64", "fn read(&self) -> u32"))

    def test_a_text_that_does_not_occur_once_is_refused(self) -> None:
        for name, old in (("read-x", "self.first(0)"), ("lowest-x", "nothing"), ("lowest-x", "self")):
            with self.subTest(name), self.assertRaises(BadMutant):
                changed_text(name, old, "")

    def test_a_function_is_named_as_by_the_checker(self) -> None:
        with tempfile.TemporaryDirectory() as folder:
            os.makedirs(f"{folder}/src/inner")
            with open(f"{folder}/src/inner/a.rt", "w", encoding="utf-8") as file:
                file.write(SOURCE)
            symbols = {"open-x": "Store::open", "read-x": "StoreReader::read", "lowest-x": "inner::a::lowest"}
            for name, symbol in symbols.items():
                self.assertEqual(symbol_of(mutant(name), folder), symbol)
            self.assertEqual(located(mutant("open-x", "self.first(0)", "1"), folder).symbol, "Store::open")
            with self.assertRaises(BadMutant):
                symbol_of(mutant("close-x"), folder)

    def test_owners_are_named_with_their_arguments(self) -> None:
        self.assertEqual(owner_of("impl<K: Copy> Entry<K> {"), "Entry")
        self.assertEqual(owner_of("impl Block<Version> for VersionBlock {"), "VersionBlockBlockVersion")
        self.assertEqual(owner_of("impl Locked<World<C>> where C: Key {"), "Locked+World+C")


NAMES = [f"{crate}/f{number}-x" for crate in ("a", "b", "c", "d") for number in range(13)]


def of_names(names: Sequence[str]) -> list[Mutant]:
    return [mutant(it.split("/")[1], crate=it.split("/")[0]) for it in names]


class Choosing(unittest.TestCase):
    """Which mutants a landing tries."""

    def test_twenty_landings_try_every_promised_mutant(self) -> None:
        mutants = of_names(NAMES)
        each = choose.share_of(choose.order(mutants, set(NAMES), 0, set(), set()), set(NAMES), set())
        self.assertLess(each, 4)
        for commits in range(1, choose.ROUND):
            for first in range(40):
                tried = set()
                for landing in range(20):
                    due = choose.order(mutants, set(NAMES), first + commits * landing, set(), set())
                    tried |= {str(it) for it in due[:each]}
                self.assertEqual(tried, set(NAMES), f"from {first} on, {commits} commits a landing")

    def test_consecutive_landings_begin_in_different_crates(self) -> None:
        mutants = of_names(NAMES)
        for number in range(40):
            due = [choose.order(mutants, set(NAMES), it, set(), set())[0] for it in range(number, number + 3)]
            self.assertGreater(len({it.crate for it in due}), 1)
        begun = [choose.order(mutants, set(NAMES), it, set(), set())[0].crate for it in range(3)]
        self.assertEqual(begun, ["a", "b", "c"])

    def test_each_landing_tries_each_once(self) -> None:
        due = choose.order(of_names(NAMES), set(NAMES), 5, {"c"}, {"d/f3-x"})
        self.assertEqual(sorted(map(str, due)), sorted(NAMES))

    def test_new_mutants_and_changed_crates_come_first(self) -> None:
        more = ["c/more-x", "d/more-x"]
        due = choose.order(of_names(NAMES + more), set(NAMES), 5, {"b", "c"}, {"c/more-x", "b/f2-x"})
        self.assertEqual({str(it) for it in due[:2]}, {"c/more-x", "b/f2-x"})
        self.assertEqual({it.crate for it in due[2:2 + 12 + 13]}, {"b", "c"})
        self.assertNotIn("d/more-x", [str(it) for it in due])
        self.assertEqual(choose.share_of(due, set(NAMES), {"b", "c"}), 27 + 3)

    def test_promises_are_read_from_the_page(self) -> None:
        page = "| A | `node/keep-x`, `node/keep-y.2` |\n`tests/must-not` and `node/src`"
        self.assertEqual(choose.promised(page, ["node"]), {"node/keep-x", "node/keep-y.2"})

    def test_mutants_with_another_text_are_new(self) -> None:
        before = "mutant: a-x\nfile: src/a.rt\nold: x\nnew: y\n\nmutant: b-x\nfile: src/a.rt\nold: x\nnew: y\n"
        now = parsed("store", f"{before.replace('new: y', 'new: z', 1)}\nmutant: c-x\nfile: src/a.rt\nold: x\nnew: y\n")
        with mock.patch.object(choose, "git", return_value=before):
            self.assertEqual(choose.new_mutants(now, {"store"}, "HEAD~1"), {"store/a-x", "store/c-x"})
            self.assertEqual(choose.new_mutants(now, {"node"}, "HEAD~1"), set())
        with mock.patch.object(choose, "git", return_value=None):
            self.assertEqual(choose.new_mutants(now, {"store"}, "HEAD~1"), set())


def source_with(owner: str, function: str, first: int, last: int) -> str:
    """A source file with a method in these lines, which count from 1."""
    inside = ["", f"impl {owner} {{", *[""] * (first - 3), f"    fn {function}(&self) {{", *[""] * (last - first - 1)]
    return "\n".join([*inside, "    }", "}", ""])


def recorded(name: str) -> str:
    """A recorded output of the checker."""
    return text_of(f"{ROOT}/tests/mutants/{name}.txt")


def judged(output: str, owner: str, function: str, path: str, first: int, last: int) -> Judgement:
    """The verdict on a method in these lines, by an output of the checker."""
    changed = Mutant("row_version", f"{function}-x", (Edit(path, "", ""),), symbol=f"{owner}::{function}")
    texts = {path: source_with(owner, function, first, last)}
    (only,) = functions_in(texts[path])
    assert (only.first, only.last) == (first - 1, last - 1)
    return judge.judge(changed, texts, output)


def judged_entry(output: str, function: str, first: int, last: int) -> Judgement:
    return judged(recorded(output), "Entry", function, "src/entry.rt", first, last)


def judged_block(output: str, function: str = "pair", last: int = 75) -> Judgement:
    return judged(recorded(output), "VersionBlock", function, "src/version_block.rt", 61, last)


class Judging(unittest.TestCase):
    """Verdicts on recorded output of the checker."""

    def test_killed_at_a_clause(self) -> None:
        for function, first, last in (("died", 76, 86), ("row", 66, 70), ("tag", 71, 75)):
            found = judged_entry("killed_at_a_clause", function, first, last)
            self.assertEqual(found.verdict, Verdict.KILLED)
            self.assertIn("what the function ensures", found.words)

    def test_killed_at_a_safety_step(self) -> None:
        found = judged_entry("killed_at_a_step", "row", 66, 72)
        self.assertEqual(found.verdict, Verdict.KILLED)
        self.assertIn("the sum fits its type", found.words)

    def test_killed_at_an_invariant(self) -> None:
        found = judged_block("killed_at_an_invariant", "last_place")
        self.assertEqual(found.verdict, Verdict.KILLED)
        self.assertIn("the invariant of the loop", found.words)

    def test_killed_by_the_goals_of_a_verdict_without_a_note(self) -> None:
        found = judged_entry("killed_at_a_clause", "row", 1000, 1002)
        self.assertEqual(found.verdict, Verdict.KILLED)
        self.assertIn("`search` did not prove `returns`", found.words)

    def test_survived(self) -> None:
        self.assertEqual(judged_entry("survived", "visible_at", 94, 100).verdict, Verdict.SURVIVED)

    def test_calls_an_unproved_function(self) -> None:
        self.assertEqual(judged_entry("calls_unproved", "died_at", 111, 124).verdict, Verdict.KILLED)
        self.assertEqual(judged_entry("calls_unproved", "marked", 126, 138).verdict, Verdict.CALLS_UNPROVED)

    def test_a_hand_written_proof_that_no_longer_fits_is_no_evidence(self) -> None:
        found = judged_block("proof_no_longer_fits")
        self.assertEqual(found.verdict, Verdict.NOT_JUDGED)
        self.assertTrue(found.words.startswith("its hand-written proof no longer fits: `returns-clause-bits`"))

    def test_names_that_are_gone_are_no_evidence(self) -> None:
        found = judged_block("names_gone", "unneeded")
        self.assertEqual(found.verdict, Verdict.NOT_JUDGED)
        self.assertTrue(found.words.startswith("names of its hand-written proof are gone: `returns`"))

    def test_another_clause_or_step_counts_although_a_hand_written_proof_fails(self) -> None:
        for output, words in (
            ("proof_and_clause", "`returns-clause-second`"),
            ("proof_and_step", "the sum fits its type"),
            ("names_gone_and_clause", "`returns-clause-second`"),
        ):
            found = judged_block(output)
            self.assertEqual(found.verdict, Verdict.KILLED, output)
            self.assertIn(words, found.words)

    def test_the_same_clause_under_another_goals_name_is_no_evidence(self) -> None:
        # the body with an `if` whose branches are alike: it means the same
        found = judged_block("goal_gone")
        self.assertEqual(found.verdict, Verdict.NOT_JUDGED)
        self.assertTrue(found.words.startswith("names of its hand-written proof are gone"))

    def test_a_clause_behind_a_loop_without_its_invariant_is_no_evidence(self) -> None:
        # the body with another name for the loop's variable: it means the same
        self.assertEqual(judged_block("invariant_gone", "last_place").verdict, Verdict.NOT_JUDGED)

    def test_a_measure_of_a_recursion_that_is_gone_is_no_evidence(self) -> None:
        output = recorded("invariant_gone").replace("VersionBlock/last_place", "VersionBlock/+last_place")
        self.assertIn("/+last_place/", output)
        found = judged(output, "VersionBlock", "last_place", "src/version_block.rt", 61, 75)
        self.assertEqual(found.verdict, Verdict.NOT_JUDGED)

    def test_faults_of_other_functions_proofs_do_not_count(self) -> None:
        output = recorded("killed_at_an_invariant") + recorded("proof_no_longer_fits")
        found = judged(output, "VersionBlock", "last_place", "src/version_block.rt", 61, 75)
        self.assertEqual(found.verdict, Verdict.KILLED)

    def test_a_mutant_that_is_no_code_is_not_compiled(self) -> None:
        self.assertEqual(judged_entry("not_compiled", "visible_at", 94, 100).verdict, Verdict.NOT_COMPILED)

    def test_output_without_a_verdict_is_unclear(self) -> None:
        self.assertEqual(judged_entry("survived", "row", 66, 70).verdict, Verdict.UNCLEAR)

    def test_goals_of_all_ways_through_a_function_are_of_a_kind(self) -> None:
        for kind, goals in {
            "ensures bits": ("returns-clause-bits", "returns-then-horizon-eq7-clause-bits"),
            "ensures ": ("returns", "returns-else-self-eq0"),
            "requires ": ("push-requires", "in-Some-push-requires-2"),
            "loop": ("loop-at-preserved", "descending-init"),
            "overflow_add": ("overflow_add-next", "overflow_add-result-2"),
            "": ("In_ok-move_pages-in-Enlarge",),
        }.items():
            self.assertEqual({judge.kind_of(it) for it in goals}, {kind})


class Keeping(unittest.TestCase):
    """Verdicts of earlier runs, and what they depend on."""

    def test_a_verdict_holds_while_its_checksum_is_the_same(self) -> None:
        with tempfile.TemporaryDirectory() as folder:
            path = f"{folder}/gist/mutants.json"
            found = {it: Judgement(it, it.value) for it in Verdict}
            cache.Cache(path).put({it.value: ("sum", found[it]) for it in Verdict})
            later = cache.Cache(path)
            for it in Verdict:
                self.assertEqual(later.find(it.value, "sum"), found[it] if it in cache.KEPT else None)
                self.assertIsNone(later.find(it.value, "other"))
            self.assertIsNone(later.find("unknown", "sum"))

    def test_runs_add_to_what_others_wrote(self) -> None:
        with tempfile.TemporaryDirectory() as folder:
            one, other = cache.Cache(f"{folder}/mutants.json"), cache.Cache(f"{folder}/mutants.json")
            one.put({"a/a-x": ("1", Judgement(Verdict.KILLED, ""))})
            other.put({"b/b-x": ("2", Judgement(Verdict.SURVIVED, ""))})
            self.assertEqual(set(cache.Cache(f"{folder}/mutants.json").known), {"a/a-x", "b/b-x"})

    def test_a_damaged_file_counts_as_empty(self) -> None:
        with tempfile.TemporaryDirectory() as folder:
            for text in ("{", "[]", '{"a/a-x": 1}', '{"a/a-x": ["sum", "unheard of", ""]}'):
                with open(f"{folder}/mutants.json", "w", encoding="utf-8") as file:
                    file.write(text)
                self.assertIsNone(cache.Cache(f"{folder}/mutants.json").find("a/a-x", "sum"))

    def test_a_verdict_depends_on_the_definitions_that_are_named(self) -> None:
        definitions = "abbrev pub sum : ℕ\nsum = part\n\nabbrev pub part : ℕ\npart = 1\n"
        counted = rest_of(definitions)
        self.assertTrue(counted)
        self.assertEqual(counted, rest_of(f"{definitions}\nabbrev pub other : ℕ\nother = sum\n"))
        self.assertNotEqual(counted, rest_of(definitions.replace("1", "2")))


class Plain:
    """A crate with a name and a folder, and one below it."""

    def __init__(self, name: str, folder: str, *below: "Plain") -> None:
        self.name, self.folder, self.beneath = name, folder, below

    def below(self) -> tuple["Plain", ...]:
        return self.beneath


def rest_of(definitions: str) -> list[str]:
    """What a crate depends on that names one `sum` of the definitions of one below."""
    with tempfile.TemporaryDirectory() as room:
        texts = {
            "above/src/lib.rt": "ghost use Rattle.below.specs.Sums.{sum};\n",
            "below/specs/Lib.antt": "pub mod Sums\n",
            "below/specs/Sums.antt": definitions,
        }
        for path, text in texts.items():
            os.makedirs(os.path.dirname(f"{room}/{path}"), exist_ok=True)
            with open(f"{room}/{path}", "w", encoding="utf-8") as file:
                file.write(text)
        above = Plain("above", f"{room}/above", Plain("below", f"{room}/below"))
        return [text for _, text in basis.rests_on(cast(Crate, above))]


CODE = """fn top() -> u64 {
    middle()
}

fn middle() -> u64 {
    bottom()
}

fn bottom() -> u64 {
    0
}

fn other() -> u64 {
    0
}
"""


class Running(unittest.TestCase):
    """Checks of several mutants, with a checker that only prints verdicts."""

    def setUp(self) -> None:
        folder = tempfile.TemporaryDirectory()
        self.addCleanup(folder.cleanup)
        os.makedirs(f"{folder.name}/src")
        with open(f"{folder.name}/src/lib.rt", "w", encoding="utf-8") as file:
            file.write(CODE)
        self.folder = folder.name
        self.checked: list[list[str]] = []
        self.says: dict[str, str] = {}

    def mutants(self, *names: str, crate: str = "one") -> list[Mutant]:
        texts = {"top": "middle()", "middle": "bottom()", "bottom": "    0", "other": "    0"}
        found = [mutant(it, texts[it.split("-")[0]], "1", crate, "src/lib.rt") for it in names]
        return [located(it, self.folder) for it in found]

    def tried(self, mutants: list[Mutant], seconds: float = 60, **how: Any) -> dict[str, Verdict]:
        """The verdicts of a run, each of whose checks takes so many processor seconds."""

        def check(_kit: object, crate: Crate, _texts: object, symbols: list[str], *_: object) -> run.Checked:
            self.checked.append([f"{crate.name}/{it}" for it in symbols])
            lines = [f"fn {crate.name}::{it}: {self.says.get(it, 'proved')}" for it in symbols]
            lines = ["src/lib.rt:1:1: error: it is no code"] if "error" in self.says.values() else lines
            return run.Checked("\n".join(lines), seconds)

        crates = [cast(Crate, Plain(it, self.folder)) for it in ("one", "two")]
        kit = cast(Toolchain, mock.Mock())
        with mock.patch.object(run, "check", check):
            found = run.Run(kit, crates, mutants, **how).go(1)
        return {str(it): judgement.verdict for it, judgement in found.items()}

    def test_a_check_has_one_mutant_a_function_and_none_of_a_caller(self) -> None:
        found = self.tried(self.mutants("top-a", "top-b", "middle-a", "bottom-a", "other-a"))
        self.assertEqual(len(found), 5)
        for symbols in self.checked:
            self.assertLessEqual(len({"one/top", "one/middle", "one/bottom"} & set(symbols)), 1)
            self.assertEqual(len(symbols), len(set(symbols)))
        self.assertEqual(sorted(sum(self.checked, [])), ["one/bottom", "one/middle", "one/other", "one/top", "one/top"])

    def test_a_mutant_that_calls_an_unproved_function_is_tried_again(self) -> None:
        self.says = {"other": "no proof: it calls `one::top`, which is not proved"}
        found = self.tried(self.mutants("top-a", "other-a"))
        self.assertEqual(found, {"one/top-a": Verdict.SURVIVED, "one/other-a": Verdict.CALLS_UNPROVED})
        self.assertEqual([sorted(it) for it in self.checked], [["one/other", "one/top"], ["one/other"]])

    def test_mutants_of_a_check_that_reads_no_code_are_tried_alone(self) -> None:
        self.says = {"other": "error"}
        found = self.tried(self.mutants("top-a", "other-a"))
        self.assertEqual(set(found.values()), {Verdict.NOT_COMPILED})
        self.assertEqual(sorted(map(len, self.checked)), [1, 1, 2])

    def test_a_check_that_is_killed_leaves_its_mutants_for_another_time(self) -> None:
        program = f"{self.folder}/killed"
        with open(program, "w", encoding="utf-8") as file:
            file.write("#!/bin/sh\necho 'fn one::top: proved'\nkill -9 $$\n")
        os.chmod(program, 0o755)
        kit = mock.Mock(RATTLE=program, guarded=lambda: [])
        crate = mock.Mock(folder=self.folder, words=lambda *_, **__: [])
        done = run.check(cast(Toolchain, kit), cast(Crate, crate), {}, ["one::top"], self.folder)
        self.assertIsNone(done.output)

    def test_no_check_begins_when_the_budget_is_used(self) -> None:
        found = self.tried(self.mutants("top-a", "top-b", "top-c", "top-d"), budget=150)
        self.assertEqual(list(found), ["one/top-a", "one/top-b", "one/top-c"])

    def test_running_checks_count_for_the_budget(self) -> None:
        one = run.Run(cast(Toolchain, mock.Mock()), [], self.mutants("top-a"), budget=100)
        self.assertIsNotNone(one.next())
        one.began = [time.monotonic() - 60, time.monotonic() - 50]
        self.assertIsNone(one.next())

    def test_no_check_begins_after_the_end(self) -> None:
        self.assertEqual(self.tried(self.mutants("top-a"), end=0.0), {})

    def test_the_share_of_a_run_comes_first_once_half_of_the_budget_is_used(self) -> None:
        mutants = self.mutants("top-a", "top-b") + self.mutants("top-a", "top-b", "top-c", crate="two")
        found = self.tried(mutants, budget=120, share=2)
        self.assertEqual(set(found), {"one/top-a", "one/top-b"})

    def test_libraries_are_built_once_a_crate(self) -> None:
        built: list[str] = []
        self.tried(self.mutants("top-a", "top-b"), built=lambda it: built.append(it.name))
        self.assertEqual(built, ["one"])


class Reporting(unittest.TestCase):
    """What the command prints."""

    def test_killed_ones_pass_and_survivors_fail(self) -> None:
        due = of_names(["a/k-x", "a/s-x", "a/n-x", "b/c-x", "b/k-y", "b/u-x", "b/later-x"])
        verdicts = [Verdict.KILLED, Verdict.SURVIVED, Verdict.NOT_JUDGED, Verdict.CALLS_UNPROVED]
        verdicts += [Verdict.KILLED, Verdict.UNCLEAR]
        found = {it: Judgement(verdict, "words") for it, verdict in zip(due, verdicts)}
        known, tried = {due[0]: found[due[0]]}, dict(list(found.items())[1:])
        printed = io.StringIO()
        with contextlib.redirect_stdout(printed):
            status = command.report(due, known, tried, mock.Mock(lanes={}, seconds=90), False)
        self.assertEqual(status, 1)
        self.assertEqual(
            printed.getvalue().splitlines(),
            [
                "  a/n-x: not judged: words",
                "  b/c-x: calls an unproved function: words",
                "  a/s-x: survived: words",
                "  b/u-x: unclear output: words",
                "5 tried in 1.5 processor minutes, 1 known from earlier runs",
                "killed: 2, survived or faulty: 2, left for another time: 1",
                "not judged: 2: a/n-x, b/c-x",
                "2 passed, 2 failed",
            ],
        )


if __name__ == "__main__":
    sys.exit(run_tests_of(__name__))
