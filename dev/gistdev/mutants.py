"""Mutation tests of the proofs: changes functions so that they break a promise, which the checker must reject.

    dev/mutants [--processor-minutes N] [--until-minutes N] [--since COMMIT] [--anew] [--jobs N] [--list] [--verbose]
                [--promised | --all | CRATE | CRATE/MUTANT ..]
    dev/mutants --self-test

The mutants of a crate are in crates/CRATE/mutants: for each a line `mutant: FUNCTION-WHAT`, a line `file: src/x.rt`,
and pairs of lines `old: TEXT` and `new: TEXT`. Each old TEXT occurs once in the function, or once in the file if no
function of that name has it. FUNCTION is the function whose proof must fail.

Without an option it tries those that docs/PROMISES.md names, until 25 processor minutes are used:

  first the mutants that are new since the commit before (--since), whether a promise names them or not,
  then those of the crates that changed since,
  then the others, beginning at a place that the number of commits determines. 19 consecutive numbers begin at 19
  places, so together they try every one if each run has the time for its nineteenth of them.

--promised tries all that the page names, --all every mutant, CRATE.. those of some crates; these have no limit without
--processor-minutes. --until-minutes ends a run by the clock. --list prints the mutants in their order and tries none.

Several mutants are put into a copy of their crate at once, and the checker proves their functions alone. A mutant is

  killed       if the checker doesn't prove a clause, an invariant or a step's safety in its function
  survived     if its function is proved
  not judged   if all that fails is a hand-written proof, whose terms or names no longer fit the function, or if the
               function calls one that isn't proved

Verdicts are kept in $XDG_CACHE_HOME/gist or ~/.cache/gist. A mutant isn't tried again on the same machine as long as
its text, its crate and what that can name of the crates below are the same; --anew tries it all the same. The
libraries below are those that `rt ci` left in out/, or else they are built.

At the end it reports how many were killed, not judged and left for another time. The last line is `N passed, M failed`:
the killed ones, and those that survived or can't be compiled. The status is 1 if M isn't 0, and 2 if nothing was tried
because of an error.
"""
from __future__ import annotations

import argparse
import os
import shutil
import subprocess
import sys
import tempfile
import time

from gistdev.mutation import choose
from gistdev.mutation.basis import basis_of, print_of
from gistdev.mutation.cache import Cache, cache_folder
from gistdev.mutation.edits import FILE, BadMutant, Mutant, mutants_of
from gistdev.mutation.judge import Judgement, Verdict
from gistdev.mutation.run import Run
from gistdev.sources import ROOT, text_of
from gistdev.toolchain import Crate, Toolchain, library_is_current, toolchain, version_of_logic

PAGE = "docs/PROMISES.md"

# Processor minutes of a run in CI
MINUTES = 25.0


class NotBuilt(Exception):
    """A library below can't be built."""


def build_below(crate: Crate, jobs: int) -> None:
    """Builds the libraries of the crates below, unless they are current."""
    for below in crate.below():
        if not library_is_current(below) and below.build_rlib(["--jobs", str(jobs)], anew=False):
            raise NotBuilt(f"{below.name} is not proved")


def chosen(options: argparse.Namespace, mutants: list[Mutant], names: set[str]) -> tuple[list[Mutant], int]:
    """The mutants to be tried in their order, and how many of them a run in CI has to try."""
    if options.names:
        known = {it.crate for it in mutants} | {str(it) for it in mutants}
        lost = sorted(set(options.names) - known)
        if lost:
            raise BadMutant(f"there are no mutants {', '.join(lost)}")
        return [it for it in mutants if it.crate in options.names or str(it) in options.names], 0
    if options.all:
        return mutants, 0
    if options.promised:
        return [it for it in mutants if str(it) in names], 0
    changed = choose.changed_crates(options.since)
    new = choose.new_mutants(mutants, changed, options.since)
    found = choose.order(mutants, names, choose.landing_number(), changed, new)
    return found, choose.share_of(found, names, changed)


def try_all(options: argparse.Namespace, kit: Toolchain) -> int:
    """Tries the mutants that the options choose, and reports the verdicts."""
    crates = {it.name: it for it in kit.crates_below(ROOT)}
    mutants = [it for name in crates for it in mutants_of(name, f"crates/{name}")]
    names = choose.promised(text_of(PAGE), crates)
    lost = sorted(names - {str(it) for it in mutants})
    if lost:
        raise BadMutant(f"{PAGE} names mutants that aren't there: {', '.join(lost)}")
    due, share = chosen(options, mutants, names)
    print(f"mutants: {len(due)} of {len(mutants)}; {len(names)} belong to promises", flush=True)
    if options.list:
        print("".join(f"  {it}  {it.symbol}\n" for it in due), end="")
        return 0
    logic = version_of_logic()
    cache = Cache(f"{cache_folder()}/mutants.json")
    bases = {it: basis_of(crates[it], logic) for it in dict.fromkeys(it.crate for it in due)}
    prints = {it: print_of(it, bases[it.crate]) for it in due}
    known = {} if options.anew else {it: found for it in due if (found := cache.find(str(it), prints[it]))}
    left = [it for it in due if it not in known]
    share = sum(it not in known for it in due[:share])
    minutes = options.processor_minutes
    if minutes is None and not (options.names or options.all or options.promised):
        minutes = MINUTES
    budget = None if minutes is None else 60 * minutes
    end = None if options.until_minutes is None else time.monotonic() + 60 * options.until_minutes
    run = Run(kit, crates.values(), left, budget, end, share, lambda crate: build_below(crate, options.jobs))
    try:
        tried = run.go(options.jobs)
    finally:
        cache.put({str(it): (prints[it], found) for it, found in run.results.items()})
    return report(due, known, tried, run, options.verbose)


def report(
    due: list[Mutant], known: dict[Mutant, Judgement], tried: dict[Mutant, Judgement], run: Run, is_verbose: bool
) -> int:
    """Prints the verdicts, and returns the status."""
    found = known | tried
    for name, lane in sorted(run.lanes.items()):
        count = sum(it.crate == name for it in tried)
        print(f"{name}: {count} tried in {lane.checks} checks, {lane.seconds:.0f} processor seconds")
    killed = [it for it in due if it in found and found[it].verdict is Verdict.KILLED]
    unjudged = [it for it in due if it in found and found[it].verdict in (Verdict.NOT_JUDGED, Verdict.CALLS_UNPROVED)]
    failed = [it for it in due if it in found and it not in killed and it not in unjudged]
    for it in due if is_verbose else [*unjudged, *failed]:
        if it in found:
            print(f"  {it}: {found[it].verdict.value}: {found[it].words[:300]}")
    print(f"{len(tried)} tried in {run.seconds / 60:.1f} processor minutes, {len(known)} known from earlier runs")
    print(f"killed: {len(killed)}, survived or faulty: {len(failed)}, left for another time: {len(due) - len(found)}")
    print(f"not judged: {len(unjudged)}{': ' if unjudged else ''}{', '.join(map(str, unjudged))}")
    print(f"{len(killed)} passed, {len(failed)} failed")
    return 1 if failed else 0


# Of row_version: the same code written in another way, code that breaks a clause, and a change that the function's
# hand-written proof doesn't fit
TRIED = """mutant: died-breaks_a_clause
file: src/entry.rt
old: Some(self.died)
new: Some(self.row)

mutant: unneeded-meets_a_hand_written_proof
file: src/version_block.rt
old:         dead & past
new:         past & dead

mutant: visible_at-means_the_same
file: src/entry.rt
old:         self.row <= commit
new:         commit >= self.row
"""
DUE = {
    "died-breaks_a_clause": Verdict.KILLED,
    "unneeded-meets_a_hand_written_proof": Verdict.NOT_JUDGED,
    "visible_at-means_the_same": Verdict.SURVIVED,
}


def self_test(options: argparse.Namespace, kit: Toolchain) -> int:
    """Shows with the checker itself that each verdict occurs: that this command can fail."""
    crate = next(it for it in kit.crates_below(ROOT) if it.name == "row_version")
    with tempfile.TemporaryDirectory(prefix="mutants-test-") as room:
        shutil.copytree(crate.folder, f"{room}/row_version", ignore=shutil.ignore_patterns("out", FILE))
        with open(f"{room}/row_version/{FILE}", "w", encoding="utf-8") as file:
            file.write(TRIED)
        mutants = mutants_of("row_version", f"{room}/row_version")
    found = Run(kit, [crate], mutants, built=lambda it: build_below(it, options.jobs)).go(1)
    passed = 0
    for it in mutants:
        is_well = found[it].verdict is DUE[it.name]
        passed += is_well
        print(f"{'passed' if is_well else 'FAILED'}: {it}: {found[it].verdict.value}: {found[it].words[:200]}")
    print(f"{passed} passed, {len(DUE) - passed} failed")
    return 0 if passed == len(DUE) else 1


def main() -> int:
    parser = argparse.ArgumentParser(description=__doc__, formatter_class=argparse.RawDescriptionHelpFormatter)
    parser.add_argument("names", nargs="*", metavar="CRATE | CRATE/MUTANT")
    which = parser.add_mutually_exclusive_group()
    which.add_argument("--all", action="store_true", help="try every mutant")
    which.add_argument("--promised", action="store_true", help=f"try all that {PAGE} names")
    which.add_argument("--self-test", action="store_true", help="show that each verdict occurs")
    parser.add_argument("--processor-minutes", type=float, metavar="N", help=f"default: {MINUTES:.0f}, or no limit")
    parser.add_argument("--until-minutes", type=float, metavar="N", help="the most minutes by the clock")
    parser.add_argument("--since", default="HEAD~1", metavar="COMMIT", help="the commit before (default: HEAD~1)")
    parser.add_argument("--anew", action="store_true", help="try also what earlier runs on this machine tried")
    parser.add_argument("--list", action="store_true", help="print the mutants and try none")
    parser.add_argument("--verbose", action="store_true", help="print what kills each")
    parser.add_argument("--jobs", type=int, default=len(os.sched_getaffinity(0)), metavar="N", help="checks at once")
    options = parser.parse_args()
    if options.names and (options.all or options.promised or options.self_test):
        parser.error("name mutants, or give --all, --promised or --self-test")
    os.chdir(ROOT)
    try:
        kit = toolchain()
        return self_test(options, kit) if options.self_test else try_all(options, kit)
    except (BadMutant, NotBuilt, subprocess.CalledProcessError) as fault:
        print(f"mutants: {fault}", file=sys.stderr)
        return 2
