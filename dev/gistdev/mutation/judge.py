"""What the checker's output says about a mutant.

A mutant is killed if the checker doesn't prove a clause, an invariant or a step's safety in the changed function. The
checker reports that by a note in the function, or by the goals in its verdict that its search didn't prove. A goal at
which the search gave up at a limit counts, too: of the right function it proves all goals without an answer by hand.

A function with a hand-written proof needs more care, since that proof names the steps of the function as it was. If
the change breaks it, this says nothing about the clause. Notes on other goals still count, with two exceptions:

- A proof file with invariants or a whole proof that doesn't fit takes facts away from every goal of the function. Then
  no note counts.
- An answer whose goal is gone may have been for the very clause that a note reports under another goal's name, as in a
  function with one way out more. Then no note on a goal of the same kind counts.

What is left is a mutant that isn't judged.
"""
import enum
import re
from typing import NamedTuple

from gistdev.mutation.edits import Mutant
from gistdev.mutation.source import functions_in, symbol_in, with_attributes

VERDICT = re.compile(r"^fn (\S+?): (.*)$")
NOTE = re.compile(r"^note: (?:\./)?(\S+?):(\d+):\d+: (.*not proved.*)$")
GOAL = re.compile(r" \(`([^`\s]+)`\)")
ERROR = re.compile(r"^(?:\./)?(proofs/\S+?\.antt):\d+:\d+: error: (.*)$")
UNUSED = re.compile(r"^note: (?:\./)?(proofs/\S+?\.antt): `([^`]+)` is no name that rattle asks for")
UNREAD = re.compile(r"^(?:\./)?(?:src|specs)/\S+?:\d+:\d+: error\b")
UNFOUND = re.compile(r"`search` did not prove (`[^`]+`(?:, `[^`]+`)*)")
CALLS = "which is not proved"

# An error in an answer whose goal the changed function doesn't have
GOAL_GONE = re.compile(r"^`([^`]+)`: `goal\.")

# What the checker says of a name that a proof uses and that isn't there
NAMES_GONE = (
    "is not a field", "has no field", "exports no such name", "is not in scope", "no such", "has no `",
    "was not admitted",
)

# How the names of goals begin that are about one step, or about the invariant of a type
STEPS = ("overflow_", "nonzero_", "invariant_of")

# The file of a hand-written proof whose answers stand each for one goal
ANSWERS = "Answers.antt"


class Verdict(enum.Enum):
    KILLED = "killed"
    SURVIVED = "survived"
    NOT_JUDGED = "not judged"
    CALLS_UNPROVED = "calls an unproved function"
    NOT_COMPILED = "doesn't compile"
    UNCLEAR = "unclear output"


class Judgement(NamedTuple):
    """A verdict, and the checker's words for it."""

    verdict: Verdict
    words: str


class Fault(NamedTuple):
    """An error in a function's hand-written proof: the file's name, the answer whose goal is gone, and the words."""

    file: str
    gone: str
    words: str


def judge(mutant: Mutant, texts: dict[str, str], output: str) -> Judgement:
    """The verdict on one of the mutants in a check, from the files with mutants in them and the checker's output."""
    lines = joined(output.split("\n"))
    for line in lines:
        if UNREAD.match(line):
            return Judgement(Verdict.NOT_COMPILED, line)
    faults = faults_in(mutant, lines)
    verdicts = verdicts_in(mutant, lines)
    said = "; ".join(verdicts)
    notes = notes_in(mutant, texts, lines)
    evidence = [note for goal, note in notes if is_evidence(goal, faults)]
    if not faults:
        evidence += [said] * any(UNFOUND.search(it) for it in verdicts)
    if evidence:
        return Judgement(Verdict.KILLED, evidence[0])
    if faults:
        return Judgement(Verdict.NOT_JUDGED, reason_of(faults))
    if any(CALLS in it for it in verdicts):
        return Judgement(Verdict.CALLS_UNPROVED, said)
    if verdicts and all(it.startswith("proved") for it in verdicts):
        return Judgement(Verdict.SURVIVED, "it is proved")
    return Judgement(Verdict.UNCLEAR, said or output[-400:])


def joined(lines: list[str]) -> list[str]:
    """The lines, each with those after it that go on further in."""
    found: list[str] = []
    for line in lines:
        if line.startswith("  ") and found:
            found[-1] += " " + line.strip()
        else:
            found.append(line)
    return found


def verdicts_in(mutant: Mutant, lines: list[str]) -> list[str]:
    """What the checker says of the function as a whole."""
    whole, end = f"{mutant.crate}::{mutant.symbol}", f"::{mutant.symbol}"
    found = (VERDICT.match(line) for line in lines)
    return [it.group(2) for it in found if it and (it.group(1) == whole or it.group(1).endswith(end))]


def notes_in(mutant: Mutant, texts: dict[str, str], lines: list[str]) -> list[tuple[str, str]]:
    """(goal, words) of each note in the function that something isn't proved."""
    places = [
        (path, with_attributes(text.split("\n"), it.first) + 1, it.last + 1)
        for path, text in texts.items()
        for it in functions_in(text)
        if symbol_in(path, it) == mutant.symbol
    ]
    found = []
    for line in lines:
        note = NOTE.match(line)
        if note and any(note.group(1) == path and first <= int(note.group(2)) <= last for path, first, last in places):
            goal = GOAL.search(note.group(3))
            found.append((goal.group(1) if goal else "", note.group(3)))
    return found


def faults_in(mutant: Mutant, lines: list[str]) -> list[Fault]:
    """The errors in the function's hand-written proof, and the answers in it that the changed function doesn't need."""
    own = f"/{mutant.symbol.replace('::', '/')}/"
    found = []
    for line in lines:
        error, unused = ERROR.match(line), UNUSED.match(line)
        path, words = error.groups() if error else (unused.group(1), "") if unused else ("", "")
        # the measure of a function that calls itself is in a folder whose name begins with +
        if own in path.replace("/+", "/"):
            gone = unused.group(2) if unused else ""
            if error and any(it in words for it in NAMES_GONE):
                goal = GOAL_GONE.match(words)
                gone = goal.group(1) if goal else ""
            found.append(Fault(path.rpartition("/")[2], gone, words))
    return found


def is_evidence(goal: str, faults: list[Fault]) -> bool:
    """Whether a note on a goal counts in spite of the faults of a hand-written proof."""
    if any(it.file != ANSWERS for it in faults):
        return False
    gone = {kind_of(it.gone) for it in faults if it.gone}
    kind = kind_of(goal)
    return not gone or bool(kind) and kind not in gone and "" not in gone


def kind_of(goal: str) -> str:
    """What a goal is about, whichever way through the function it belongs to; empty if its name doesn't show that."""
    head, _, clause = goal.partition("-clause-")
    parts = head.split("-")
    if "requires" in parts:
        return f"requires {clause}"
    if parts[0] == "returns":
        return f"ensures {clause}"
    if {"init", "preserved", "smaller"} & {*parts}:
        return "loop"
    return parts[0] if parts[0].startswith(STEPS) else ""


def reason_of(faults: list[Fault]) -> str:
    """Why a mutant isn't judged."""
    words = [it.words for it in faults if it.words]
    are_gone = all(it.gone or any(name in it.words for name in NAMES_GONE) for it in faults)
    what = "names of its hand-written proof are gone" if are_gone else "its hand-written proof no longer fits"
    return f"{what}: {words[0] if words else faults[0].gone}"
