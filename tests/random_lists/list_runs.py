"""Runs of random lists: what a program answers to one, compared with the slow models, checked, and edited.

A run is one seed. Each comparison and each edit that applies is a test of its own; an outcome says how many passed,
what failed, which answers came, and which edits were tried.
"""
import collections
from random import Random

import limited
from models import session_model, trace_checker
from models.steps import first_difference, steps_of
from random_lists import session_edits, trace_edits
from random_lists.session_drawing import SessionDrawer
from random_lists.trace_drawing import TraceDrawer
from random_lists.wrong_rules import RULES
from random_lists.wrong_worlds import WORLDS

# Seconds of processor time that a program may take for one list
LONGEST = 60

# For each verb the words that begin its answers, and its refusals. Each has to come in some list
TRACE_ANSWERS = {
    "enlarge": "enlarged 7 10", "place": "committed 7 8 10", "split": "split 7 9 11 12 13", "post": "posted 7 8",
    "grow": "grown 9 13", "find": "finder 6 14 15", "seek": "committed seeking 15 20",
    "move": "committed seeking 7 8 10 15 20", "unfind": "unfound 20", "sweep": "swept 7", "open": "opened 2 5",
    "follow": "opened 2 5 23", "turn": "offered visited passed 16 17 18 19", "askmark": "asked 16 17",
    "take": "row inserted deleted moved mark nothing 16 17", "close": "closed 16 17", "fault": "21 22",
}
SESSION_ANSWERS = {
    "insert": "committed", "delete": "committed 14 15", "move": "committed 14 15", "open": "opened 2 5",
    "follow": "opened 2 5 23", "next": "row inserted deleted moved mark empty 16 17", "mark": "asked 16 17",
    "find": "found", "sweep": "swept", "close": "closed 16 17", "fault": "21 22",
}


class Outcome:
    """The results of some tests."""

    def __init__(self):
        self.passed = 0
        self.failures = []
        self.answers = collections.Counter()
        self.edits = collections.Counter()

    def note(self, is_well, fault):
        """Notes a test."""
        if is_well:
            self.passed += 1
        else:
            self.failures.append(fault)

    def add(self, other):
        """Adds the results of other tests."""
        self.passed += other.passed
        self.failures += other.failures
        self.answers += other.answers
        self.edits += other.edits

    def count_answers(self, kind, steps):
        """Counts the answers of steps of a kind of lists by their verbs."""
        for line, answer in steps:
            if answer is not None:
                words = answer.split()
                word = words[1] if words[:1] == ["refused"] else "".join(words[:1])
                self.answers[f"{kind}: {line.verb} {word}"] += 1


def text_of(lines):
    """The input that these lines make."""
    return b"".join(line.text + b"\n" for line in lines)


def output_of(program, verb, drawer):
    """What a program writes for the lines of a drawer, and what else it reports that it shouldn't, or none."""
    words = [program, verb, *drawer.options()]
    try:
        ended = limited.run(words, LONGEST, text_of(drawer.asked))
    except limited.TookTooLong as late:
        return "", str(late)
    fault = None if (ended.returncode, ended.stderr) == (0, b"") else f"status {ended.returncode}, {ended.stderr!r}"
    return ended.stdout.decode("ascii", "replace"), fault


def shown(place, steps, fault):
    """The message about a fault at a place of some steps."""
    if place >= len(steps):
        return f"at the end: {fault}"
    line, answer = steps[place]
    text = line.text if len(line.text) < 200 else line.text[:200] + b".."
    return f"line {place + 1}, {text!r}, has the answer {answer!r}: {fault}"


def note_flaw(outcome, name, steps, flaw):
    """Records whether some steps are right."""
    outcome.note(flaw is None, f"{name}: {shown(flaw[0], steps, flaw[1])}" if flaw else "")


def try_edits(outcome, name, edited, kinds, first_flaw):
    """Edits right steps, and records whether the checker refuses wrong ones and accepts right ones."""
    wrong, right = kinds
    for edit in wrong + right:
        steps = edit(edited)
        if steps is None:
            continue
        outcome.edits[f"{name.split()[0]}: {edit.__name__}"] += 1
        is_refused = first_flaw(edited.keys, steps) is not None
        verdict = "is not rejected" if edit in wrong else "is rejected"
        outcome.note(is_refused == (edit in wrong), f"{name}, edited by {edit.__name__}, {verdict}")


def some_of(edits, seed, each):
    """Some of the edits: each is tried with one seed in `each`."""
    return [edit for index, edit in enumerate(edits) if (index + seed) % each == 0]


def note_run(outcome, name, fault, rest):
    """Notes whether a program ended well and wrote as many answers as are due."""
    outcome.note(fault is None, f"{name}: {fault}")
    outcome.note(rest == "", f"{name}: after the last answer is {rest[:200]!r}")


def answered(outcome, name, program, verb, drawer):
    """The steps of a drawer's lines, with a program's answers; without a program with those that were drawn."""
    if not program:
        return list(zip(drawer.asked, drawer.answers))
    output, fault = output_of(program, verb, drawer)
    steps, rest = steps_of(drawer.asked, output)
    note_run(outcome, name, fault, rest)
    return steps


def check_and_edit(outcome, name, steps, drawer, edits, each, first_flaw):
    """Checks steps, and if they are right edits them in some of the ways of a module."""
    flaw = first_flaw(drawer.keys, steps)
    note_flaw(outcome, name, steps, flaw)
    outcome.count_answers(name.split()[0], steps)
    if flaw is None:
        edited = edits.Edited(drawer.keys, steps, Random(drawer.seed))
        kinds = some_of(edits.EDITS, drawer.seed, each), some_of(edits.ALLOWED, drawer.seed, each)
        try_edits(outcome, name, edited, kinds, first_flaw)
    return outcome


def try_trace(program, seed, each):
    """A random list of events. Without a program the answers are those of the model."""
    outcome, drawer = Outcome(), TraceDrawer(seed).drawn()
    name = f"trace {seed} ({' '.join(drawer.options())})"
    steps = answered(outcome, name, program, "replay", drawer)
    if program:
        note_flaw(outcome, name, steps, first_difference(steps, drawer.answers))
    name = f"{name}, checked by events and answers alone"
    return check_and_edit(outcome, name, steps, drawer, trace_edits, each, trace_checker.first_flaw)


def try_session(program, seed, each, lines, inserts=0):
    """A random session, which begins with some inserts. Without a program the answers are such as the model allows."""
    outcome, drawer = Outcome(), SessionDrawer(seed, lines, inserts).drawn()
    name = f"session {seed} of {lines} lines ({' '.join(drawer.options())})"
    steps = answered(outcome, name, program, "serve", drawer)
    return check_and_edit(outcome, name, steps, drawer, session_edits, each, session_model.first_flaw)


def try_wrong_world(index, seeds):
    """Lists answered by a wrong world; the checker of traces has to refuse one of them."""
    outcome, world = Outcome(), WORLDS[index]
    for count, seed in enumerate(seeds, 1):
        drawer = TraceDrawer(seed, world).drawn()
        if trace_checker.first_flaw(drawer.keys, list(zip(drawer.asked, drawer.answers))) is not None:
            outcome.edits[f"world: {world.__name__}"] += count
            break
    is_refused = sum(outcome.edits.values()) > 0
    outcome.note(is_refused, f"no list that {world.__name__} answers is refused: {world.__doc__}")
    return outcome


def differs(drawer, world):
    """Whether a world answers a line of a right list differently."""
    pairs = ((line, due) for line, due in zip(drawer.asked, drawer.answers) if due is not None)
    return any(world.step(line) != due for line, due in pairs)


def try_wrong_rules(seeds):
    """Lists of the right world: each world with a wrong rule has to answer one of them differently."""
    outcome, left = Outcome(), list(RULES)
    for count, seed in enumerate(seeds, 1):
        drawer = TraceDrawer(seed).drawn()
        for rule in [rule for rule in left if differs(drawer, rule(drawer.keys, drawer.fan, drawer.least))]:
            outcome.edits[f"rule: {rule.__name__}"] = count
            left.remove(rule)
        if not left:
            break
    for rule in RULES:
        outcome.note(rule not in left, f"no list shows that {rule.__name__} is wrong: {rule.__doc__}")
    return outcome


def answers_due():
    """Each answer that has to occur in some list."""
    tables = (("trace", TRACE_ANSWERS), ("session", SESSION_ANSWERS))
    verbs = [(f"{kind}: {verb}", words) for kind, table in tables for verb, words in table.items()]
    return [f"{verb} {word}" for verb, words in verbs for word in words.split(" ")]


def edits_due():
    """Each edit that has to be tried on some list."""
    tables = (("trace", trace_edits), ("session", session_edits))
    return [f"{kind}: {edit.__name__}" for kind, module in tables for edit in module.EDITS + module.ALLOWED]
