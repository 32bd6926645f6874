#!/usr/bin/env python3
"""Measures the processor time, the instructions and the memory of `gist serve`.

The lines of a fixed seed are written to a file. The program reads prefixes of that file, each up to the end of a phase;
the cost of a phase is the difference of two runs. Only the child's own processor time is measured (`os.wait4`), so the
harness costs nothing. With `--peer` a program over Boost's R-tree gets the same lines in the same run.
"""

import argparse
import collections
import itertools
import math
import os
import random
import re
import shutil
import subprocess
import sys
import tempfile
import time

sys.dont_write_bytecode = True
sys.path.insert(0, os.path.join(os.path.dirname(os.path.dirname(os.path.abspath(__file__))), "dev"))

from gistdev.program import chosen_program  # noqa: E402

HERE = os.path.dirname(os.path.abspath(__file__))
PEER_SOURCE = os.path.join(HERE, "peer", "peer.cpp")
PEER = os.path.join(HERE, "out", "peer")

# The peer may use only the instructions that gist's code uses, not all those of this processor. Boost's headers include some
# that it calls deprecated; peer.cpp says what has to wrap.
PEER_FLAGS = ["-std=c++17", "-O2", "-march=x86-64-v2", "-DNDEBUG", "-DBOOST_ALLOW_DEPRECATED_HEADERS", "-fwrapv"]
PEER_HEADER = "boost/geometry/index/rtree.hpp"

SEED = 20_240_607
MOST_COMMITS = 16_777_216

# The aims: microseconds of processor time a line, growth, and bytes a row.
INSERT_AIM = 1.5
FIND_AIM = 5.0
GROWTH_AIM = 3.0
BYTES_AIM = 88.0


class Intervals:
    """Points and short intervals on a line, with the same density for each number of rows."""

    name = "interval"
    finds_of = 1
    has_peer = True

    def __init__(self, rows, generator):
        self.span = rows * 100
        self.generator = generator

    def key(self):
        low = self.generator.randrange(self.span)
        return f"({low} {low + self.generator.randrange(20)})"

    def query(self, rows):
        low = self.generator.randrange(self.span)
        return f"overlaps({low} {low + rows * 100 - 10})"


class Boxes:
    """Small boxes in a square, with the same density for each number of rows."""

    name = "box"
    finds_of = 1
    has_peer = True

    def __init__(self, rows, generator):
        self.span = min(int((rows * 10_000) ** 0.5), 2_000_000_000)
        self.generator = generator

    def key(self):
        left, low = self.generator.randrange(self.span), self.generator.randrange(self.span)
        right, high = left + self.generator.randrange(20), low + self.generator.randrange(20)
        return f"({left} {low} {right} {high})"

    def query(self, rows):
        side = int((rows * 10_000) ** 0.5) - 10
        left, low = self.generator.randrange(self.span), self.generator.randrange(self.span)
        return f"overlaps({left} {low} {left + side} {low + side})"


class Sets:
    """Sets of eight elements each, and queries for all sets that hold some elements, as many as match about the wanted rows.

    Bounds separate random sets badly, so a find reads nearly every page. Hence there are fewer finds.
    """

    name = "set"
    finds_of = 20
    has_peer = False

    ELEMENTS = 128
    SIZE = 8

    def __init__(self, rows, generator):
        self.rows = rows
        self.generator = generator

    def text(self, size):
        return "{" + " ".join(str(element) for element in sorted(self.generator.sample(range(self.ELEMENTS), size))) + "}"

    def key(self):
        return self.text(self.SIZE)

    def query(self, rows):
        def expected(size):
            return self.rows * math.comb(self.ELEMENTS - size, self.SIZE - size) / math.comb(self.ELEMENTS, self.SIZE)

        size = min(range(1, self.SIZE), key=lambda size: abs(math.log(expected(size) / rows)))
        return "holds" + self.text(size)


CLASSES = {kind.name: kind for kind in (Intervals, Boxes, Sets)}


class Program:
    """A program that answers lines, and the command that starts it."""

    def __init__(self, name, words):
        self.name = name
        self.words = words


class Phase:
    """Lines of one kind, and where they end in the file."""

    def __init__(self, name, lines, end):
        self.name = name
        self.lines = lines
        self.end = end


def write_lines(path, kind, rows, finds, cursors, items):
    """Writes the lines, and gives the phases. Without cursors there are no phases of following either."""
    generator = random.Random(SEED)
    keys = kind(rows, generator)
    phases = []
    with open(path, "w", encoding="ascii", newline="\n") as file:

        def phase(name, lines):
            count = 0
            for line in lines:
                file.write(line + "\n")
                count += 1
            phases.append(Phase(name, count, file.tell()))

        phase("insert", (f"insert {keys.key()} {number % 10}" for number in range(rows)))
        phase("find of ten", (f"find {keys.query(10)}" for _ in range(finds)))
        deleted = generator.sample(range(1, rows + 1), rows // 2)
        phase("delete", (f"delete {row}" for row in deleted))
        phase("sweep", iter(["sweep"]))
        phase("find of five", (f"find {keys.query(10)}" for _ in range(finds)))
        if cursors:
            phase("open", (f"open 64 {keys.query(2 * items)}" for _ in range(cursors)))
            phase("next", (f"next {c + 1}" for _ in range(items) for c in range(cursors)))
            phase("insert, followed", (f"insert {keys.key()} 7" for _ in range(rows // 10)))
            phase("next, following", (f"next {c + 1}" for _ in range(4) for c in range(cursors)))
            phase("close", (f"close {c + 1}" for c in range(cursors)))
        kept = sorted(set(range(1, rows + 1)) - set(deleted))
        phase("move", (f"move {row} {keys.key()}" for row in generator.sample(kept, rows // 4)))
    return phases


def copy_prefix(path, length, to):
    """Copies the first bytes of a file."""
    with open(path, "rb") as source, open(to, "wb") as target:
        left = length
        while left:
            block = source.read(min(left, 1 << 20))
            if not block:
                raise SystemExit("bench: the file of lines is too short")
            target.write(block)
            left -= len(block)


def run(words, input_path, output_path):
    """Runs the program on a file, and gives the processor seconds of the child alone."""
    with open(input_path, "rb") as source, open(output_path, "wb") as target:
        child = subprocess.Popen(words, stdin=source, stdout=target)
        _, status, usage = os.wait4(child.pid, 0)
    child.returncode = os.waitstatus_to_exitcode(status)
    if child.returncode != 0:
        raise SystemExit(f"bench: {' '.join(words)} ended with {child.returncode}")
    return usage.ru_utime + usage.ru_stime


def prefix_costs(ends, turns, lines_path, prefix_path, measures):
    """For each measure the least cost of each prefix, since other work on the machine can only add time."""
    least = [[float("inf")] * len(ends) for _ in measures]
    for _ in range(turns):
        for place, end in enumerate(ends):
            copy_prefix(lines_path, end, prefix_path)
            for costs, measured in zip(least, measures):
                costs[place] = min(costs[place], measured())
    return least


def most_memory(words, input_path, last_answer, output_path):
    """The most bytes that the program held until an answer came.

    A child's `ru_maxrss` begins with what its parent held, so the kernel is asked while the program waits for more
    lines.
    """
    with open(output_path, "wb") as target:
        child = subprocess.Popen(words, stdin=subprocess.PIPE, stdout=target)
    with open(input_path, "rb") as source:
        shutil.copyfileobj(source, child.stdin, 1 << 20)
    child.stdin.flush()
    with open(output_path, "rb") as answers:
        for _ in range(60_000):
            answers.seek(max(os.path.getsize(output_path) - len(last_answer), 0))
            if answers.read() == last_answer:
                break
            time.sleep(0.001)
        else:
            raise SystemExit("bench: the last answer didn't come")
    with open(f"/proc/{child.pid}/status", encoding="ascii") as status:
        held = next(int(line.split()[1]) * 1024 for line in status if line.startswith("VmHWM:"))
    child.stdin.close()
    child.wait()
    return held


def instructions(words, input_path, folder):
    """How many instructions a run takes."""
    out = os.path.join(folder, "callgrind.out")
    told = subprocess.run(
        ["valgrind", "--tool=callgrind", f"--callgrind-out-file={out}", *words],
        stdin=open(input_path, "rb"),
        stdout=subprocess.DEVNULL,
        stderr=subprocess.PIPE,
        check=True,
        text=True,
    ).stderr
    for line in told.splitlines():
        if "Collected" in line:
            return int(line.split(":")[1])
    raise SystemExit("bench: valgrind printed no number of instructions")


def instructions_by_function(words, input_path, folder):
    """How many instructions a run takes in each function, without those that it calls."""
    instructions(words, input_path, folder)
    out = os.path.join(folder, "callgrind.out")
    table = subprocess.run(["callgrind_annotate", "--threshold=100", out], stdout=subprocess.PIPE, check=True, text=True).stdout
    found = collections.Counter()
    for line in table.splitlines():
        row = re.match(r" *([\d,]+) \([ \d.]+%\)  [^:]*:(.*?)(?: \[|$)", line)
        if row:
            found[re.sub(r"(::)?<.*", "", row.group(2))] += int(row.group(1).replace(",", ""))
    return found


def print_functions(program, phases, many, lines_path, folder):
    """Prints the functions that take the most of a line of each phase."""
    prefix_path = os.path.join(folder, "prefix")
    before = collections.Counter()
    for end, phase in [(0, None)] + [(phase.end, phase) for phase in phases]:
        copy_prefix(lines_path, end, prefix_path)
        after = instructions_by_function(program.words, prefix_path, folder)
        if phase:
            print(f"  {phase.name:<17}{phase.lines:>9,} lines {(after.total() - before.total()) / phase.lines:>12,.0f} instructions a line")
            after.subtract(before)
            for name, count in after.most_common(many):
                print(f"  {count / phase.lines:>20,.0f} {name}")
            after.update(before)
        before = after


def refused_answers(path):
    """The refusals by their names, and how many rows a find has."""
    refused = {}
    found = finds = 0
    with open(path, "rb") as file:
        for line in file:
            if line.startswith(b"refused"):
                name = line.split()[2].decode("ascii")
                refused[name] = refused.get(name, 0) + 1
            elif line.startswith(b"found "):
                finds += 1
                found += int(line[6:])
    return refused, found / max(finds, 1)


def bytes_a_row(words, inserts_path, rows, answers_path):
    """The bytes a row: the memory of the whole program after the inserts, less that of an empty one."""
    few_path = inserts_path + ".few"
    with open(few_path, "wb") as few:
        few.write(b"sweep\n")
    few = most_memory(words, few_path, b"swept 0\n", answers_path)
    many = most_memory(words, inserts_path, f"committed {rows}\n".encode("ascii"), answers_path)
    return (many - few) / rows


def line_costs(programs, phases, rows, options, lines_path, folder):
    """What each program takes for a line of each phase, in seconds or instructions."""
    prefix_path = os.path.join(folder, "prefix")
    ends = [0] + [phase.end for phase in phases]
    if options.callgrind:
        turns = 1
        measures = [lambda words=program.words: instructions(words, prefix_path, folder) for program in programs]
    else:
        # Short runs are repeated more often.
        turns = options.turns * min(1 + 100_000 // rows, 5)
        measures = [lambda words=program.words: run(words, prefix_path, os.devnull) for program in programs]
    return [
        {phase.name: (after - before) / phase.lines for phase, before, after in zip(phases, totals, totals[1:])}
        for totals in prefix_costs(ends, turns, lines_path, prefix_path, measures)
    ]


def print_costs(phases, costs, memory, callgrind):
    """Prints what each phase costs, and beside the inserts the bytes a row."""
    for phase in phases:
        cost = costs[phase.name]
        print(f"  {phase.name:<17}{phase.lines:>9,} lines", end="")
        if callgrind:
            print(f" {cost:>12,.0f} instructions a line", end="")
        elif cost > 0:
            print(f" {cost * 1e6:>11.3f} us a line {1 / cost:>13,.0f} lines a second", end="")
        else:
            print(" below the noise", end="")
        if phase.name == "insert":
            print(f"  {memory:.1f} bytes a row", end="")
        print()


def shown_cost(cost, callgrind):
    """A cost in its unit."""
    if callgrind:
        return f"{cost:,.0f}"
    return f"{cost * 1e6:.3f}" if cost > 0 else "noise"


def ratio(ours, peers):
    """How many times as much the peer takes, unless one of them is below the noise."""
    return f"{peers / ours:.2f}" if ours > 0 and peers > 0 else "-"


def print_beside(phases, costs, memory, callgrind):
    """Prints what each phase costs both programs, the bytes a row, and how many times as much the peer takes."""
    unit = "instructions a line" if callgrind else "us a line"
    print(f"  {unit:<32}{'gist':>12}{'peer':>12}{'peer/gist':>11}")
    for phase in phases:
        both = [cost[phase.name] for cost in costs]
        ours, peers = (shown_cost(cost, callgrind) for cost in both)
        print(f"  {phase.name:<17}{phase.lines:>9,} lines{ours:>12}{peers:>12}{ratio(*both):>11}")
    print(f"  {'bytes a row':<32}{memory[0]:>12.1f}{memory[1]:>12.1f}{ratio(*memory):>11}")


def first_difference(ours_path, peers_path):
    """The first line in which two files differ, if there is one: its number, and what it is in each."""
    with open(ours_path, "rb") as ours, open(peers_path, "rb") as peers:
        for number, (our, peer) in enumerate(itertools.zip_longest(ours, peers, fillvalue=b""), 1):
            if our != peer:
                return number, our, peer
    return None


def require_equal_answers(programs, lines_path, folder):
    """Ends the measurement unless both programs give the same bytes for all lines."""
    paths = [os.path.join(folder, program.name) for program in programs]
    for program, path in zip(programs, paths):
        run(program.words, lines_path, path)
    different = first_difference(*paths)
    if different:
        number, our, peer = different
        raise SystemExit(f"bench: line {number} of the answers is {our!r} of gist, and {peer!r} of the peer")


def measure(programs, kind, rows, options, folder):
    """Prints and gives what the first program takes: microseconds a line by phase, and bytes a row."""
    lines_path = os.path.join(folder, "lines")
    answers_path = os.path.join(folder, "answers")
    cursors = 0 if options.peer else options.cursors
    phases = write_lines(lines_path, kind, rows, options.finds // kind.finds_of, cursors, options.items)
    print(f"{kind.name}, {rows:,} rows", flush=True)
    if options.functions:
        print_functions(programs[0], phases, options.functions, lines_path, folder)
        return None
    if options.peer:
        require_equal_answers(programs, lines_path, folder)
    costs = line_costs(programs, phases, rows, options, lines_path, folder)
    inserts_path = os.path.join(folder, "inserts")
    copy_prefix(lines_path, phases[0].end, inserts_path)
    memory = [bytes_a_row(program.words, inserts_path, rows, answers_path) for program in programs]
    if options.peer:
        print_beside(phases, costs, memory, options.callgrind)
    else:
        print_costs(phases, costs[0], memory[0], options.callgrind)
    sys.stdout.flush()
    if not options.callgrind:
        run(programs[0].words, lines_path, answers_path)
        refused, found = refused_answers(answers_path)
        print(f"  refusals: {refused or 'none'}; a find has {found:.1f} rows on the average")
    return {name: cost * 1e6 for name, cost in costs[0].items()} | {"bytes": memory[0]}


def told(aim, value, unit):
    return f"{value:.2f} {unit}, aim {aim}: {'met' if value <= aim else 'MISSED'}"


def compare(kind, costs):
    """Prints the measured numbers next to the aims."""
    print(f"{kind.name}, beside the aims")
    middle = costs.get(100_000)
    if middle:
        print("  insert at 100,000 rows:", told(INSERT_AIM, middle["insert"], "us"))
        print("  find of ten at 100,000 rows:", told(FIND_AIM, middle["find of ten"], "us"))
    few, many = costs.get(10_000), costs.get(1_000_000)
    if few and many:
        for phase in ("insert", "find of ten", "delete"):
            if few[phase] > 0:
                print(f"  {phase}, 1,000,000 over 10,000 rows:", told(GROWTH_AIM, many[phase] / few[phase], "times"))
    for rows, cost in costs.items():
        if rows >= 100_000:
            print(f"  memory at {rows:,} rows:", told(BYTES_AIM, cost["bytes"], "bytes a row"))


def has_header(compiler, header):
    """Whether a C++ compiler finds a header."""
    text = f"#if !__has_include(<{header}>)\n#error missing\n#endif\n"
    words = [compiler, *PEER_FLAGS, "-E", "-x", "c++", "-"]
    return subprocess.run(words, input=text, text=True, capture_output=True).returncode == 0


def build_peer():
    """Builds the peer, or prints what is missing and ends with status 1."""
    compiler = shutil.which("c++")
    if compiler is None:
        raise SystemExit("bench: --peer needs a C++ compiler, and there is no c++")
    if not has_header(compiler, PEER_HEADER):
        raise SystemExit(f"bench: --peer needs Boost's headers, and c++ finds no {PEER_HEADER}")
    os.makedirs(os.path.dirname(PEER), exist_ok=True)
    if subprocess.run([compiler, *PEER_FLAGS, "-o", PEER, PEER_SOURCE]).returncode != 0:
        raise SystemExit("bench: the peer can't be built")


def programs_of(options, name):
    """The programs measured with keys of a class: gist, and the peer if it is asked for."""
    words = [options.program, "serve", "--class", name, "--fan", str(options.fan), "--least", str(options.least)]
    programs = [Program("gist", words + options.option)]
    if options.peer:
        programs.append(Program("peer", [PEER, "--class", name]))
    return programs


def main():
    parser = argparse.ArgumentParser(description="Measures `gist serve` by lines of a fixed seed.")
    which = parser.add_mutually_exclusive_group()
    which.add_argument("program", nargs="?", metavar="PATH", help="the program to run (default: the one that ./gist --build builds)")
    which.add_argument("--release", action="store_true", help="run the released program, which needs no toolchain")
    parser.add_argument("--class", dest="kinds", action="append", choices=sorted(CLASSES), help="by default all")
    parser.add_argument("--rows", type=int, action="append", help="by default 10000, 100000 and 1000000")
    parser.add_argument("--fan", type=int, default=32)
    parser.add_argument("--least", type=int, default=12)
    parser.add_argument("--finds", type=int, default=20_000, help="finds in a phase")
    parser.add_argument("--cursors", type=int, default=100, help="cursors that follow, at most 256")
    parser.add_argument("--items", type=int, default=100, help="items that each cursor is first asked for")
    parser.add_argument("--turns", type=int, default=3, help="runs, the least of which counts; up to five times as many of short ones")
    parser.add_argument("--callgrind", action="store_true", help="instructions in place of time, by valgrind")
    parser.add_argument("--functions", type=int, default=0, help="with --callgrind, that many functions of each phase, and what each takes of a line")
    parser.add_argument("--peer", action="store_true", help="beside a peer over Boost's R-tree, without cursors")
    parser.add_argument("--option", action="append", default=[], help="a further word for `gist serve`, as --option=--pages=65536")
    options = parser.parse_args()
    if options.callgrind and shutil.which("valgrind") is None:
        parser.error("--callgrind needs valgrind")
    if options.functions and not options.callgrind:
        parser.error("--functions needs --callgrind")
    if not 1 <= options.cursors <= 256:
        parser.error("--cursors is 1 to 256")
    rows_of_runs = options.rows or ([10_000] if options.callgrind else [10_000, 100_000, 1_000_000])
    if any(rows * 5 // 2 > MOST_COMMITS or rows < 2 for rows in rows_of_runs):
        parser.error("--rows is 2 to 6,710,886")
    if options.peer:
        build_peer()
    with chosen_program(parser, options) as options.program:
        measure_classes(options, rows_of_runs)


def measure_classes(options, rows_of_runs):
    """Measures each class of keys with each number of rows, and prints the figures."""
    for name in options.kinds or CLASSES:
        kind = CLASSES[name]
        if options.peer and not kind.has_peer:
            print(f"{name}: there is no peer of this class")
            continue
        programs = programs_of(options, name)
        costs = {}
        for rows in rows_of_runs:
            with tempfile.TemporaryDirectory(prefix="gist-bench-") as folder:
                costs[rows] = measure(programs, kind, rows, options, folder)
        if not options.callgrind and not options.peer:
            compare(kind, costs)


if __name__ == "__main__":
    main()
