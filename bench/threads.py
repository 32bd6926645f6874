#!/usr/bin/env python3
"""Measures the crate `desk`: threads at one lock by the clock, and single calls by their instructions.

The program is built from bench/threads, and stays in bench/out.
"""

import argparse
import os
import shutil
import subprocess
import tempfile

import bench
from program import HERE, OUT, build

PROGRAM = os.path.join(OUT, "desk_bench")
PEER_SOURCE = os.path.join(HERE, "peer", "threads.cpp")
PEER = os.path.join(OUT, "peer_threads")
PEER_FLAGS = ["-O2", "-march=x86-64-v2", "-std=c++17", "-DNDEBUG", "-pthread"]

# The targets: instructions of an insert compared with a store's, and instructions of a take.
INSERT_AIM = 1.1
TAKE_AIM = 60

# Nanoseconds a commit and follower, of a thousand that poll.
FOLLOWER_AIM = 15

# The most items that stand in a ring.
ROOM = 4_096

FIELDS = ("wall", "threads_wall", "threads_cpu", "calls", "visits", "items", "shortest", "longest")


def build_peer():
    """Builds the peer, which needs a C++ compiler and Boost's headers."""
    compiler = shutil.which("c++")
    if compiler is None or subprocess.run([compiler, *PEER_FLAGS, "-o", PEER, PEER_SOURCE]).returncode != 0:
        raise SystemExit("bench: the peer can't be built; it needs c++ and Boost's headers")


# What is measured of each class, by its name
CLASSES = {"intervals": ("threads", "visits"), "boxes": ("threads_of_boxes", "visits_of_boxes")}


def parts(words, program=PROGRAM):
    """The program's figures for each part of a measurement."""
    told = subprocess.run([program, *map(str, words)], stdout=subprocess.PIPE, check=True, text=True).stdout
    return [dict(zip(FIELDS, map(int, line.split()))) for line in told.splitlines()]


def instructions(words):
    """How many instructions a run takes."""
    with tempfile.TemporaryDirectory(prefix="gist-bench-") as folder:
        return bench.instructions([PROGRAM, *map(str, words)], os.devnull, folder)


def least(runs, words):
    """Of several runs the one whose first part was the shortest."""
    return min((parts(words) for _ in range(runs)), key=lambda told: told[0]["wall"])


def a_second(part):
    """How many calls a second a part made."""
    return part["calls"] / part["wall"] * 1e9


def evenness(part):
    """The rate of the slowest thread of a part over that of the fastest, when all had the same amount to do."""
    return part["shortest"] / part["longest"]


def print_threads(options):
    """Inserts, finds, moves and deletes a second, by class and number of threads: of this program, and of an earlier one beside it."""
    programs = {"": PROGRAM} if options.before is None else {"before": options.before, "now": PROGRAM}
    for class_name, (threads, _) in CLASSES.items():
        print(f"{class_name}: {options.rows:,} rows, each moved and deleted, and {options.finds:,} finds in all; calls a second, and evenness")
        print(f"  {'threads':>7} {'':>6}  {'inserts':>16}  {'finds':>16}  {'moves':>16}  {'deletes':>16}  {'items a find':>12}  {'finish':>9}")
        for count in options.threads:
            # in turn, so that what else the machine does meets all programs alike
            runs = {name: [] for name in programs}
            for _ in range(options.turns):
                for name, program in programs.items():
                    runs[name].append(parts([threads, count, options.rows, options.finds], program))
            for name, told in runs.items():
                inserts, finds, moves, deletes, finish = (min((run[at] for run in told), key=lambda part: part["wall"]) for at in range(5))
                each = options.rows // count * count
                if not each == inserts["calls"] == moves["calls"] == deletes["calls"] or finish["calls"] != 3 * each:
                    raise SystemExit("bench: a call was refused, or the seats don't fit the commits")
                rates = "".join(f"  {a_second(part):>10,.0f} {evenness(part):>5.2f}" for part in (inserts, finds, moves, deletes))
                print(f"  {count:>7} {name:>6}{rates}  {finds['items'] / finds['calls']:>12.1f}  {finish['wall'] / 1e9:>7.3f} s", flush=True)
    for class_name, (_, visits) in CLASSES.items():
        for name, program in programs.items():
            told = parts([visits, options.rows], program)[:3]
            calls = ", ".join(f"{what} {part['visits'] / part['calls']:.2f}" for what, part in zip(("an insert", "a move", "a delete"), told))
            turns = parts([CLASSES[class_name][0], 1, options.rows, options.finds], program)[1]
            print(f"visits, {class_name}{' ' + name if name else ''}: {calls}, a find {turns['visits'] / turns['calls']:.2f}", flush=True)


def print_visits(options):
    """How long one thread holds the lock when it is alone."""
    keys = least(options.turns, ["keys", options.rows])[0]["wall"]
    bare = least(options.turns, ["visits", options.rows])[0]
    desk = least(options.turns, ["desk", options.rows])[0]["wall"]
    store = least(options.turns, ["store", options.rows])[0]["wall"]
    alone = [parts(["threads", 1, options.rows, options.finds])[1] for _ in range(options.turns)]
    turn = min(part["wall"] / part["visits"] for part in alone)
    print("One thread with nobody else")
    print(f"  visits of an insert                   {bare['visits'] / bare['calls']:>10.2f}")
    print(f"  such a visit, without a lock          {(bare['wall'] - keys) / bare['visits']:>10.1f} ns")
    print(f"  such a visit of a desk, with its lock {(desk - keys) / bare['visits']:>10.1f} ns")
    print(f"  a visit of a find, with its lock      {turn:>10.1f} ns")
    print(f"  an insert into a desk                 {(desk - keys) / options.rows:>10.1f} ns")
    print(f"  an insert into a store                {(store - keys) / options.rows:>10.1f} ns")


def print_prepared(options):
    """How long a turn that reads a page, and a split, hold the lock: made in one visit, and worked out between two visits."""
    clock = least(options.turns, ["clock", 1_000_000])[0]
    tick = clock["wall"] / clock["calls"]
    print("Nanoseconds under the lock, and between two visits to it")
    for name, words in (("a turn that reads a page", ["turns", options.rows, options.rows // 50]), ("a split", ["splits", options.rows])):
        at_once = [parts([words[0] + "_at_once", *words[1:]])[0] for _ in range(options.turns)]
        prepared = [parts([words[0] + "_prepared", *words[1:]]) for _ in range(options.turns)]
        once = min(part["wall"] / part["calls"] for part in at_once) - tick
        visits = min(run[1]["wall"] / run[1]["calls"] for run in prepared) - 2 * tick
        between = min(run[2]["wall"] / run[2]["calls"] for run in prepared) - tick
        print(f"  {name:<25} at once {once:>8.0f}   in two visits {visits:>8.0f}, between them {between:>8.0f}")


def print_readers(options):
    """Threads that read pages while one inserts, and while none does."""
    print(f"Pages a second of threads that read {options.pages:,} each, a new cursor for every 1,000, among {options.rows:,} rows")
    print("  readers  while nobody inserts  while one inserts")
    for count in options.threads:
        rates = []
        for inserts in (0, 10 * options.rows):
            runs = [parts(["readers", count + 1, options.rows, inserts, options.pages])[1] for _ in range(options.turns)]
            rates.append(max(run["calls"] * count / run["threads_wall"] for run in runs) * 1e9)
        print(f"  {count:>7}  {rates[0]:>20,.0f}  {rates[1]:>17,.0f}", flush=True)


def best(runs):
    return max(runs, key=lambda run: a_second(run[1]))


def peer_runs(words, turns):
    """What the peer prints about a measurement, in `turns` runs."""
    told = [subprocess.run([PEER, *map(str, words)], stdout=subprocess.PIPE, check=True, text=True).stdout for _ in range(turns)]
    return [[dict(zip(FIELDS, map(int, line.split()))) for line in lines.splitlines()] for lines in told]


def print_looks(options):
    """Finds in snapshots a second, by number of threads, alone and while another inserts; and a peer's, if it is asked for."""
    print(f"Finds of ten rows a second in snapshots, {options.rows:,} rows, {options.finds:,} finds in all")
    print("  threads  a snapshot every          alone  beside an insert   inserts a second meanwhile")
    for count in options.threads:
        for every in (1, 10, 100):
            alone, beside = (
                best([parts(["looks", count + 1, options.rows, options.finds, every, inserts]) for _ in range(options.turns)])
                for inserts in (0, 1)
            )
            print(
                f"  {count:>7}  {every:>16}  {a_second(alone[1]):>13,.0f}  {a_second(beside[1]):>16,.0f}"
                f"  {a_second(beside[0]):>27,.0f}",
                flush=True,
            )
        if options.peer:
            alone, beside = (
                best(peer_runs([count, options.rows, options.finds, inserts], options.turns)) for inserts in (0, 1)
            )
            print(
                f"  {count:>7}  {'the peer':>16}  {a_second(alone[1]):>13,.0f}  {a_second(beside[1]):>16,.0f}"
                f"  {a_second(beside[0]):>27,.0f}",
                flush=True,
            )


def print_snapshots(options):
    """What a snapshot of a store costs, and the inserts after it."""
    more = min(options.rows, 100_000)
    costs = {
        every: min(
            (parts(["snapshots", options.rows, more, every]) for _ in range(options.turns)),
            key=lambda run: run[0]["wall"],
        )
        for every in (0, 1_000, 100, 10, 1)
    }
    print(f"Snapshots of a store of {options.rows:,} rows")
    for every, run in costs.items():
        name = f"a snapshot every {every:,}" if every else "without snapshots"
        print(f"  an insert, {name:<26} {run[0]['wall'] / run[0]['calls']:>10,.0f} ns")
    view = min(run[1]["wall"] / run[1]["calls"] for run in costs.values())
    print(f"  a snapshot, made and dropped          {view:>10,.0f} ns")


def print_followers(options):
    """What a commit costs each of many followers that take a snapshot after each hundred commits, and the changes that match."""
    for count in (1, 1_000):
        inserts, polls, views, *_ = min(
            (parts(["followers", options.rows, 10_000, count]) for _ in range(options.turns)),
            key=lambda run: run[1]["wall"],
        )
        if polls["calls"] != count * inserts["calls"]:
            raise SystemExit("bench: a follower missed a commit")
        each = polls["wall"] / polls["calls"]
        print(f"Followers that poll: {count:,}, {polls['items']:,} items of {inserts['calls']:,} commits")
        print(f"  a commit and follower                 {told(each, FOLLOWER_AIM)} ns")
        print(f"  an insert beside them                 {inserts['wall'] / inserts['calls']:>10,.0f} ns")
        print(f"  a snapshot of a seat of {views['items']:,} stamps {views['wall'] / views['calls']:>12,.0f} ns")


def told(value, aim):
    return f"{value:.2f}, aim {aim}: {'met' if value <= aim else 'MISSED'}"


def print_instructions(rows):
    """Instructions of a call of a desk beside those of a store, and of a take."""
    print(f"Instructions, {rows:,} rows")
    keys = instructions(["keys", rows]) - instructions(["keys", 0])
    costs = {}
    for name in ("store", "desk"):
        costs[name] = (instructions([name, rows]) - instructions([name, 0]) - keys) / rows
    print(f"  an insert into a store                {costs['store']:>10,.0f}")
    print(f"  an insert into a desk                 {costs['desk']:>10,.0f}")
    print("  desk over store:", told(costs["desk"] / costs["store"], INSERT_AIM))
    before = instructions(["takes", 0, 0])
    found = (instructions(["takes", ROOM, 0]) - before) / ROOM
    none = (instructions(["takes", 0, 100_000]) - before) / 100_000
    print("  a take that finds an item:", told(found, TAKE_AIM))
    print("  a take that finds none:", told(none, TAKE_AIM))


def main():
    parser = argparse.ArgumentParser(description="Measures the crate desk.")
    parser.add_argument("--threads", type=int, action="append", help="by default 1, 2 and 4")
    parser.add_argument("--rows", type=int, help="rows in all, by default 100000, and 20000 with --callgrind")
    parser.add_argument("--finds", type=int, default=20_000, help="finds in all")
    parser.add_argument("--pages", type=int, default=100_000, help="pages that each reader reads")
    parser.add_argument("--turns", type=int, default=3, help="runs, the least of which counts")
    parser.add_argument("--snapshots", action="store_true", help="what snapshots cost and give, and nothing else")
    parser.add_argument("--peer", action="store_true", help="beside finds in snapshots those in Boost's tree under a lock")
    parser.add_argument("--rates", action="store_true", help="calls a second of threads and visits a call, and nothing else")
    parser.add_argument("--before", help="with --rates, an earlier desk_bench to be measured beside this one")
    parser.add_argument("--callgrind", action="store_true", help="instructions in place of time, by valgrind")
    parser.add_argument("--build", action="store_true", help="build the program and measure nothing")
    options = parser.parse_args()
    options.threads = options.threads or [1, 2, 4]
    options.rows = options.rows or (20_000 if options.callgrind else 100_000)
    if options.callgrind and shutil.which("valgrind") is None:
        parser.error("--callgrind needs valgrind")
    if any(not 1 <= count <= 64 for count in options.threads):
        parser.error("--threads is 1 to 64")
    if not 100 <= options.rows <= 1_000_000 or options.finds < 100 or options.turns < 1:
        parser.error("--rows is 100 to 1,000,000, --finds at least 100 and --turns at least 1")
    build("threads", "desk_bench")
    if options.build:
        return
    if options.peer:
        build_peer()
    if options.callgrind:
        print_instructions(options.rows)
    elif options.rates:
        print_threads(options)
    elif options.snapshots:
        print_looks(options)
        print_followers(options)
        print_snapshots(options)
    else:
        print_threads(options)
        print_visits(options)
        print_prepared(options)
        print_readers(options)
        print_looks(options)
        print_followers(options)
        print_snapshots(options)


if __name__ == "__main__":
    main()
