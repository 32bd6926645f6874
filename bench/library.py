#!/usr/bin/env python3
"""Measures the library for C in process, beside the R-tree of Boost.Geometry on the same keys if its headers are there, and of sets
beside a plain loop over all of them.

    bench/library.py [--class interval|box|set] [--rows N ..] [--finds N] [--turns N] [--callgrind]
                     [--release]
    bench/library.py --threads [--release] [--rows N ..] [--finds N] [--turns N]

It builds bench/library/library.cpp over the library that tools/library makes, or with --release over the released one, which
needs no toolchain, and runs it. Each find must give the same rows by
every tree, or the run ends with status 1. By the second, 1, 2 and 4 threads find in snapshots beside one that inserts
10,000 times a second, and as often as it can (bench/library/threads.c), and beside that as many find in Boost's tree under a
std::shared_mutex.
"""
import argparse
import os
import shutil
import subprocess
import sys
import tempfile

sys.dont_write_bytecode = True
import threads as desks
from bench import HERE, PEER_FLAGS, PEER_HEADER, has_header, instructions_by_function

TOP = os.path.dirname(HERE)
SOURCE = os.path.join(HERE, "library", "library.cpp")
PROGRAM = os.path.join(HERE, "out", "library")
LIBRARY = os.path.join(HERE, "out", "libgist")
THREADS_SOURCE = os.path.join(HERE, "library", "threads.c")
THREADS = os.path.join(HERE, "out", "library_threads")


def build(is_released):
    compiler = shutil.which("c++")
    if compiler is None:
        raise SystemExit("library: there is no c++")
    made = subprocess.run([os.path.join(TOP, "tools", "library"), *(["--release"] if is_released else []), LIBRARY], stdout=subprocess.DEVNULL)
    if made.returncode != 0:
        raise SystemExit("library: there is no library to measure: --release measures the released one")
    boost = ["-DWITH_BOOST"] if has_header(compiler, PEER_HEADER) else []
    if not boost:
        print("Boost's headers are missing: gist is measured alone")
    words = [compiler, *PEER_FLAGS, *boost, f"-I{LIBRARY}", SOURCE, f"{LIBRARY}/libgist.a", "-o", PROGRAM]
    if subprocess.run(words).returncode != 0:
        raise SystemExit("library: the program can't be built")


def measured(program, words, turns):
    """Of several runs with readers and a writer, the one in which the readers found most a second."""
    told = [subprocess.run([program, *map(str, words)], stdout=subprocess.PIPE, check=True, text=True).stdout for _ in range(turns)]
    return desks.best([[dict(zip(desks.FIELDS, map(int, line.split()))) for line in lines.splitlines()] for lines in told])


def print_threads(options):
    """Finds a second of threads beside one that inserts, and what Boost's tree under a shared mutex does."""
    flags = ["-O2", "-std=c11", "-D_GNU_SOURCE", "-pthread", f"-I{LIBRARY}"]
    if subprocess.run(["cc", *flags, THREADS_SOURCE, f"{LIBRARY}/libgist.a", "-o", THREADS]).returncode != 0:
        raise SystemExit("library: the program with threads can't be built")
    desks.build_peer()
    for rows in options.rows or [100_000]:
        for inserts, told in ((10_000, "10,000 times a second"), (1, "as often as it can")):
            print(f"Finds of ten rows a second beside one thread that inserts {told}, {rows:,} intervals")
            print("  threads     gist  in snapshots   boost, shared mutex   times   inserts a second: gist, boost")
            for count in (1, 2, 4):
                words = [count, rows, options.finds * count, inserts]
                own, peer = (measured(program, words, options.turns) for program in (THREADS, desks.PEER))
                finds, written = ([desks.a_second(it[part]) for it in (own, peer)] for part in (1, 0))
                print(f"  {count:>7}  {finds[0]:>22,.0f}  {finds[1]:>20,.0f}  {finds[0] / finds[1]:>6.2f}   {written[0]:>12,.0f} {written[1]:>12,.0f}", flush=True)


def main():
    parser = argparse.ArgumentParser(description="Measures the library for C in process.")
    parser.add_argument("--class", dest="kinds", action="append", choices=["interval", "box", "set"], help="by default all three")
    parser.add_argument("--rows", type=int, action="append", help="by default 10000, 100000 and 1000000")
    parser.add_argument("--finds", type=int, default=20_000, help="finds in a phase, of sets a twentieth as many")
    parser.add_argument("--turns", type=int, default=3, help="runs, the least of which counts; up to five times as many of short ones")
    parser.add_argument("--callgrind", action="store_true", help="instructions in place of time, by valgrind, of gist alone")
    parser.add_argument("--threads", action="store_true", help="threads that find beside one that inserts")
    parser.add_argument("--release", action="store_true", help="measure the released library, which needs no toolchain")
    options = parser.parse_args()
    build(options.release)
    if options.threads:
        return print_threads(options)
    for kind in options.kinds or ["interval", "box", "set"]:
        for rows in options.rows or ([20_000] if options.callgrind else [10_000, 100_000, 1_000_000]):
            turns = 1 if options.callgrind else options.turns * min(1 + 100_000 // rows, 5)
            finds = max(options.finds // 20, 1) if kind == "set" else options.finds
            words = [PROGRAM, kind, str(rows), str(finds), str(turns)]
            print(f"{kind}, {rows:,} rows", flush=True)
            if not options.callgrind:
                if subprocess.run(words).returncode != 0:
                    raise SystemExit(1)
                continue
            with tempfile.TemporaryDirectory(prefix="gist-bench-") as folder:
                for name, count in instructions_by_function([*words, "gist"], os.devnull, folder).most_common(20):
                    print(f"  {count:>16,} {name}")


if __name__ == "__main__":
    main()
