#!/usr/bin/env python3
"""Measures a map of boxes in process: puts and gets, the longest single put, memory, and finds after motion.

    bench/maps.py [--objects N ..] [--moves N] [--ticks N] [--release | --library FOLDER]

It builds bench/library/maps.c over the library that tools/library makes, with --release over the released one, or with --library
over one that tools/library has put into a folder. Times are processor nanoseconds a call, except that of the longest single
put, which is in microseconds by the clock: measure on a quiet machine.
"""
import argparse
import os
import subprocess
import sys
import tempfile

HERE = os.path.dirname(os.path.abspath(__file__))

# What each line of the program says, in the order in which they are shown
LABELS = {
    "store_move": "a move in a store, ns",
    "map_insert": "a put that inserts, ns",
    "map_move": "a put that moves, ns",
    "map_get": "a get, ns",
    "longest_put_us": "the longest put, us",
    "longest_at": "its revision",
    "puts_over_100_us": "puts longer than 100 us",
    "bytes_an_object": "bytes an object, new",
    "bytes_after_moves": "bytes an object, after the moves",
    "tick_move": "a put that moves, in ticks, ns",
    "bytes_after_ticks": "bytes an object, after the ticks",
    "find_new": "a find of ten, in a new map, ns",
    "find_after_ticks": "a find of ten, after the ticks, ns",
    "find_new_same_places": "a find of ten, in a new map of the same boxes, ns",
}


def figures(program: str, objects: int, moves: int, ticks: int) -> dict[str, str]:
    """The figures of a run, by their names."""
    words = [program, str(objects), str(moves), str(ticks)]
    told = subprocess.run(words, stdout=subprocess.PIPE, text=True, check=True).stdout
    return dict(line.split(" ", 1) for line in told.splitlines())


def build(folder: str, is_released: bool, library: str | None) -> str:
    """Builds the program into a folder, and returns its path."""
    if library is None:
        library = f"{folder}/library"
        words = [f"{HERE}/../tools/library", *(["--release"] if is_released else []), library]
        if subprocess.run(words, stdout=subprocess.DEVNULL, check=False).returncode != 0:
            sys.exit("maps: there is no library to measure: --release measures the released one")
    flags = ["-O2", "-std=c11", "-D_GNU_SOURCE", f"-I{library}"]
    program = f"{folder}/maps"
    subprocess.run(["cc", *flags, f"{HERE}/library/maps.c", f"{library}/libgist.a", "-o", program], check=True)
    return program


def main() -> None:
    parser = argparse.ArgumentParser(description=__doc__, formatter_class=argparse.RawDescriptionHelpFormatter)
    parser.add_argument("--objects", type=int, action="append", help="by default 100000 and 1000000")
    parser.add_argument("--moves", type=int, default=10_000_000, help="single puts that are timed")
    parser.add_argument("--ticks", type=int, default=0, help="how often each object is moved before the last finds")
    which = parser.add_mutually_exclusive_group()
    which.add_argument("--release", action="store_true", help="measure the released library, which needs no toolchain")
    which.add_argument("--library", metavar="FOLDER")
    options = parser.parse_args()
    with tempfile.TemporaryDirectory() as folder:
        program = build(folder, options.release, options.library)
        for objects in options.objects or [100_000, 1_000_000]:
            found = figures(program, objects, options.moves, options.ticks)
            print(f"{objects:,} boxes, {options.moves:,} single moves, {options.ticks:,} ticks")
            for name, label in LABELS.items():
                if name in found:
                    print(f"  {label:52}{float(found[name]):>14,.0f}", flush=True)


if __name__ == "__main__":
    main()
