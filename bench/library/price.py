#!/usr/bin/env python3
"""Counts what a call of the library for C costs over the same call inside, in instructions.

    bench/library/price.py [--release | --library FOLDER]

A row by `gist_insert` of one is compared with a row by `gist_insert` of all, which makes the same call of the store for each
row within one call of its own; an item by `gist_next` of one with one by `gist_next` of all; and `gist_commits`, which only
reads a number, shows what getting to the snapshot takes. Counted by callgrind, as the
difference of two runs with 20,000 and 40,000 rows: what is done within the library's calls, without the caller's loop.
--library names a folder that tools/library has filled; else it is called, with --release for the released library, which needs
no toolchain.
"""
import argparse
import os
import re
import shutil
import subprocess
import sys
import tempfile

HERE = os.path.dirname(os.path.abspath(__file__))
FEW, MANY = 20_000, 40_000

# Of each run, the call that it is about
CALLS = {"insert_all": "gist_insert", "insert": "gist_insert", "take": "gist_next", "next": "gist_next", "commits": "gist_commits"}


def instructions(program, what, rows, folder):
    """How many instructions a run takes within the call of the library that it is about."""
    words = ["valgrind", "--tool=callgrind", f"--callgrind-out-file={folder}/out", program, what, str(rows)]
    subprocess.run(words, capture_output=True, check=True)
    table = subprocess.run(["callgrind_annotate", "--inclusive=yes", "--threshold=100", f"{folder}/out"], capture_output=True, text=True, check=True).stdout
    return int(re.search(rf"^ *([\d,]+) .*:{CALLS[what]} ", table, re.M)[1].replace(",", ""))


def measure(folder):
    program = f"{folder}/price"
    subprocess.run(["cc", "-O2", "-I", folder, f"{HERE}/price.c", f"{folder}/libgist.a", "-o", program], check=True)
    a_row = {what: (instructions(program, what, MANY, folder) - instructions(program, what, FEW, folder)) / (MANY - FEW) for what in CALLS}
    print(f"a row more by insert of all: {a_row['insert_all']:.0f}")
    print(f"a row more by insert of one: {a_row['insert'] - a_row['insert_all']:.1f} over it")
    print(f"an item more by next of all: {a_row['take']:.0f}")
    print(f"an item more by next of one: {a_row['next'] - a_row['take']:.1f} over it")
    print(f"a call of commits: {a_row['commits']:.1f}")


def main():
    parser = argparse.ArgumentParser(description=__doc__, formatter_class=argparse.RawDescriptionHelpFormatter)
    which = parser.add_mutually_exclusive_group()
    which.add_argument("--library", metavar="FOLDER")
    which.add_argument("--release", action="store_true", help="measure the released library, which needs no toolchain")
    options = parser.parse_args()
    with tempfile.TemporaryDirectory() as folder:
        if options.library:
            shutil.copytree(options.library, folder, symlinks=True, dirs_exist_ok=True)
        elif subprocess.run([f"{HERE}/../../tools/library", *(["--release"] if options.release else []), folder], stdout=subprocess.DEVNULL).returncode != 0:
            sys.exit("price: there is no library to measure: --release measures the released one")
        measure(folder)


main()
