"""Programs that call the library: building one, running it, and reporting the result."""
import functools
import os
import re
import shutil
import subprocess

import limited
from checkout import ROOT, skipped, text_of

FLAGS = ["-std=c11", "-O2", "-g", "-Wall", "-Wextra", "-Werror", "-pedantic", "-pthread"]

# What isn't tried without a program
NEEDS = {
    "cc": "all that calls the library",
    "g++": "C++ by g++",
    "clang++": "C++ by clang++, and ThreadSanitizer runs",
    "clang": "ThreadSanitizer runs",
    "valgrind": "runs under valgrind",
    "pkg-config": "a program with libgist.so, by pkg-config",
    "cargo": "bindings/rust by cargo (by rustc instead)",
    "rustc": "bindings/rust",
    "rustdoc": "bindings/rust, the examples in its documentation",
    "redis-server": "examples/replicas.py",
}

# Seconds of processor time that one run, or each process of a build, may take
LONGEST = 300


def valgrind(kinds):
    """Valgrind, for which blocks of these kinds that are left at the end are errors."""
    # it runs one thread at a time: each has its turn, so that one that waits for another doesn't keep it from running
    return ["valgrind", "--quiet", "--fair-sched=yes", "--leak-check=full", f"--show-leak-kinds={kinds}", f"--errors-for-leak-kinds={kinds}", "--error-exitcode=9"]


@functools.cache
def has(program):
    """Whether a program is installed. If it isn't, what isn't tried without it is reported once."""
    if shutil.which(program):
        return True
    skipped(NEEDS.get(program, f"what needs {program}"), f"{program} is not installed")
    return False


def run(words, **more):
    try:
        return limited.run(words, LONGEST, stdin=subprocess.DEVNULL, text=True, errors="replace", **more)
    except limited.TookTooLong as late:
        return subprocess.CompletedProcess(words, 1, "", str(late))


def compile_c(tally, source, folder, compiler=("cc", *FLAGS), linked=("-lgist",)):
    """The program that a source makes with the library, or None if it doesn't compile."""
    program = f"{folder}/{os.path.basename(source).replace('.', '_')}"
    built = run([*compiler, "-I", folder, source, "-L", folder, *linked, "-o", program])
    if built.returncode:
        tally.note(f"{compiler[0]} {os.path.relpath(source, ROOT)}", False, built.stderr)
        return None
    return program


def run_well(tally, what, words, wanted=None, **more):
    """Runs a program, which has to end with status 0, to say nothing on standard error, and to print what is wanted."""
    ended = run(words, **more)
    said = ended.stdout + ended.stderr
    is_well = ended.returncode == 0 and not ended.stderr and (wanted is None or ended.stdout == wanted)
    tally.note(what, is_well, f"status {ended.returncode}\n{said}")


def compare_names(tally, folder, header, tests):
    """Compares a header's functions with those that the library exports and that the tests call."""
    declared = set(re.findall(r"^\w+ \**(gist_\w+)\(", text_of(f"{ROOT}/{header}"), re.M))
    exported = set(re.findall(r" T (gist_\w+)$", run(["nm", f"{folder}/libgist.a"]).stdout, re.M))
    called = {name for test in tests for name in re.findall(r"\b(gist_\w+)\(", text_of(f"{ROOT}/{test}"))}
    tally.note(f"{len(declared)} functions in {header}, the library and {' and '.join(tests)}", declared == exported and declared <= called, f"{declared ^ exported} {declared - called}")
