"""Mutation tests of the tests: makes changes that the contracts allow, and demands that a test fails for each.

    dev/test-mutants [--list] [CRATE | CRATE/MUTANT ..]

crates/CRATE/test-mutants has a crate's test-only mutants: for each a line `mutant: FUNCTION-WHAT`, a line
`test: CRATE::MODULE::NAME` with the test that must fail, and the lines of a mutant as dev/mutants reads them. The
checker proves them as it proves the right code, or it isn't known whether it does. Each is put into a copy of the
repository, in which the test's module is run before any proof (`rt try --test`). The test must fail, or the run must
not end within LONGEST seconds: that is how a thread ends that waits for itself.

The command rebuilds the crate and those above it for each mutant, which takes some minutes, and isn't part of the gate.
The last line is `N passed, M failed`, the killed ones and all others; the status is 0 only if M is 0.
"""
from __future__ import annotations

import os
import re
import shutil
import subprocess
import sys
import tempfile

from gistdev.mutation.edits import TEST_FILE, BadMutant, Mutant, mutants_of, mutated
from gistdev.sources import ROOT, text_of

# Seconds that the tests may take once they run, and that the build before them may take
LONGEST, BUILD = 300, 1200

RESULT = re.compile(r"^test (\S+) \.\.\. (\S+)", re.M)

# What a copy of the repository doesn't need
LEFT_OUT = (".git", "incremental", "bench")


def chosen(wanted: list[str]) -> list[Mutant]:
    """The mutants that the words name, or all of them."""
    crates = sorted(os.listdir(f"{ROOT}/crates"))
    found = [it for crate in crates for it in mutants_of(crate, f"{ROOT}/crates/{crate}", TEST_FILE)]
    for it in found:
        if not it.test:
            raise BadMutant(f"{it} names no test")
    return [it for it in found if not wanted or it.crate in wanted or str(it) in wanted]


def put_into(mutant: Mutant, copy: str) -> None:
    """Changes a copy of the repository as a mutant says."""
    folder = f"{copy}/crates/{mutant.crate}"
    for path, text in mutated(mutant, lambda path: text_of(f"{folder}/{path}")).items():
        with open(f"{folder}/{path}", "w", encoding="utf-8") as file:
            file.write(text)


def modules_of(folder: str, module: str) -> set[str]:
    """A module of a crate of tests, and those that it uses."""
    found: set[str] = set()
    left = [module]
    while left:
        name = left.pop()
        if name not in found:
            found.add(name)
            left += re.findall(r"^use crate::(\w+)", text_of(os.path.join(folder, f"{name}.rt")), re.M)
    return found


def leave_out_others(copy: str, crate: str, test: str) -> None:
    """Removes from a crate of tests in a copy what the test doesn't need, so that it is built soon."""
    folder = os.path.join(copy, "crates", crate, "src")
    kept = modules_of(folder, test.split("::", maxsplit=1)[0])
    root = os.path.join(folder, "lib.rt")
    pattern = r"#\[cfg\(test\)\]\nmod (\w+);\n"
    text = re.sub(pattern, lambda it: it.group() if it.group(1) in kept else "", text_of(root))
    with open(root, "w", encoding="utf-8") as file:
        file.write(text)
    for name in os.listdir(folder):
        module = name.removesuffix(".rt")
        if name != "lib.rt" and module not in kept:
            os.remove(os.path.join(folder, name))
            shutil.rmtree(os.path.join(copy, "crates", crate, "proofs", module), ignore_errors=True)


def outcome(copy: str, crate: str, test: str) -> str:
    """How the test ended: `failed`, `passed`, `no end`, or the output of the run."""
    folder = os.path.join(copy, "crates", crate)
    try:
        ran = subprocess.run(
            ["rt", "try", "--test"], cwd=folder, stdin=subprocess.DEVNULL, stdout=subprocess.PIPE,
            stderr=subprocess.STDOUT, errors="replace", timeout=BUILD + LONGEST, check=False,
        )
    except subprocess.TimeoutExpired as late:
        said = late.stdout.decode(errors="replace") if isinstance(late.stdout, bytes) else late.stdout or ""
        has_passed = re.search(rf"^test {re.escape(test)} \.\.\. ok", said, re.M)
        return "no end" if "tests: " in said and not has_passed else "it wasn't run in time"
    results = dict(RESULT.findall(ran.stdout))
    if test in results:
        return "passed" if results[test] == "ok" else "failed"
    is_endless = "timed out" in ran.stdout or "no end" in ran.stdout
    return "no end" if is_endless else "it wasn't run:\n" + ran.stdout[-2000:]


def main() -> int:
    words = sys.argv[1:]
    if "--help" in words:
        print(__doc__)
        return 0
    try:
        found = chosen([it for it in words if not it.startswith("-")])
    except BadMutant as fault:
        print(f"test-mutants: {fault}", file=sys.stderr)
        return 2
    if "--list" in words:
        print(*found, sep="\n")
        return 0
    passed = failed = 0
    for it in found:
        with tempfile.TemporaryDirectory(prefix="test-mutants-") as folder:
            copy = os.path.join(folder, "repository")
            shutil.copytree(ROOT, copy, symlinks=True, ignore=shutil.ignore_patterns(*LEFT_OUT))
            put_into(it, copy)
            crate, _, test = it.test.partition("::")
            leave_out_others(copy, crate, test)
            end = outcome(copy, crate, test)
        is_killed = end in ("failed", "no end")
        passed, failed = passed + is_killed, failed + (not is_killed)
        print(f"{'killed' if is_killed else 'NOT KILLED'}  {it}: {it.test}: {end}", flush=True)
    print(f"{passed} passed, {failed} failed")
    return 1 if failed else 0
