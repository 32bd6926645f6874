"""Proves and builds the program, or the library for C, from these sources.

    dev/build [gist] [libgist]
    dev/build --cpu LEVEL FILE

Without a name it builds gist, the program. The second form also makes the program for processors of the level x86-64-v3
and writes it to FILE; on a processor that lacks the level, that program ends with status 127. Crates that don't depend
on each other are proved in parallel, as far as processors and memory allow. A crate that hasn't changed since it was
built isn't proved again. Standard error shows each crate with its time. The status is 0 if all was built, else 1.
"""
from __future__ import annotations

import concurrent.futures
import functools
import os
import shutil
import sys
import tempfile
import time
from collections.abc import Collection, Sequence

from gistdev.sources import RELEASED, ROOT, build_note
from gistdev.toolchain import LEVELS, Crate, Toolchain, is_newer, toolchain, version_of_toolchain

# The part of the machine's free memory that checks may use: some take more than estimated
SHARE = 0.85

# The most processors that one check uses, and the memory that each further one takes, as a fraction of the first's
MOST_JOBS, FURTHER_JOB = 4, 0.6

# A crate, and the processors that its check uses
Begun = tuple[Crate, int]


def say(text: str) -> None:
    print(f"gist: {text}", file=sys.stderr, flush=True)


def duration(seconds: float) -> str:
    return f"{seconds:.0f} seconds" if seconds < 90 else f"{seconds / 60:.0f} minutes"


def free_memory() -> int:
    with open("/proc/meminfo", encoding="utf-8") as file:
        return next(1024 * int(line.split()[1]) for line in file if line.startswith("MemAvailable:"))


def is_current(crate: Crate) -> bool:
    """Whether a library is built from the present sources. False for the program, which is built every time."""
    if crate.makes_rlib():
        return crate.is_built()
    made = f"{crate.folder}/out/lib{crate.name}.a"
    return crate.is_static and os.path.exists(made) and is_newer(made, crate)


class Work:
    """The crates to prove, each after those that it uses."""

    def __init__(self, kit: Toolchain, names: Sequence[str]) -> None:
        listed = {it.name: it for it in kit.crates_below(f"{ROOT}/crates")}
        last = [listed[name] for name in names]
        self.kit = kit
        self.crates = [*dict.fromkeys(dep for it in last for dep in it.below()), *last]
        # the number of lines in the longest chain of crates that wait for a crate, including its own
        self.waiting = {it: self.lines(it, ".rt") for it in self.crates}
        for crate in reversed(self.crates):
            for dep in crate.deps:
                self.waiting[dep] = max(self.waiting[dep], self.lines(dep, ".rt") + self.waiting[crate])

    @functools.cache
    def lines(self, crate: Crate, ending: str) -> int:
        """How many lines a crate's files with an ending have."""
        found = 0
        for path in self.kit.files_of(crate.folder):
            if path.endswith(ending):
                with open(path, "rb") as file:
                    found += file.read().count(b"\n")
        return found

    def memory(self, crate: Crate, jobs: int) -> float:
        """The bytes that a first check may take, by its lines and those of the crates below it."""
        below = sum(self.lines(it, ".rt") for it in crate.below())
        one = 1_000_000_000 + 1_000_000 * self.lines(crate, ".rt") + 200_000 * self.lines(crate, ".antt") + 80_000 * below
        return one * (1 + FURTHER_JOB * (jobs - 1))

    def build(self, crate: Crate, jobs: int) -> tuple[bool, str, float]:
        """Proves and builds one crate: whether that went well, what the check printed, and the seconds."""
        began, flags = time.monotonic(), ["--jobs", str(jobs)]
        with tempfile.TemporaryFile("w+", errors="replace") as crate.out:
            os.makedirs(f"{crate.folder}/out", exist_ok=True)
            if crate.is_program:
                crate.held = []
                status = crate.build_and_run(flags, ["serve"], False)
            elif crate.is_static:
                status = crate.build_static(flags)
            else:
                status = crate.build_rlib(flags, anew=False)
            crate.out.seek(0)
            return status == 0, crate.out.read(), time.monotonic() - began

    def next(self, ready: Sequence[Crate], running: Collection[Begun], lanes: int, memory: float) -> Begun | None:
        """The crate to begin next, and its processors: the one that the longest chain of crates waits for."""
        idle = lanes - sum(jobs for _, jobs in running)
        room = memory - sum(self.memory(crate, jobs) for crate, jobs in running)
        for crate in sorted(ready, key=lambda it: -self.waiting[it]):
            if idle > 0 and (not running or self.memory(crate, 1) <= room):
                most = max(1, min(MOST_JOBS, idle // len(ready)))
                return crate, max(jobs for jobs in range(1, most + 1) if jobs == 1 or self.memory(crate, jobs) <= room)
        return None

    def run(self) -> bool:
        """Proves and builds all crates; whether that went well. After a failure no further crate begins."""
        lanes, memory = len(os.sched_getaffinity(0)), SHARE * free_memory()
        left = [it for it in self.crates if not is_current(it)]
        count, proved, is_well = len(left), 0, True
        running: dict[concurrent.futures.Future[tuple[bool, str, float]], Begun] = {}
        with concurrent.futures.ThreadPoolExecutor(lanes) as pool:
            while running or (left and is_well):
                unbuilt = {crate for crate, _ in running.values()} | {*left}
                ready = [it for it in left if is_well and not unbuilt & {*it.deps}]
                begun = self.next(ready, running.values(), lanes, memory)
                if begun:
                    left.remove(begun[0])
                    running[pool.submit(self.build, *begun)] = begun
                    continue
                for ended in concurrent.futures.wait(running, return_when=concurrent.futures.FIRST_COMPLETED).done:
                    crate, _ = running.pop(ended)
                    went_well, said, seconds = ended.result()
                    proved += went_well
                    if went_well:
                        say(f"proved {proved} of {count}: {crate.name} ({duration(seconds)})")
                    else:
                        print(said, end="", file=sys.stderr)
                        say(f"building failed at {crate.name}")
                        is_well = False
        return is_well


def note_program() -> None:
    """Records next to the program what it was built from."""
    with open(f"{ROOT}/crates/gist/out/VERSION", "w", encoding="utf-8") as file:
        file.write(build_note(version_of_toolchain()))
    os.utime(f"{ROOT}/crates/gist/out/gist")


def compile_program(kit: Toolchain, level: str, file: str) -> bool:
    """Compiles the proved program for processors of a level; whether that went well."""
    crate = next(it for it in kit.crates_below(f"{ROOT}/crates") if it.name == "gist")
    os.chdir(crate.folder)
    if crate.compile([f"--cpu={level}"], f"{file}.o"):
        return False
    words = ["--target", "x86_64-unknown-linux-gnu", "--toolchain", f"{kit.KIT}/toolchain", "-o", file, f"{file}.o"]
    status = crate.call(f"{kit.KIT}/bin/rattle-link", *words, f"{kit.KIT}/c/libos_c.a", f"{kit.KIT}/c/liblibc_c.a")
    os.remove(f"{file}.o")
    return status == 0


def build(names: Sequence[str]) -> tuple[bool, Toolchain]:
    """Proves and builds what has these names: whether that went well, and the toolchain that did it."""
    os.chdir(ROOT)
    # the program is run once when it is built, and has nothing to read
    os.dup2(os.open(os.devnull, os.O_RDONLY), 0)
    kit = toolchain()
    # its first call sets a signal's handler, which only the main thread may
    kit.guarded()
    work = Work(kit, names)
    held = kit.lock(work.crates)
    is_well = work.run()
    for it in held:
        os.close(it)
    return is_well, kit


def main() -> int:
    names, level, file = sys.argv[1:] or ["gist"], "", ""
    if names[0] == "--cpu":
        if len(names) != 3 or names[1] not in LEVELS:
            sys.exit(__doc__)
        level, file, names = names[1], os.path.abspath(names[2]), ["gist"]
    if not {*names} <= {*RELEASED}:
        sys.exit(__doc__)
    if not shutil.which("rt"):
        say("the toolchain's command rt is not in the path: add the toolchain's folder bin to PATH")
        return 1
    began = time.monotonic()
    is_well, kit = build(names)
    if is_well and "gist" in names:
        note_program()
    if is_well and level:
        is_well = compile_program(kit, level, file)
    say(f"{'built' if is_well else 'not built'} in {duration(time.monotonic() - began)}")
    return 0 if is_well else 1
