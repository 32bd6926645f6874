"""Tries the mutants that the toolchain generates, and keeps the verdict on each.

    dev/generated-mutants [--results FILE] [--log FILE] [--minutes N] [--part K/N] CRATE..
    dev/generated-mutants [--results FILE] --rows
    dev/generated-mutants [--results FILE] --proved

`rt plant` lists the generated mutants that survive a crate's contracts, but tries all of them each time. This tool
takes its mutants and its verdicts, and adds each verdict to a file of results: by default generated-mutants.tsv in
$XDG_CACHE_HOME/gist or ~/.cache/gist. A mutant with a verdict isn't tried again as long as what that depends on is the
same: the crate's clauses and definitions except for the version's number, what it can name of the crates below, and the
logic in which they are read.

The libraries below are those that `rt check` left in out/. --log names the output of `rt ci` or `rt check`, which shows
the functions that are proved; without it the crate is checked first. --minutes ends a run early, and --part K/N takes
each Nth function, from the Kth on, so that several runs can work at once.

--rows prints for each crate how many mutants were tried, killed, proved and not judged, --proved prints those that are
proved. The file has the toolchain's words for the verdicts:

  refused        killed: a clause or an invariant isn't proved
  same           survived, and returns what the function returns
  proves         survived
  calls          the function's own call, unchanged, which is proved, as it has to be: not a mutant
  elsewhere      not judged: only what a callee requires isn't proved
  not-judged     not judged: the checker met a limit, or can't prove the unchanged call
  not-source     not judged: it can't be written there
"""
from __future__ import annotations

import argparse
import collections
import hashlib
import os
import re
import subprocess
import sys
import tempfile
from collections.abc import Iterable, Mapping
from typing import Any

from gistdev.mutation.basis import rests_on
from gistdev.mutation.cache import cache_folder, locked
from gistdev.mutation.source import functions_in
from gistdev.sources import ROOT, files_below, text_of, version
from gistdev.toolchain import Crate, module_of, page_of_kit, version_of_logic

HEAD = "# Generated mutants: the crate, a checksum of what verdicts depend on, the function, the verdict, the body.\n"
NOT_TRIED = "not-run"

# The mutants of one check, and the seconds that it gets
BATCH, SECONDS = 40, 3600


# A mutant's crate, function and body
Key = tuple[str, str, str]

# What a verdict depends on, and the verdict
Line = tuple[str, str]


def kit_plants() -> Any:
    """The toolchain's own program that generates mutants."""
    made = module_of(os.path.join(os.path.dirname(page_of_kit()), "bin", "rt-plant"), "rt-plant")
    made.BATCH, made.SECONDS = BATCH, SECONDS
    return made


def basis_of(crate: Crate) -> str:
    """A checksum of what the verdicts on a crate's generated mutants depend on, which is no body and no proof."""
    texts = list(rests_on(crate))
    for part in ("specs", "src"):
        for path in files_below(f"{crate.folder}/{part}"):
            text = without_version(text_of(path))
            texts.append((path, without_bodies(text) if path.endswith(".rt") else text))
    digest = hashlib.sha256(version_of_logic().encode())
    for path, text in texts:
        digest.update(f"{os.path.relpath(path, ROOT)}\0{text}\0".encode())
    return digest.hexdigest()[:16]


def without_version(text: str) -> str:
    """A text without this project's version, which a clause of the library names: a release changes no verdict."""
    major, minor, patch = map(int, version().split("."))
    number = 1_000_000 * major + 1_000 * minor + patch
    return re.sub(rf'"{re.escape(version())}"|\b({number}|{number:_})\b', "VERSION", text)


def without_bodies(text: str) -> str:
    """A source text without the bodies of its functions and without comments."""
    lines = text.split("\n")
    inside = {at for _, _, body, last in functions_in(text) for at in range(body + 1, last)}
    return "\n".join(line for at, line in enumerate(lines) if at not in inside and not line.lstrip().startswith("//"))


class Results:
    """The verdicts by crate, function and body, in a file. Several runs may add to it at once."""

    def __init__(self, path: str) -> None:
        self.path = path
        self.lines = self.read()
        self.fresh: dict[Key, Line] = {}
        self.bases: dict[str, str] = {}

    def begin(self, crate: str, basis: str) -> None:
        """Removes the verdicts on a crate that depend on something else than it has now."""
        self.bases[crate] = basis
        self.lines = self.valid(self.lines)

    def valid(self, lines: Mapping[Key, Line]) -> dict[Key, Line]:
        """The verdicts that depend on what their crates have now."""
        return {key: it for key, it in lines.items() if self.bases.get(key[0], it[0]) == it[0]}

    def put(self, key: Key, basis: str, verdict: str) -> None:
        """Notes a verdict."""
        if self.lines.get(key) != (basis, verdict):
            self.lines[key] = self.fresh[key] = basis, verdict

    def read(self) -> dict[Key, Line]:
        """The verdicts of the file."""
        found = {}
        if os.path.exists(self.path):
            for line in text_of(self.path).splitlines():
                if not line.startswith("#"):
                    crate, basis, function, verdict, body = line.split("\t", 4)
                    found[crate, function, body] = basis, verdict
        return found

    def save(self) -> None:
        """Adds what is new to what the file has now."""
        folder = os.path.dirname(self.path)
        os.makedirs(folder, exist_ok=True)
        with locked(folder):
            lines = self.valid(self.read()) | self.fresh
            with open(f"{self.path}.new", "w", encoding="utf-8") as file:
                file.write(HEAD)
                for (crate, function, body), (basis, verdict) in sorted(lines.items()):
                    file.write("\t".join((crate, basis, function, verdict, body)) + "\n")
            os.replace(f"{self.path}.new", self.path)


def named(function: Any) -> str:
    """The function's file and path, without its line, which changes with the code above."""
    return re.sub(r":\d+ ", " ", str(function.shown))


def written(body: str) -> str:
    return " ".join(body.split())


class Trial:
    """The mutants of one crate: those in the results get their verdict from there, the others are tried and added."""

    def __init__(self, kit: Any, results: Results, crate: Crate, source: Any, basis: str) -> None:
        self.kit, self.results, self.crate, self.source, self.basis = kit, results, crate, source, basis

    def copy_class(self) -> Any:
        """The toolchain's copy of a crate, which tries only what has no verdict."""
        kept, trial = self.kit.Copy, self

        def compiled(copy: Any, plants: Iterable[Any]) -> Any:
            return kept.compiled(copy, [it for it in plants if not trial.knows(it)])

        def judge(copy: Any, plants: Iterable[Any]) -> None:
            left = [it for it in plants if it.kind == NOT_TRIED]
            for at in range(0, len(left), BATCH):
                kept.judge(copy, left[at:at + BATCH])
                trial.note(left[at:at + BATCH])

        def judge_in_place(copy: Any, plants: Iterable[Any]) -> None:
            left = [it for it in plants if not trial.knows(it)]
            kept.judge_in_place(copy, left)
            trial.note(left)

        return type("Copy", (kept,), {"compiled": compiled, "judge": judge, "judge_in_place": judge_in_place})

    def knows(self, plant: Any) -> bool:
        """Whether the results have a mutant's verdict, which the mutant then gets."""
        found = self.results.lines.get((self.crate.name, named(plant.f), written(plant.body)))
        if found is None:
            return False
        plant.kind, plant.why = ("proves" if found[1] == "calls" else found[1]), ""
        plant.f.is_found = plant.f.is_found or plant.f.in_trait
        return True

    def note(self, plants: Iterable[Any]) -> None:
        """Adds the verdicts on mutants that were tried."""
        for it in plants:
            # those that end the program are only there to judge the others
            if it.kind != NOT_TRIED and self.kit.bodies.NEVER not in it.body:
                is_call = not it.f.in_trait and it.kind == "proves" and it.body == it.f.call()
                key = self.crate.name, named(it.f), written(it.body)
                self.results.put(key, self.basis, "calls" if is_call else it.kind)
        self.results.save()

    def run(self, functions: list[Any], proved: list[Any], minutes: int) -> int:
        """Tries what has no verdict, and returns how many mutants are left."""
        with tempfile.TemporaryDirectory(prefix="generated-mutants-") as room:
            copy = self.copy_class()(self.crate, self.source, room, ["--jobs", "1"], 60 * minutes)
            plants = self.kit.plant(self.crate, copy, functions, proved, 1 << 20)
        self.note(plants)
        return sum(it.kind == NOT_TRIED for it in plants)


def proved_lines(name: str, log: str | None) -> dict[str, str]:
    """What the checker says of each function of a crate."""
    if log is None:
        ran = subprocess.run(
            ["rt", "check"], cwd=f"{ROOT}/crates/{name}", stdout=subprocess.PIPE, stderr=subprocess.DEVNULL, text=True
        )
        said = ran.stdout
    else:
        said = text_of(log)
    return dict(re.findall(rf"(?m)^fn ({name}::\S+): (.*)", said))


def try_crate(results: Results, name: str, options: argparse.Namespace) -> None:
    """Tries the generated mutants of a crate."""
    kit = kit_plants()
    lines = proved_lines(name, options.log)
    if not lines:
        raise SystemExit(f"generated-mutants: no output says which functions of {name} are proved")
    os.chdir(f"{ROOT}/crates/{name}")
    crate = kit.rt.Crate(os.getcwd(), ROOT, {})
    crate.out = sys.stderr
    basis = basis_of(crate)
    results.begin(name, basis)
    source = kit.bodies.Source(os.getcwd())
    source.read("src/main.rt" if crate.is_program else "src/lib.rt")
    source.read_specs()
    for library, rlib in kit.libraries(crate).items():
        if library not in (*kit.rt.SEALED, "libc", "os"):
            source.add_library(library, f"{rlib}/lang")
    functions, _ = kit.chosen(crate, source, lines, "")
    if options.part:
        first, step = map(int, options.part.split("/"))
        functions = functions[first::step]
    paths = [symbol.split("::") for symbol, said in lines.items() if not said.startswith("proved")]
    unproved = {("".join(path[1:-1][-1:]).partition("+")[0], path[-1]) for path in paths}
    proved = [it for it in functions if (it.owner, it.name) not in unproved]
    while any(kit.Plant.stem.encode() in it for it in source.data.values()):
        kit.Plant.stem += "_"
    left = Trial(kit, results, crate, source, basis).run(functions, proved, options.minutes)
    print(f"{name}: {left} mutants are left", flush=True)


def print_rows(results: Results) -> None:
    """Prints how many mutants of each crate were tried, killed, proved and not judged."""
    kinds = collections.defaultdict[str, collections.Counter[str]](collections.Counter)
    for (crate, _, _), (_, verdict) in results.lines.items():
        kinds[crate][verdict] += verdict != "calls"
    print("crate, tried, killed, proved, not judged")
    for crate, found in sorted(kinds.items()):
        tried, killed, proved = sum(found.values()), found["refused"], found["same"] + found["proves"]
        print(f"{crate} {tried} {killed} {proved} {tried - killed - proved}")


def main() -> None:
    parser = argparse.ArgumentParser(description=__doc__, formatter_class=argparse.RawDescriptionHelpFormatter)
    parser.add_argument("--results", metavar="FILE", default=f"{cache_folder()}/generated-mutants.tsv")
    parser.add_argument("--log", metavar="FILE")
    parser.add_argument("--minutes", type=int, default=60, metavar="N")
    parser.add_argument("--part", metavar="K/N")
    parser.add_argument("--rows", action="store_true")
    parser.add_argument("--proved", action="store_true")
    parser.add_argument("crates", nargs="*", metavar="CRATE")
    options = parser.parse_args()
    options.log = options.log and os.path.abspath(options.log)
    results = Results(os.path.abspath(options.results))
    if options.rows:
        print_rows(results)
    for (crate, function, body), (_, verdict) in sorted(results.lines.items()):
        if options.proved and verdict in ("same", "proves"):
            print(f"{crate} {function} {{ {body} }}")
    for name in options.crates:
        try_crate(results, name, options)
