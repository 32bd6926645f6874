"""The repository: its files, its crates with the checksums of their sources, its version and its release."""
from __future__ import annotations

import glob
import hashlib
import os
import re
import subprocess
from collections.abc import Iterable, Iterator

ROOT = os.path.abspath(os.path.join(os.path.dirname(os.path.abspath(__file__)), "..", ".."))
RELEASE = f"{ROOT}/release"

# What is released: the program and the library for C
RELEASED = ("gist", "libgist")

# Where a crate's sources are
PARTS = ("src", "specs", "proofs")


def text_of(path: str) -> str:
    with open(path, encoding="utf-8") as file:
        return file.read()


def sum_of(path: str) -> str:
    with open(path, "rb") as file:
        return hashlib.sha256(file.read()).hexdigest()


def files_below(folder: str) -> Iterator[str]:
    """Each file below a folder, in an order that doesn't depend on the machine."""
    for at, folders, names in os.walk(folder):
        folders.sort()
        yield from (os.path.join(at, name) for name in sorted(names))


def lines_of_crates() -> dict[str, tuple[str, list[str]]]:
    """The line of crates.txt of each crate, and the names of what it uses."""
    found = {}
    for line in text_of(f"{ROOT}/crates.txt").splitlines():
        name, colon, uses = line.partition("#")[0].partition(":")
        if colon:
            found[name.split()[0]] = line, uses.split()
    return found


def crates_of(names: Iterable[str]) -> list[str]:
    """The names of these crates, and of the repository's crates below them."""
    listed = lines_of_crates()
    found: set[str] = set()
    left = list(names)
    while left:
        name = left.pop()
        if name in listed and name not in found:
            found.add(name)
            left += listed[name][1]
    return sorted(found)


def sum_of_sources() -> str:
    """A checksum of everything that the program and the library are built from."""
    listed, whole = lines_of_crates(), hashlib.sha256()
    for name in crates_of(RELEASED):
        whole.update(f"{listed[name][0]}\n".encode())
        for part in PARTS:
            for path in files_below(f"{ROOT}/crates/{name}/{part}"):
                whole.update(f"{sum_of(path)}  {os.path.relpath(path, ROOT)}\n".encode())
    return whole.hexdigest()


def first_match(pattern: str, text: str) -> str:
    """The group of a pattern's first match in a text, which has one."""
    found = re.search(pattern, text)
    if not found:
        raise ValueError(f"nothing matches {pattern}")
    return found[1]


def version() -> str:
    """The version that the program's source names."""
    return first_match(r'VERSION: &str = "([^"]+)"', text_of(f"{ROOT}/crates/gist/src/help.rt"))


def version_of_header(path: str) -> str:
    """The version that a header of the library names."""
    text = text_of(path)
    return ".".join(first_match(rf"define GIST_VERSION_{part} (\d+)", text) for part in ("MAJOR", "MINOR", "PATCH"))


def other_versions(folder: str, version: str) -> list[str]:
    """What names another version in a folder with the header and the bindings."""
    crate = first_match(r'(?m)^version = "([^"]+)"', text_of(f"{folder}/bindings/rust/Cargo.toml"))
    named = {"include/gist.h": version_of_header(f"{folder}/include/gist.h"), "bindings/rust/Cargo.toml": crate}
    return [f"{path} names {it}" for path, it in named.items() if it != version]


def commit() -> str:
    """The commit of these sources, and whether they have changes since."""
    try:
        words = ["git", "-C", ROOT, "describe", "--always", "--abbrev=12", "--exclude=*", "--dirty=, with changes"]
        return subprocess.run(words, check=True, text=True, capture_output=True).stdout.strip()
    except (OSError, subprocess.CalledProcessError):
        return "unknown"


def build_note(toolchain: str) -> str:
    """What is recorded with a build: its version, its commit, the toolchain's line, and the checksum of its sources."""
    return f"gist {version()}\ncommit {commit()}\n{toolchain}\nsources {sum_of_sources()}\n"


def archive() -> str | None:
    """The path of the released archive; None if there isn't one."""
    found = glob.glob(f"{RELEASE}/gist-*-x86_64-linux.tar.xz")
    return found[0] if len(found) == 1 else None
