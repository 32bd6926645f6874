"""The toolchain's commands, and whether a library that it built is of the present sources."""
from __future__ import annotations

import functools
import importlib.machinery
import importlib.util
import os
import subprocess
import sys
from collections.abc import Sequence
from typing import IO, Any, Protocol, cast

from gistdev.sources import PARTS, files_below

# The levels of processors that code may be made for, the default first
LEVELS = ["x86-64-v2", "x86-64-v3"]


class Crate(Protocol):
    """What the commands use of a crate, as the toolchain knows it."""

    # where a check prints, and files that are kept open while it runs
    out: IO[str]
    held: list[int]

    def __hash__(self) -> int: ...

    @property
    def name(self) -> str: ...

    @property
    def folder(self) -> str: ...

    @property
    def rlib(self) -> str: ...

    @property
    def is_program(self) -> bool: ...

    @property
    def is_static(self) -> bool: ...

    @property
    def deps(self) -> Sequence[Crate]:
        """The repository's crates that it uses directly."""

    def below(self) -> Sequence[Crate]:
        """The repository's crates that it uses, and those that these use."""

    def makes_rlib(self) -> bool: ...

    def is_built(self) -> bool: ...

    def build_rlib(self, flags: list[str], anew: bool) -> int:
        """Builds its library, and returns a status."""

    def build_static(self, flags: list[str]) -> int: ...

    def build_and_run(self, flags: list[str], arguments: list[str], tests: bool) -> int: ...

    def compile(self, flags: list[str], to: str) -> int: ...

    def call(self, *words: str) -> int: ...

    def words(self, flags: list[str], keeps: bool) -> list[str]:
        """The arguments of a check."""


class Toolchain(Protocol):
    """What the commands use of the toolchain's library of commands."""

    @property
    def RATTLE(self) -> str: ...  # pylint: disable=invalid-name

    @property
    def KIT(self) -> str: ...  # pylint: disable=invalid-name

    def guarded(self) -> list[str]:
        """The words before a command that has to end when this process ends."""

    def crates_below(self, top: str) -> list[Crate]:
        """The crates of a folder, lowest first."""

    def files_of(self, folder: str) -> list[str]:
        """The paths of a crate's sources, definitions and proofs."""

    def lock(self, crates: Sequence[Crate]) -> list[int]:
        """Keeps other commands out of some crates' folders until the descriptors are closed."""


def page_of_kit() -> str:
    """The path of the toolchain's first page, which is in its folder."""
    return subprocess.run(["rt", "doc"], text=True, stdout=subprocess.PIPE, check=True).stdout.strip()


def version_of_toolchain() -> str:
    """The line that names the toolchain and its logic."""
    return subprocess.run(["rt", "version"], text=True, stdout=subprocess.PIPE, check=True).stdout.strip()


def version_of_logic() -> str:
    """The version of the logic in which contracts are read: another version of the checker may have the same."""
    return version_of_toolchain().partition(" ")[2]


def module_of(path: str, name: str) -> Any:
    """A program of the toolchain as a module."""
    loader = importlib.machinery.SourceFileLoader(name, path)
    spec = importlib.util.spec_from_loader(name, loader)
    assert spec
    made = importlib.util.module_from_spec(spec)
    # it must not leave bytecode in the toolchain's folder
    sys.dont_write_bytecode = True
    sys.modules[name] = made
    loader.exec_module(made)
    return made


def toolchain() -> Toolchain:
    """The toolchain's own library of commands, which knows how a crate is checked and built."""
    made = module_of(os.path.join(os.path.dirname(page_of_kit()), "bin", "rtlib.py"), "rtlib")
    # each visits all crates below, and those below each of them, at every call
    for name in ("stamp", "below"):
        setattr(made.Crate, name, functools.cache(getattr(made.Crate, name)))
    return cast(Toolchain, made)


def is_newer(built: str, crate: Crate) -> bool:
    """Whether a file or folder is newer than each source of a crate and of those below it."""
    made = os.path.getmtime(built)
    folders = [f"{it.folder}/{part}" for it in (crate, *crate.below()) for part in PARTS]
    return all(os.path.getmtime(path) < made for folder in folders for path in files_below(folder))


def library_is_current(crate: Crate) -> bool:
    """Whether the built library is that of the present sources: kept by `rt check`, or built after them by `rt ci`."""
    if not os.path.exists(crate.rlib):
        return False
    if os.path.isfile(os.path.join(os.path.dirname(crate.rlib), "stamp")):
        return crate.is_built()
    return is_newer(crate.rlib, crate)
