"""Puts the library for C and its headers into a folder.

    tools/library [--cpu LEVEL] FOLDER
    tools/library --release FOLDER

The first form proves and builds crates/libgist, unless it is built and newer than its sources and those of the crates
below it. It uses the libraries that `rt ci` or `rt check` left, if they are of the present sources, and proves crates
that don't depend on each other in parallel. The code needs a processor of the level x86-64-v2; with --cpu x86-64-v3 it
may use AVX2, and crashes on a processor that lacks it, since a library can't look. The second form takes the library
from the released archive, after comparing its checksum; it takes seconds and needs no toolchain.

FOLDER gets libgist.a, which is that library together with the toolchain's three functions that call malloc, realloc and
free, and which exports only names that begin with gist_; a shared library (libgist.so, with its links); gist.pc for
pkg-config; and the headers, for C and for C++. A program needs nothing else: `cc program.c -IFOLDER FOLDER/libgist.a`.

FOLDER may have an older library, which is replaced. Each file is written under another name first and then renamed, so
a program that has loaded the old shared library keeps it.
"""
from __future__ import annotations

import contextlib
import glob
import os
import shutil
import subprocess
import sys
import tempfile
from collections.abc import Iterator, Sequence

from gistdev.released import Unusable, unpacked
from gistdev.shared_library import link_shared, pkg_config
from gistdev.sources import ROOT, version_of_header
from gistdev.toolchain import LEVELS, Crate, is_newer, library_is_current, toolchain

HEADERS = ["gist.h", "gist.hpp", "gist_values.hpp"]


def build(crate: Crate, built: str) -> None:
    """Proves and builds the library, and those below it unless they are built."""
    if os.path.exists(built) and is_newer(built, crate):
        return
    print("the library is proved and built", file=sys.stderr, flush=True)
    if all(library_is_current(it) for it in crate.below()):
        os.chdir(crate.folder)
        os.makedirs("out", exist_ok=True)
        status = crate.build_static([])
    else:
        status = subprocess.run([f"{ROOT}/dev/build", crate.name], stdout=sys.stderr).returncode
    if status:
        sys.exit("library: the library wasn't built: see the errors above")


def join(archives: Sequence[str], made: str) -> None:
    """Makes one archive of some; only the library's own names are visible from outside."""
    with tempfile.TemporaryDirectory() as room:
        for archive in archives:
            subprocess.run(["ar", "x", archive], cwd=room, check=True)
        parts = sorted(os.listdir(room))
        subprocess.run(["ld", "-r", "-o", "gist.o", *parts], cwd=room, check=True)
        subprocess.run(["objcopy", "--wildcard", "--keep-global-symbol=gist_*", "gist.o"], cwd=room, check=True)
        subprocess.run(["ar", "rcsD", made, "gist.o"], cwd=room, check=True)


@contextlib.contextmanager
def replacing(folder: str) -> Iterator[str]:
    """A new folder to fill; at the end of the block its files and links replace those of the same names in `folder`."""
    os.makedirs(folder, exist_ok=True)
    with tempfile.TemporaryDirectory(prefix=".new-", dir=folder) as new:
        yield new
        # the version's file comes before the links to it: longer names first
        for name in sorted(os.listdir(new), key=lambda it: (-len(it), it)):
            os.replace(f"{new}/{name}", f"{folder}/{name}")


def put_into(folder: str, level: str = LEVELS[0]) -> str:
    """Builds the library for processors of a level, puts all files into a folder, and returns the archive's path."""
    folder, kit = os.path.abspath(folder), toolchain()
    crate = next(it for it in kit.crates_below(f"{ROOT}/crates") if it.name == "libgist")
    built = f"{ROOT}/crates/libgist/out/liblibgist.a"
    build(crate, built)
    if level != LEVELS[0]:
        os.chdir(crate.folder)
        built = f"{crate.folder}/out/liblibgist-{level}.a"
        if crate.compile([f"--cpu={level}"], built):
            sys.exit("library: the library wasn't built: see the compiler's errors above")
    with replacing(folder) as new:
        for header in HEADERS:
            shutil.copy(f"{ROOT}/include/{header}", new)
        join((built, f"{kit.KIT}/c/liblibc_c.a"), f"{new}/libgist.a")
        link_shared(new, version_of_header(f"{new}/gist.h"))
        put_pkg_config_into(new)
    return f"{folder}/libgist.a"


def put_pkg_config_into(folder: str) -> None:
    """Writes the file for pkg-config of a folder's libraries."""
    with open(f"{folder}/gist.pc", "w", encoding="utf-8") as file:
        file.write(pkg_config(version_of_header(f"{folder}/gist.h"), up="", lib="", include=""))


def put_released_into(folder: str) -> str:
    """Copies the library and its headers from the released archive, and returns the library's path."""
    with unpacked() as top, replacing(folder) as new:
        for path in [*glob.glob(f"{top}/include/*"), *glob.glob(f"{top}/lib/libgist.*")]:
            shutil.copy(path, new, follow_symlinks=False)
        put_pkg_config_into(new)
    return f"{folder}/libgist.a"


def main() -> None:
    words = sys.argv[1:]
    is_released, level = words[:1] == ["--release"], LEVELS[0]
    if is_released:
        words = words[1:]
    elif words[:1] == ["--cpu"]:
        level, words = words[1] if len(words) > 1 else "", words[2:]
    if len(words) != 1 or words[0].startswith("-") or level not in LEVELS:
        sys.exit(__doc__)
    if not is_released and not shutil.which("rt"):
        sys.exit(f"library: the toolchain's command rt is not in the path: use tools/library --release {words[0]}, which needs no toolchain")
    try:
        print(put_released_into(words[0]) if is_released else put_into(words[0], level))
    except (Unusable, subprocess.CalledProcessError) as why:
        sys.exit(f"library: {why}")
    except OSError as error:
        sys.exit(f"library: {words[0]} can't be filled: {error.filename}: {error.strerror}")
