"""Packs the release: the proved program and the library for C, each with its documents.

    dev/release
    dev/release --check [--built]

The first form proves and builds what isn't built of these sources, and puts into the folder release

    gist-VERSION-x86_64-linux.tar.xz           bin/gist, lib (libgist.a, libgist.so with its names, pkgconfig/gist.pc),
                                               include, bindings, examples, docs, README.md, VERSION (the version, the commit,
                                               the toolchain, the checksum of the sources), SHA256SUMS
    gist-VERSION-x86_64-linux.tar.xz.sha256    its checksum

in place of the previous version. It rejects a checkout with changes that aren't committed: the archive's commit says
what it was made from.

The second form compares the checksums of the archive and of its files. Its program must answer the sessions of
README.md, its library must pass the examples in C, linked with the archive and with the shared library, and all must
name one version. If these sources are those of the release, the program and the library that were built from them must
have the archive's bytes: what is released is what was proved. With --built they have to be built. The last line is
`N passed, M failed`.
"""
from __future__ import annotations

import glob
import io
import lzma
import os
import shutil
import subprocess
import sys
import tarfile
import tempfile

from gistdev.program import BUILT
from gistdev.released import Unusable, run, unpacked
from gistdev.shared_library import pkg_config
from gistdev.sources import (
    RELEASE, ROOT, archive, build_note, commit, files_below, first_match, other_versions, sum_of, sum_of_sources, text_of,
    version,
)
from gistdev.tally import Tally, skipped
from gistdev.toolchain import version_of_toolchain

# The most bytes of the archive
LARGEST = 3_000_000

LIBRARY = f"{ROOT}/crates/libgist/out/liblibgist.a"

README = """# gist {version}

An in-memory index of rows with keys (intervals, boxes, sets). Queries find rows; a cursor delivers the rows that match,
and then each later change. Each function's contract is proved for all inputs.

| Path | Contents |
|---|---|
| `bin/gist` | the program for Linux on x86-64: `bin/gist serve` answers lines; `bin/gist --help` lists its commands |
| `lib/libgist.a`, `include/gist.h` | the library for C, and for languages that call C: `cc program.c -Iinclude lib/libgist.a` |
| `include/gist.hpp`, `bindings/` | headers for C++17, a crate for Rust, and a module for Python 3 |
| `lib/libgist.so`, `lib/pkgconfig/gist.pc` | the shared library, and its file for `pkg-config` |
| `examples/` | programs in C, C++, Rust and Python |
| `docs/TRUST.md` | what is proved, what is only tested, what you have to trust, and how to check that this is what was proved |
| `docs/MODEL.md`, `docs/SESSIONS.md`, `docs/LIMITS.md` | rows, commits, cursors and queries; each line and its answer; limits and refusals |
| `docs/RECIPES.md` | sessions and calls for common tasks |
| `docs/LIBRARY.md` | the library's calls by example |
| `docs/PROVED.md`, `docs/proved` | each promise with its clause; the other pages are for readers of the sources |
| `VERSION` | the version, the commit that it was made of, the toolchain that proved it, and the sum of the sources |
| `SHA256SUMS` | `sha256sum -c SHA256SUMS` compares the files with those that were packed |
"""


def put(path: str, text: str) -> None:
    os.makedirs(os.path.dirname(path), exist_ok=True)
    with open(path, "w", encoding="utf-8") as file:
        file.write(text)


def copy(source: str, to: str) -> None:
    os.makedirs(os.path.dirname(to), exist_ok=True)
    shutil.copy(source, to)


def fill(folder: str) -> None:
    subprocess.run([f"{ROOT}/dev/build", "gist", "libgist"], check=True, stdin=subprocess.DEVNULL)
    copy(BUILT, f"{folder}/bin/gist")
    run(f"{ROOT}/tools/library", f"{folder}/lib", stdin=subprocess.DEVNULL)
    os.makedirs(f"{folder}/include")
    for header in glob.glob(f"{folder}/lib/*.h*"):
        shutil.move(header, f"{folder}/include")
    os.remove(f"{folder}/lib/gist.pc")
    put(f"{folder}/lib/pkgconfig/gist.pc", pkg_config(version()))
    for name in run("git", "-C", ROOT, "ls-files", "docs", "examples", "bindings").split():
        copy(f"{ROOT}/{name}", f"{folder}/{name}")
    put(f"{folder}/README.md", README.format(version=version()))
    put(f"{folder}/VERSION", build_note(version_of_toolchain()))
    listed = [os.path.relpath(it, folder) for it in files_below(folder) if not os.path.islink(it)]
    put(f"{folder}/SHA256SUMS", "".join(f"{sum_of(f'{folder}/{it}')}  {it}\n" for it in listed))


def entry_of(folder: str, path: str) -> tarfile.TarInfo:
    """A file in the archive: nothing of the machine, the user or the hour goes in."""
    entry = tarfile.TarInfo(f"{os.path.basename(folder)}/{os.path.relpath(path, folder)}")
    if os.path.islink(path):
        entry.type, entry.linkname = tarfile.SYMTYPE, os.readlink(path)
    else:
        entry.size = os.path.getsize(path)
    entry.mode = 0o755 if os.access(path, os.X_OK) else 0o644
    return entry


def pack(folder: str, to: str) -> None:
    plain = io.BytesIO()
    with tarfile.open(fileobj=plain, mode="w", format=tarfile.USTAR_FORMAT) as tar:
        for path in files_below(folder):
            entry = entry_of(folder, path)
            if entry.issym():
                tar.addfile(entry)
            else:
                with open(path, "rb") as content:
                    tar.addfile(entry, content)
    with open(to, "wb") as file:
        file.write(lzma.compress(plain.getvalue(), preset=9 | lzma.PRESET_EXTREME))
    put(f"{to}.sha256", f"{sum_of(to)}  {os.path.basename(to)}\n")


def make() -> str:
    if "with changes" in commit() or commit() == "unknown":
        sys.exit("release: there are changes that aren't committed, or this is no checkout")
    if others := other_versions(ROOT, version()):
        sys.exit(f"release: the program is {version()}, but {' and '.join(others)}")
    os.makedirs(RELEASE, exist_ok=True)
    packed = f"{RELEASE}/gist-{version()}-x86_64-linux.tar.xz"
    with tempfile.TemporaryDirectory() as room:
        folder = f"{room}/gist-{version()}"
        fill(folder)
        for it in glob.glob(f"{RELEASE}/gist-*.tar.xz*"):
            os.remove(it)
        pack(folder, packed)
    return packed


def check_sums(tally: Tally, top: str) -> None:
    """The files are those that were packed, and no others."""
    pairs = (line.split("  ", 1) for line in text_of(f"{top}/SHA256SUMS").splitlines())
    listed = {name: checksum for checksum, name in pairs}
    found = {os.path.relpath(it, top): sum_of(it) for it in files_below(top) if not os.path.islink(it)}
    found.pop("SHA256SUMS")
    tally.note(f"{len(found)} files with their sums", listed == found, f"{set(listed.items()) ^ set(found.items())}")
    path = archive() or ""
    size = os.path.getsize(path)
    tally.note(f"the archive has {size:,} bytes, at most {LARGEST:,}", size <= LARGEST)
    released = first_match(r"gist-([^/]*)-x86_64", path)
    line = f"gist {released}\n"
    printed = run(f"{top}/bin/gist", "--version")
    tally.note(f"the program prints {line.strip()}", printed == line == text_of(f"{top}/VERSION").splitlines(True)[0])
    others = other_versions(top, released)
    tally.note(f"the library and the bindings are {released}", not others and os.path.exists(f"{top}/lib/libgist.so.{released}"), f"{others}")


def check_sessions(tally: Tally, top: str) -> None:
    pages = [f"{ROOT}/{it}" for it in ("README.md", "docs/WORLD.md", "docs/MODEL.md", "docs/RECIPES.md")]
    ended = subprocess.run([f"{ROOT}/tests/transcripts", "--program", f"{top}/bin/gist", *pages], text=True, capture_output=True)
    tally.note("the sessions of the documents", ended.returncode == 0 and "\n0 passed" not in ended.stdout, ended.stdout)


def check_examples(tally: Tally, top: str, room: str) -> None:
    """Each example in C prints what it has to, linked with the archive and with the shared library."""
    if not shutil.which("cc"):
        skipped("the library's examples", "cc is not installed")
        return
    kinds = {"libgist.a": [f"-I{top}/include", f"{top}/lib/libgist.a"]}
    if shutil.which("pkg-config"):
        flags = run("pkg-config", "--cflags", "--libs", "gist", env={**os.environ, "PKG_CONFIG_PATH": f"{top}/lib/pkgconfig"})
        kinds["libgist.so, by pkg-config"] = [*flags.split(), f"-Wl,-rpath,{top}/lib"]
    else:
        skipped("the shared library by pkg-config", "pkg-config is not installed")
        kinds["libgist.so"] = [f"-I{top}/include", f"-L{top}/lib", "-lgist", f"-Wl,-rpath,{top}/lib"]
    for source in sorted(glob.glob(f"{top}/examples/*.c")):
        name, wanted = os.path.basename(source), text_of(f"{source[:-2]}.out")
        for kind, words in kinds.items():
            run("cc", "-O2", source, *words, "-pthread", "-o", f"{room}/example")
            tally.note(f"{name} with {kind}", run(f"{room}/example") == wanted)


def check_bytes(tally: Tally, top: str, wants_built: bool) -> None:
    """What was built of the release's sources has the bytes that are released."""
    recorded = dict(line.split(" ", 1) for line in text_of(f"{top}/VERSION").splitlines())
    if recorded["sources"] != sum_of_sources():
        print("these sources are later than the release: their build isn't compared with it", flush=True)
        return
    tally.note("include/gist.h is the release's", sum_of(f"{ROOT}/include/gist.h") == sum_of(f"{top}/include/gist.h"))
    if not wants_built and not (os.path.exists(BUILT) and os.path.exists(LIBRARY)):
        print("these sources aren't built here: nothing is compared with the release", flush=True)
        return
    if version_of_toolchain().split() != text_of(f"{top}/VERSION").splitlines()[2].split():
        print("another toolchain built the release: the build isn't compared with it", flush=True)
        return
    tally.note("the program is the one that these sources build", os.path.exists(BUILT) and sum_of(BUILT) == sum_of(f"{top}/bin/gist"))
    with tempfile.TemporaryDirectory() as folder:
        run(f"{ROOT}/tools/library", folder, stdin=subprocess.DEVNULL)
        tally.note("the library is the one that these sources build", sum_of(f"{folder}/libgist.a") == sum_of(f"{top}/lib/libgist.a"))


def check(wants_built: bool) -> int:
    tally = Tally()
    try:
        with unpacked() as top, tempfile.TemporaryDirectory() as room:
            check_sums(tally, top)
            check_sessions(tally, top)
            check_examples(tally, top, room)
            check_bytes(tally, top, wants_built)
    except Unusable as why:
        tally.note("the release", False, str(why))
    return tally.end()


def main() -> int:
    words = sys.argv[1:]
    if words not in ([], ["--check"], ["--check", "--built"]):
        sys.exit(__doc__)
    if words:
        return check("--built" in words)
    packed = make()
    print(f"release: {os.path.relpath(packed, ROOT)}, {os.path.getsize(packed):,} bytes")
    return 0
