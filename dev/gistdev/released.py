"""The released archive: its checksum, and its files."""
from __future__ import annotations

import contextlib
import os
import platform
import shutil
import subprocess
import tempfile
from collections.abc import Iterator, Mapping

from gistdev.sources import RELEASE, archive, sum_of, text_of


class Unusable(Exception):
    """Why the archive can't be used."""


def checked_archive() -> str:
    """The path of the archive, once its checksum was compared."""
    path = archive()
    if path is None:
        raise Unusable(f"{RELEASE} has no release, or more than one")
    name = os.path.basename(path)
    try:
        stated = text_of(f"{path}.sha256").split()
    except OSError as error:
        raise Unusable(f"the archive's checksum can't be read: {error}") from error
    if stated != [sum_of(path), name]:
        raise Unusable(f"{name} is not the file that was released: its checksum is not the one in {name}.sha256")
    return path


def run(*words: str, stdin: int | None = None, env: Mapping[str, str] | None = None) -> str:
    """What a command prints, which has to end with status 0."""
    ended = subprocess.run(words, text=True, capture_output=True, errors="replace", stdin=stdin, env=env)
    if ended.returncode:
        raise Unusable(f"{' '.join(words)} ended with {ended.returncode}: {ended.stderr}")
    return ended.stdout


@contextlib.contextmanager
def unpacked() -> Iterator[str]:
    """The folder with the archive's files, which exists during the block."""
    if (platform.system(), platform.machine()) != ("Linux", "x86_64"):
        raise Unusable(f"the release is for Linux on x86-64, and this is {platform.system()} on {platform.machine()}")
    path = checked_archive()
    if not shutil.which("xz"):
        raise Unusable("the release is unpacked by xz, which is not in the path: install xz-utils")
    with tempfile.TemporaryDirectory() as room:
        run("tar", "-xJf", path, "-C", room)
        yield os.path.join(room, os.listdir(room)[0])
