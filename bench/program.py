"""Programs that are built to be measured.

Their files end in `.in`, since the gate refuses code that it doesn't prove; here they are put into a folder of their own, which is removed
once the program is built. The program stays in bench/out.
"""

import hashlib
import os
import shutil
import subprocess
import tempfile

HERE = os.path.dirname(os.path.abspath(__file__))
OUT = os.path.join(HERE, "out")


def files_below(folder):
    """The files of a folder, by their places in it."""
    found = []
    for at, folders, names in os.walk(folder):
        folders[:] = sorted(name for name in folders if name != "out")
        found += [os.path.relpath(os.path.join(at, name), folder) for name in sorted(names)]
    return found


def state(sources):
    """A sum of all that a program is built from."""
    told = hashlib.sha256()
    crates = os.path.join(os.path.dirname(HERE), "crates")
    for folder in (sources, crates):
        for name in files_below(folder):
            told.update(name.encode("utf-8") + b"\0")
            with open(os.path.join(folder, name), "rb") as file:
                told.update(hashlib.sha256(file.read()).digest())
    return told.hexdigest()


def build(folder_name, name):
    """Builds the program of a folder of bench/ if that or a crate has changed, and returns its path. It may take some minutes."""
    sources, program = os.path.join(HERE, folder_name), os.path.join(OUT, name)
    stamp = program + ".stamp"
    now = state(sources)
    if os.path.isfile(program) and os.path.isfile(stamp):
        with open(stamp, encoding="ascii") as file:
            if file.read() == now:
                return program
    if not shutil.which("rt"):
        raise SystemExit(f"bench: {name} is built by the toolchain's command rt, which is not in the path; the release doesn't have this program")
    os.makedirs(OUT, exist_ok=True)
    with tempfile.TemporaryDirectory(prefix="building-", dir=OUT) as folder:
        for file_name in files_below(sources):
            to = os.path.join(folder, file_name.removesuffix(".in"))
            os.makedirs(os.path.dirname(to), exist_ok=True)
            shutil.copyfile(os.path.join(sources, file_name), to)
        # Without a measurement's name the program does nothing and ends with 1.
        log = program + ".log"
        with open(log, "wb") as file:
            subprocess.run(["rt", "run", "--jobs", "1"], cwd=folder, stdin=subprocess.DEVNULL, stdout=file, stderr=file)
        built = os.path.join(folder, "out", name)
        if not os.path.isfile(built):
            raise SystemExit(f"bench: the program isn't built; {log} tells why")
        shutil.copy2(built, program)
    with open(stamp, "w", encoding="ascii") as file:
        file.write(now)
    return program
