"""The shared library for programs in C, made from the static one, and the file for pkg-config."""
from __future__ import annotations

import os

from gistdev.released import run

PKG_CONFIG = """prefix=${{pcfiledir}}{up}
libdir=${{prefix}}{lib}
includedir=${{prefix}}{include}

Name: gist
Description: An index in memory whose readers never miss a change
Version: {version}
Cflags: -I${{includedir}}
Libs: -L${{libdir}} -lgist
"""


def soname(version: str) -> str:
    """The library's soname. Versions 0.N with the same N are compatible, so N is part of it."""
    return f"libgist.so.{'.'.join(version.split('.')[:2])}"


def link_shared(folder: str, version: str) -> None:
    """Links a folder's static library as a shared one. The toolchain's own linker makes the same bytes on every machine."""
    tools = os.path.join(os.path.dirname(run("rt", "doc").strip()), "toolchain")
    exported, name = f"{folder}/exported", f"libgist.so.{version}"
    with open(exported, "w", encoding="utf-8") as file:
        file.write("{ global: gist_*; local: *; };\n")
    words = ["-shared", "-soname", soname(version), "--version-script", exported, "--no-undefined", "-o", f"{folder}/{name}"]
    words += ["--whole-archive", f"{folder}/libgist.a", "--no-whole-archive", f"{tools}/lib/libc.so.6"]
    run(f"{tools}/bin/ld.lld", *words)
    os.remove(exported)
    for link, to in ((soname(version), name), ("libgist.so", soname(version))):
        if os.path.lexists(f"{folder}/{link}"):
            os.remove(f"{folder}/{link}")
        os.symlink(to, f"{folder}/{link}")


def pkg_config(version: str, up: str = "/../..", lib: str = "/lib", include: str = "/include") -> str:
    """The file for pkg-config, if the libraries are at these paths from its folder."""
    return PKG_CONFIG.format(version=version, up=up, lib=lib, include=include)
