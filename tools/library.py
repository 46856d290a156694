#!/usr/bin/env python3
"""Builds the library for C without a proof: unproved/libvdpm.a and unproved/libvdpm.so.1.

    python3 tools/library.py
    python3 tools/library.py install --prefix FOLDER

The checks of the run time are left in, as in an unproved program (tools/quick_start); `./prove
libvdpm` proves and builds it without them. The second puts the proved library under FOLDER where
there is one of these sources, and else an unproved one, which it builds where need be: the header
in include/, the files in lib/, and what pkg-config and CMake ask for.
Needs `rt` on the path, and `cc`, `ar` and `objcopy`; or `cargo` and these, which build it as plain
Rust.
"""
import sys
from pathlib import Path

from quick_start.install import folder_to_install, install, is_proved
from quick_start.joining import glibc_of
from quick_start.library import build_unproved
from quick_start.module import NotCaught
from quick_start.running import say
from quick_start.sources import LIBRARY, SHARED, STATIC, Program
from quick_start.stopped import NOT_BUILT, Stopped

TOP = Path(__file__).resolve().parent.parent
PROGRAM = Program(TOP, LIBRARY)


def build(folder: Path) -> None:
    """Makes libvdpm.a and libvdpm.so.1 in the folder."""
    build_unproved(PROGRAM, folder)
    glibc = glibc_of((folder / SHARED).read_bytes())
    say(PROGRAM, f"{folder.name}/{STATIC} and {folder.name}/{SHARED} are built, for systems with "
                 f"glibc 2.{glibc} or later")


def install_under(prefix: Path) -> None:
    try:
        built = folder_to_install(PROGRAM)
    except Stopped:
        build(TOP / "unproved")
        built = folder_to_install(PROGRAM)
    install(TOP, built, prefix)
    how = "proved" if is_proved(built) else "not proved, run-time checks on"
    say(PROGRAM, f"installed under {prefix}: {how}")


def main() -> int:
    words = sys.argv[1:]
    if words and (len(words) != 3 or words[:2] != ["install", "--prefix"]):
        print(__doc__, file=sys.stderr)
        return 0 if words in (["--help"], ["-h"]) else 64
    try:
        if words:
            install_under(Path(words[2]))
        else:
            build(TOP / "unproved")
    except (Stopped, NotCaught) as why:
        print(f"library: {why}", file=sys.stderr)
        return NOT_BUILT
    except OSError as error:
        print(f"library: {error.filename or 'a file'}: {error.strerror}", file=sys.stderr)
        return NOT_BUILT
    return 0


if __name__ == "__main__":
    sys.exit(main())
