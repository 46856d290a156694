"""Builds and proves the programs of this repository. ./vdpm, ./prepare, ./simplify,
./pack, ./paint and ./prove call it.

    python3 tools/programs.py build NAME       prints the file to run as NAME; it may build it first
    python3 tools/programs.py prove [NAME..]   proves and builds these, or all programs; libvdpm is
                                               a name too, of the library
    python3 tools/programs.py status           prints what is known of those that stand
    python3 tools/programs.py version NAME     prints what is known of the one that would be run

Ends with status 1 where a proof is open, 2 where the words aren't understood, and 70 where there is
nothing to run: no kit, no place to write to, sources that don't compile.
"""
import signal
import sys
from pathlib import Path
from typing import List

from quick_start.module import NotCaught
from quick_start.prove import prove
from quick_start.record import is_current
from quick_start.running import say
from quick_start.sources import LIBRARY, PROGRAMS, Program
from quick_start.status import status_lines, version_lines
from quick_start.stopped import NOT_BUILT, Stopped
from quick_start.unproved import build

TOP = Path(__file__).resolve().parent.parent


def runnable(program: Program) -> Path:
    """The file to run: the proved one of these sources, or else an unproved one, or, where the kit
    gives no way to that, one that is proved now."""
    for built in (program.proved, program.unproved):
        if is_current(program, built):
            return built
    try:
        build(program)
        return program.unproved
    except NotCaught:
        say(program, f"this kit builds nothing without a proof, so ./prove {program.name} begins")
    if not prove(program.top, [program.name]):
        raise Stopped("not proved, so nothing was run")
    return program.proved


def call(words: List[str]) -> int:
    verb, names = (words[0], words[1:]) if words else ("", [])
    if verb == "build" and len(names) == 1 and names[0] in PROGRAMS:
        print(runnable(Program(TOP, names[0])))
    elif verb == "prove" and all(name in (*PROGRAMS, LIBRARY) for name in names):
        return 0 if prove(TOP, names) else 1
    elif verb == "status" and not names:
        print("\n".join(status_lines(TOP)))
    elif verb == "version" and len(names) == 1 and names[0] in PROGRAMS:
        print("\n".join(version_lines(Program(TOP, names[0]))))
    else:
        print(__doc__, end="", file=sys.stderr)
        return 2
    return 0


def main() -> int:
    for number in (signal.SIGTERM, signal.SIGHUP):
        signal.signal(number, lambda got, _: sys.exit(128 + got))
    words = sys.argv[1:]
    speaker = words[1] if words[0:1] in (["build"], ["version"]) and len(words) > 1 else "prove"
    try:
        return call(words)
    except Stopped as why:
        print(f"{speaker}: {why}", file=sys.stderr)
        return NOT_BUILT
    except OSError as error:
        print(f"{speaker}: {error.filename or 'a file'}: {error.strerror}", file=sys.stderr)
        return NOT_BUILT
    except KeyboardInterrupt:
        return 128 + signal.SIGINT


if __name__ == "__main__":
    sys.exit(main())
