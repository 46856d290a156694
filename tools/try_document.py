"""Runs the commands that a document prints, and compares what they print: python3
tools/try_document.py docs/GUIDE.md

A command is a line `    $ COMMAND` of an indented block; the lines after it in the block, up to the
next command, are what it has to print, on both streams together. Commands run one after the other
at the top of the repository, by bash. A line `    ...` stands for any further lines. Ends with
status 1 where something else was printed.

The programs say at each run that they aren't proved yet, where they aren't. Exactly that line is
left out of what is compared, as are the lines that tell of building, and the end tells of it. So
are those that `world.py` puts now and then, of how far it is.
"""
import argparse
import re
import subprocess
import sys
from pathlib import Path
from typing import Iterable, List, NamedTuple, Tuple

TOP = Path(__file__).resolve().parent.parent
MARGIN = "    "
# What the scripts of the programs say of one that isn't proved, beside what the program says.
PROGRAM = "(vdpm|prepare|simplify|pack|paint)"
BUILDING = re.compile(PROGRAM + ": (building( anew)? from|it is being built already)")
PROGRESS = re.compile("world: (builds|built|checks|cuts|parts|reads|writes) .*")
NOTICE = re.compile(PROGRAM + ": not proved on this machine yet, run-time checks are on; .*")


class Command(NamedTuple):
    """A command, the number of its line, and the lines that it has to print."""

    number: int
    text: str
    told: List[str]


def commands(lines: Iterable[str]) -> List[Command]:
    found: List[Command] = []
    inside = False
    for number, line in enumerate(lines, 1):
        line = line.rstrip("\n")
        if line.startswith(MARGIN + "$ "):
            found.append(Command(number, line[len(MARGIN) + 2 :], []))
            inside = True
        elif inside and line.startswith(MARGIN):
            found[-1].told.append(line[len(MARGIN) :])
        else:
            inside = False
    return found


def own_lines(printed: List[str]) -> Tuple[List[str], int]:
    """The lines without those on how a program was built, and how many of these were notices."""
    notices = [line for line in printed if NOTICE.fullmatch(line)]
    left_out = [line for line in printed if BUILDING.match(line) or PROGRESS.fullmatch(line)]
    own = [line for line in printed if line not in notices and line not in left_out]
    return own, len(notices)


def is_as_told(printed: List[str], told: List[str]) -> bool:
    if told and told[-1] == "...":
        told = told[:-1]
        printed = printed[: len(told)]
    return printed == told


def printed_by(command: str) -> Tuple[List[str], int]:
    """What a command prints on both streams, as `own_lines` tells it."""
    pipe, both = subprocess.PIPE, subprocess.STDOUT
    done = subprocess.run(["bash", "-c", command], cwd=TOP, text=True, stdout=pipe, stderr=both)
    return own_lines(done.stdout.splitlines())


def arguments() -> argparse.Namespace:
    told = "Runs the commands that documents print, and compares what they print."
    parser = argparse.ArgumentParser(description=told)
    parser.add_argument("documents", nargs="+", metavar="DOCUMENT", help="as docs/GUIDE.md")
    return parser.parse_args()


def main() -> int:
    wrong = count = unproved = 0
    for name in arguments().documents:
        for command in commands(Path(name).read_text(encoding="utf-8").splitlines()):
            printed, notices = printed_by(command.text)
            unproved += notices
            count += 1
            if not is_as_told(printed, command.told):
                wrong += 1
                said = ["told:", *command.told, "printed:", *printed[:20]]
                print(f"{name}:{command.number}: $ {command.text}", *said, sep="\n  ")
    print(f"{count - wrong} commands print what is told, {wrong} don't")
    if unproved:
        print(f"{unproved} of the programs that they ran aren't proved on this machine yet")
    return 1 if wrong or not count else 0


if __name__ == "__main__":
    sys.exit(main())
