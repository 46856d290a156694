"""Times the same programs as two or more compilers made them, by turns, and prints a table.

    python3 benches/plain_rust.py [--rounds N] NAME=FOLDER NAME=FOLDER..

A FOLDER has vdpm, prepare and simplify: `proved=proved rustc=../plain/target/release`, say. The
mesh is a grid of 199,712 faces. Seconds are processor time, the least of N rounds in which each
program runs once, since a machine that is shared hides differences of some percent; the column
behind them is the last over the first. The bytes that the programs write are compared. A folder
that lacks a program has a dash there.
"""
import argparse
import hashlib
import sys
import tempfile
from pathlib import Path
from typing import Dict, Iterator, List, NamedTuple, Tuple

from measure import ALL_MOVES, Cost, mesh_at, moves, run_once, twenty_views, written

GRID = 316


class Work(NamedTuple):
    """What a program does with an input."""

    name: str
    program: str
    words: List[str]
    source: Path


def records_of(stream: bytes) -> int:
    """How many records a stream of version 1 or 2 tells (docs/FORMATS.md)."""
    at = 8 if int.from_bytes(stream[4:8], "little") == 1 else 12
    return int.from_bytes(stream[at + 12 : at + 16], "little")


def works(room: Path, vdpm: Path) -> Iterator[Work]:
    """The works, over a grid and the stream that the first program makes of it."""
    obj, made = room / "grid.obj", room / "grid.vdpm"
    faces = mesh_at(obj, "grid", GRID)
    if run_once(str(vdpm), ["build"], obj, made).status:
        sys.exit(f"{vdpm} makes no stream of a grid of {faces} faces")
    stream = made.read_bytes()

    def scripted(name: str, script: str) -> Path:
        return written(room / name, lambda: stream + script.encode())

    yield Work("canon", "vdpm", ["canon"], obj)
    yield Work("build", "vdpm", ["build"], obj)
    yield Work("check", "vdpm", ["check"], made)
    yield Work("expand", "vdpm", ["expand"], made)
    yield Work("open", "vdpm", ["view", "0"], made)
    script = scripted("moves", moves(records_of(stream), True))
    yield Work("open, all moves, and all back", "vdpm", ["view", "0"], script)
    views = twenty_views()
    yield Work("open and 20 views", "vdpm", ["view", ALL_MOVES], scripted("views", views))
    frames = scripted("frames", views.replace("\n", "\nw\n"))
    yield Work("open and 20 views, each a frame", "vdpm", ["view", ALL_MOVES], frames)
    yield Work("simplify", "simplify", [], obj)
    yield Work("prepare", "prepare", [], obj)


def measured(work: Work, folders: Dict[str, Path], rounds: int,
             out: Path) -> Tuple[Dict[str, List[Cost]], int]:
    """The costs of each program by turns, and how many different outputs there were."""
    costs: Dict[str, List[Cost]] = {name: [] for name in folders}
    digests = set()
    for _ in range(rounds):
        for name, folder in folders.items():
            program = folder / work.program
            if program.is_file():
                costs[name].append(run_once(str(program), work.words, work.source, out))
                digests.add(hashlib.sha256(out.read_bytes()).hexdigest())
    return costs, len(digests)


def told(numbers: List[float], most: bool) -> str:
    """The greatest number, or the least with its thousandths; a dash where there is none."""
    if not numbers:
        return "–"
    return f"{max(numbers):.0f}" if most else f"{min(numbers):.3f}"


def row(work: Work, costs: Dict[str, List[Cost]], outputs: int) -> str:
    seconds = [[cost.seconds for cost in some] for some in costs.values()]
    memory = [[cost.memory for cost in some] for some in costs.values()]
    statuses = {cost.status for some in costs.values() for cost in some}
    note = "same" if outputs == 1 else "DIFFERENT"
    note += "" if statuses == {0} else f", statuses {sorted(statuses)}"
    first, last = seconds[0], seconds[-1]
    ratio = f"{min(last) / max(min(first), 1e-3):.2f}" if first and last else "–"
    cells = [*(told(some, False) for some in seconds), ratio]
    cells += [told(some, True) for some in memory]
    return " | ".join(["", work.name, *cells, note, ""]).strip()


def parsed() -> Tuple[int, Dict[str, Path]]:
    parser = argparse.ArgumentParser(description=(__doc__ or "").split("\n\n")[0])
    parser.add_argument("--rounds", type=int, default=12, metavar="N")
    parser.add_argument("folders", nargs="+", metavar="NAME=FOLDER")
    asked = parser.parse_args()
    folders = dict(word.split("=", 1) for word in asked.folders)
    return asked.rounds, {name: Path(folder).resolve() for name, folder in folders.items()}


def main() -> None:
    rounds, folders = parsed()
    names = list(folders)
    heads = ["work", *names, "last/first", *(f"MB {name}" for name in names), "bytes"]
    print("| " + " | ".join(heads) + " |\n" + "|---" * len(heads) + "|")
    with tempfile.TemporaryDirectory(prefix="plain-rust-") as name:
        room = Path(name)
        for work in works(room, folders[names[0]] / "vdpm"):
            print(row(work, *measured(work, folders, rounds, room / "out")), flush=True)


if __name__ == "__main__":
    main()
