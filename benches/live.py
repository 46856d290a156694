"""Plays a smooth flight through a pipe, one view at a time, and prints what each step takes:

    python3 benches/live.py MODEL [--program PATH] [--way orbit|flight] [--by v|vd]
        [--tolerances 16 4]

MODEL is a stream. A step is a view and, once its reply is there, the text of what is shown: the
whole frame (`w`), or what has changed since the step before (`d`). A cell has the median and the
95th percentile of STEPS steps, in milliseconds from the line that is sent to the end of the reply
that is read, and in bytes. With `--program` of an older `vdpm`, which knows `view` alone, `w` is
measured and `d` is left out.

An orbit goes round the whole model, without planes; a flight goes over its middle, close, with the
four planes of a picture of 1,280 by 800 pixels.
"""
import argparse
import subprocess
import sys
import time
from io import BufferedReader
from itertools import chain
from math import cos, pi, sin
from pathlib import Path
from typing import Iterator, List, NamedTuple, Tuple

TOP = Path(__file__).resolve().parent.parent
sys.path.insert(0, str(TOP / "tools"))

from flight import planes  # noqa: E402

FOCAL = 1000
WIDTH, HEIGHT = 1280, 800
REACH = 30000  # about half of the width of a model that fills its grid
ALL_MOVES = 4294967295
BLOCK = 1 << 20


class Step(NamedTuple):
    """Milliseconds of the view and of the text after it, and the bytes and faces of the text."""

    view: float
    text: float
    bytes: int
    faces: int


class Session:
    """A `vdpm` that plays a script line by line."""

    def __init__(self, program: Path, command: str, model: bytes) -> None:
        self.child = subprocess.Popen(
            [program, command, str(ALL_MOVES)], stdin=subprocess.PIPE, stdout=subprocess.PIPE
        )
        assert self.child.stdin and isinstance(self.child.stdout, BufferedReader)
        self.to, self.answers = self.child.stdin, self.child.stdout
        self.to.write(model)

    def line(self, text: str) -> bytes:
        """Sends a line, and answers the first line of its reply."""
        self.to.write(text.encode("ascii") + b"\n")
        self.to.flush()
        first = self.answers.readline()
        if not first:
            sys.exit(f"live: the program ended at the line `{text}`")
        return first

    def whole(self, text: str) -> Tuple[int, int]:
        """Sends a line whose reply goes on to `end`, and answers its bytes and its faces.

        Reads by block and not by line: a client that splits 60,000 lines in Python would be
        measured and not the program.
        """
        first = self.line(text)
        size, last = len(first), first
        while not last.endswith(b"\nend\n"):
            block = self.answers.read1(BLOCK)
            size += len(block)
            last = (last + block)[-5:]
        return size, int(first.split()[2])

    def close(self) -> None:
        self.to.write(b"q\n")
        self.to.close()
        self.child.wait()


def orbit(step: int) -> str:
    angle = 2 * pi * step / 1200
    eye = (round(2 * REACH * cos(angle)), round(2 * REACH * sin(angle)), REACH)
    return " ".join(str(c) for c in eye)


def flight(step: int) -> str:
    part = step / 200
    eye = (round(REACH * (1.2 * part - 0.9)), round(REACH * (0.6 * part - 0.6)), REACH // 2)
    at = (eye[0] + REACH / 2, eye[1] + REACH / 4, -REACH / 4)
    picture = argparse.Namespace(at=at, up=(0, 0, 1), focal=FOCAL, width=WIDTH, height=HEIGHT)
    return " ".join(str(c) for c in (*eye, *chain.from_iterable(planes(eye, picture))))


def view_line(word: str, place: str, tolerance: int) -> str:
    numbers = place.split(" ")
    return " ".join([word, *numbers[:3], str(FOCAL), str(tolerance), *numbers[3:]])


def played(session: Session, lines: List[str], ask: str) -> Iterator[Step]:
    """The steps of the flight. The first view makes the front, and isn't one of them."""
    session.line(lines[0])
    session.whole(ask)
    for line in lines[1:]:
        start = time.perf_counter()
        session.line(line)
        viewed = time.perf_counter()
        size, faces = session.whole(ask)
        told = time.perf_counter()
        yield Step(1000 * (viewed - start), 1000 * (told - viewed), size, faces)


def at(values: List[float], part: float) -> float:
    ordered = sorted(values)
    return ordered[min(len(ordered) - 1, int(part * len(ordered)))]


def cell(values: List[float], form: str) -> str:
    return f"{at(values, 0.5):{form}} / {at(values, 0.95):{form}}"


def row(asked: argparse.Namespace, model: bytes, tolerance: int, ask: str) -> str:
    way = {"orbit": orbit, "flight": flight}[asked.way]
    lines = [view_line(asked.by, way(step), tolerance) for step in range(asked.steps + 1)]
    session = Session(asked.program, asked.command, model)
    steps = list(played(session, lines, ask))
    session.close()
    cells = [
        str(tolerance),
        ask,
        f"{at([s.faces for s in steps], 0.5):,}",
        cell([s.view for s in steps], ".1f"),
        cell([s.text for s in steps], ".1f"),
        cell([s.view + s.text for s in steps], ".1f"),
        cell([s.bytes / 1024 for s in steps], ",.0f"),
    ]
    return f"| {' | '.join(cells)} |"


def arguments() -> argparse.Namespace:
    parser = argparse.ArgumentParser(description="Measures a live session through a pipe.")
    parser.add_argument("model", type=Path)
    parser.add_argument("--program", type=Path, default=TOP / "vdpm")
    parser.add_argument("--command", choices=["live", "view"], default="live")
    parser.add_argument("--way", choices=["orbit", "flight"], default="flight")
    parser.add_argument("--by", choices=["v", "vd"], default="v")
    parser.add_argument("--tolerances", type=int, nargs="*", default=[32, 16, 8])
    parser.add_argument("--steps", type=int, default=200)
    return parser.parse_args()


def main() -> None:
    asked = arguments()
    model = asked.model.read_bytes()
    print("| px | asked | faces | view, ms | text, ms | both, ms | kB |")
    print("|" + "---|" * 7)
    for tolerance in asked.tolerances:
        for ask in ("w",) if asked.command == "view" else ("w", "d"):
            print(row(asked, model, tolerance, ask), flush=True)


if __name__ == "__main__":
    main()
