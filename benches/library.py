"""Measures the library beside a pipe, from Python, and prints a table:

    python3 benches/library.py MODEL [--program PATH] [--faces 20000 200000] [--steps 50]

MODEL is a stream of more faces than are to be shown. The eye goes round it as an orbit of live.py
does, with the tolerance at which the first view shows about as many faces as are asked for. A step
is a view, the whole mesh that is shown, and a pick of the ray from the eye to the middle. Each is
done by python/vdpm, with the library that it finds or that VDPM_LIBRARY names, and by the same
lines through the pipes of `vdpm live`, a program of its own: the reply to `w` is read to its end,
and then parsed to the arrays that the library fills, by numpy where it is there. Both are asked the
same, and it is looked at the end whether the arrays are equal. A cell has the median of the steps,
in milliseconds from the call, or the line that is sent, to the answer.
"""
import argparse
import array
import os
import statistics
import subprocess
import sys
import time
from pathlib import Path
from typing import Any, Callable, Dict, Iterator, List, NamedTuple, Tuple

TOP = Path(__file__).resolve().parent.parent
sys.path[:0] = [str(TOP / "python"), str(TOP / "benches")]

import vdpm  # noqa: E402
from live import ALL_MOVES, orbit  # noqa: E402
from vdpm.rooms import numpy  # noqa: E402

# The most that a line may tell, so that steps of the tolerance are fine.
FOCAL = MOST_TOLERANCE = 65535
Times = Dict[str, List[float]]


class View(NamedTuple):
    """The eye of a step, and its tolerance in pixels."""

    eye: Tuple[int, ...]
    tolerance: int

    def ray(self) -> Tuple[int, ...]:
        """The way to the middle, as short as a line may tell it."""
        return tuple(-c // 4 for c in self.eye)


class Pipe:
    """A `vdpm live` that is asked line by line."""

    def __init__(self, program: Path, model: bytes) -> None:
        self.child = subprocess.Popen([program, "live", str(ALL_MOVES)], stdin=subprocess.PIPE,
                                      stdout=subprocess.PIPE, bufsize=0)
        assert self.child.stdin and self.child.stdout
        left = memoryview(model)
        while left:
            left = left[self.child.stdin.write(left):]

    def asked(self, words: Tuple[Any, ...], end: bytes = b"\n") -> bytes:
        """Sends a line, and answers the reply, which ends so."""
        self.child.stdin.write(" ".join(map(str, words)).encode() + b"\n")
        pieces, last = [], b""
        while not last.endswith(end):
            piece = os.read(self.child.stdout.fileno(), 1 << 20)
            if not piece:
                sys.exit("library: the program ended early")
            pieces.append(piece)
            last = (last + piece)[-len(end):]
        return b"".join(pieces)

    def view(self, view: View) -> bytes:
        return self.asked(("v", *view.eye, FOCAL, view.tolerance))

    def frame(self) -> bytes:
        return self.asked(("w",), b"\nend\n")

    def pick(self, view: View) -> bytes:
        return self.asked(("p", *view.eye, *view.ray()))

    def close(self) -> None:
        self.child.stdin.write(b"q\n")
        self.child.stdin.close()
        self.child.wait()
        self.child.stdout.close()


def parsed(text: bytes) -> vdpm.Frame:
    """The arrays of a frame text."""
    if numpy is not None:
        return parsed_by_numpy(text)
    words = text.split()
    v, f = int(words[1]), int(words[2])
    middle, end = 3 + 5 * v, 3 + 5 * (v + f)
    nodes = array.array("I", map(int, words[4:middle:5]))
    rows = [words[at:middle:5] for at in (5, 6, 7)]
    places = array.array("i", (int(c) for place in zip(*rows) for c in place))
    faces = array.array("I", map(int, words[middle + 1:end:5]))
    rows = [words[middle + at:end:5] for at in (2, 3, 4)]
    corner_nodes = array.array("I", (int(n) for face in zip(*rows) for n in face))
    at = {node: position for position, node in enumerate(nodes)}
    return vdpm.Frame(nodes, places, faces, array.array("I", map(at.__getitem__, corner_nodes)),
                      corner_nodes)


def parsed_by_numpy(text: bytes) -> vdpm.Frame:
    numbers = numpy.fromstring(text.translate(None, b"aefmnrvd"), dtype=numpy.int64, sep=" ")
    v = int(numbers[0])
    points, sides = numbers[2:2 + 4 * v].reshape(-1, 4), numbers[2 + 4 * v:].reshape(-1, 4)
    nodes, corner_nodes = points[:, 0].astype(numpy.uint32), sides[:, 1:].astype(numpy.uint32)
    corners = numpy.searchsorted(nodes, corner_nodes).astype(numpy.uint32)
    return vdpm.Frame(nodes, points[:, 1:].astype(numpy.int32), sides[:, 0].astype(numpy.uint32),
                      corners, corner_nodes)


def same(left: vdpm.Frame, right: vdpm.Frame) -> bool:
    return all(bytes(memoryview(a).cast("B")) == bytes(memoryview(b).cast("B"))
               for a, b in zip(left, right))


def timed(times: List[float], call: Callable[[], Any]) -> Any:
    start = time.perf_counter()
    answer = call()
    times.append(1000 * (time.perf_counter() - start))
    return answer


def views(tolerance: int, steps: int) -> Iterator[View]:
    for step in range(steps + 1):
        yield View(tuple(map(int, orbit(step).split(" "))), tolerance)


def look(session: vdpm.Session, view: View) -> vdpm.Moved:
    return session.view(view.eye, FOCAL, view.tolerance)


def tolerance_for(session: vdpm.Session, faces: int) -> int:
    """The least tolerance at which the first view shows at most so many faces."""
    low, high = 0, MOST_TOLERANCE
    while low < high:
        middle = (low + high) // 2
        look(session, next(views(middle, 0)))
        low, high = (low, middle) if session.sizes().shown_faces <= faces else (middle + 1, high)
    return low


def by_library(session: vdpm.Session, steps: List[View]) -> Tuple[Times, vdpm.Frame]:
    """The times by the library, and the last frame. The first view makes the front, and isn't
    one of them."""
    times: Times = {"view": [], "frame": [], "pick": []}
    look(session, steps[0])
    for view in steps[1:]:
        timed(times["view"], lambda it=view: look(session, it))
        frame = timed(times["frame"], session.frame)
        timed(times["pick"], lambda it=view: session.pick(it.eye, it.ray()))
    return times, frame


def by_pipe(pipe: Pipe, steps: List[View]) -> Tuple[Times, vdpm.Frame]:
    """The same through the pipe."""
    times: Times = {"view": [], "frame": [], "pick": [], "parse": []}
    pipe.view(steps[0])
    for view in steps[1:]:
        timed(times["view"], lambda it=view: pipe.view(it))
        text = timed(times["frame"], pipe.frame)
        frame = timed(times["parse"], lambda it=text: parsed(it))
        timed(times["pick"], lambda it=view: pipe.pick(it))
    return times, frame


def rows(session: vdpm.Session, pipe: Pipe, faces: int, count: int) -> Iterator[str]:
    steps = list(views(tolerance_for(session, faces), count))
    own, frame = by_library(session, steps)
    other, told = by_pipe(pipe, steps)
    if not same(frame, told):
        sys.exit("library: the arrays differ from the frame text")
    other["frame, parsed"] = [a + b for a, b in zip(other["frame"], other.pop("parse"))]
    for name, key in (("a view", "view"), ("a frame as text, read", "frame"),
                      ("a frame as arrays", "frame, parsed"), ("a pick", "pick")):
        piped = statistics.median(other[key])
        quick = None if key == "frame" else statistics.median(own[key.split(",")[0]])
        cells = ["", f"{piped:.2f}", ""] if quick is None else [
            f"{quick:.2f}", f"{piped:.2f}", f"{piped / quick:.1f}"]
        yield f"| {len(frame.faces):,} | {name} | {' | '.join(cells)} |"


def arguments() -> argparse.Namespace:
    parser = argparse.ArgumentParser(description="Measures the library beside a pipe.")
    parser.add_argument("model", type=Path)
    parser.add_argument("--program", type=Path, default=TOP / "vdpm")
    parser.add_argument("--faces", type=int, nargs="*", default=[20000, 200000])
    parser.add_argument("--steps", type=int, default=50)
    return parser.parse_args()


def main() -> None:
    asked = arguments()
    model = asked.model.read_bytes()
    print("| faces | asked | library, ms | pipe, ms | times as quick |")
    print("|" + "---|" * 5)
    with vdpm.Session(model) as session:
        for faces in asked.faces:
            pipe = Pipe(asked.program, model)
            for row in rows(session, pipe, faces, asked.steps):
                print(row, flush=True)
            pipe.close()


if __name__ == "__main__":
    main()
