"""A page that needs no server: the frames of a flight in compact form, with what plays them.

The frames are written as what changes from one to the next. Numbers take one byte for each seven
bits, those that may be negative after their sign is put at the end; all is packed by zlib and
written in base64:

    the length of the head, and the head as JSON: name, how many faces the input has, whether there
        are colours, the greatest depth, and for each frame its view and the step of its geomorph
    how many points; for each, what x, y and z are more than the last point's, its depth, and its
        colour if there are colours. A point is a node at a place: in geomorphs a node has a place
        for each step. Points stand in the order in which frames have them first
    for each frame: how many nodes it has; how many faces went, and each as what it is more than
        the last; how many came or have other corners now, and for each what it is more than the
        last, and then what its first corner is more than the last face's, and its second and third
        more than the first
"""
import base64
import json
import re
import time
import zlib
from pathlib import Path
from typing import Dict, Iterable, Iterator, List, NamedTuple, Optional, Tuple

from frames import Frame, read_frames

from .bundle import bundled
from .hierarchy import Colour, mean_colours, nodes_of
from .model import SECONDS_BETWEEN_NEWS, Model, tell
from .program import ProgramEnded, reply_lines

PAGE = Path(__file__).resolve().parent / "page"
Point = Tuple[int, int, int, int]  # the node and its place
Corners = Tuple[int, int, int]


class BadFlight(Exception):
    """A script of which no film can be made; the text says why."""


class Shot(NamedTuple):
    """A frame, and the line of the view that it was asked from; empty where none came before."""

    frame: Frame
    view: str


class Numbers:
    """Whole numbers one after the other, seven bits a byte, the last byte of each below 128."""

    def __init__(self) -> None:
        self.bytes = bytearray()

    def put(self, number: int) -> None:
        while number > 127:
            self.bytes.append(128 | number & 127)
            number >>= 7
        self.bytes.append(number)

    def put_signed(self, number: int) -> None:
        self.put(2 * number if number >= 0 else -2 * number - 1)


class Played(NamedTuple):
    """A script as it is played for a film, and for each of its lines the number of the line that it
    came from, counted from 1."""

    script: str
    numbers: List[int]


def with_frames(script: str) -> Played:
    """A script that asks for a whole frame where the other asks for a change. `d` marks the front
    too, as `k` does."""
    lines: List[str] = []
    numbers: List[int] = []
    for number, line in enumerate(script.splitlines(keepends=True), 1):
        for played in ("w\n", "k\n") if line.rstrip("\n") == "d" else (line,):
            lines.append(played)
            numbers.append(number)
    return Played("".join(lines), numbers)


def told_of(fault: ProgramEnded, numbers: List[int]) -> ProgramEnded:
    """The same, with the line of the script that was given."""

    def given(found: "re.Match[str]") -> str:
        number = int(found[1])
        return f"line {numbers[number - 1] if number <= len(numbers) else number}"

    return ProgramEnded(re.sub(r"\bline (\d+)", given, fault.reason), fault.cure)


def asked_views(script: str) -> Iterator[str]:
    """For each line that asks for a frame or a geomorph, the line of the last view."""
    view = ""
    for line in script.splitlines():
        if line == "q":
            return
        if line.startswith("v"):
            view = line
        elif line == "w" or line.startswith("g "):
            yield view


def shots(script: str, replies: Iterable[str]) -> Iterator[Shot]:
    """The frames of the replies to a script, each with its view. A geomorph may be refused."""
    views = asked_views(script)
    view = ""

    def watched() -> Iterator[str]:
        nonlocal view
        for line in replies:
            if line.startswith(("frame ", "morph ", "not finer ")):
                view = next(views)
            yield line

    for frame in read_frames(watched()):
        yield Shot(frame, view)


def put_points(
    numbers: Numbers, points: Iterable[Point], depths: bytes, colours: Optional[List[Colour]]
) -> None:
    last = (0, 0, 0)
    for node, x, y, z in points:
        for now, before in zip((x, y, z), last):
            numbers.put_signed(now - before)
        numbers.put(depths[node])
        for part in colours[node] if colours else ():
            numbers.put(part)
        last = (x, y, z)


def put_frame(
    numbers: Numbers, nodes: int, before: Dict[int, Corners], now: Dict[int, Corners]
) -> None:
    """What changes from the faces of before to those of now."""
    numbers.put(nodes)
    gone = sorted(face for face in before if face not in now)
    numbers.put(len(gone))
    last = 0
    for face in gone:
        numbers.put(face - last)
        last = face
    come = sorted(face for face, corners in now.items() if before.get(face) != corners)
    numbers.put(len(come))
    last, corner = 0, 0
    for face in come:
        a, b, c = now[face]
        numbers.put(face - last)
        for number in (a - corner, b - a, c - a):
            numbers.put_signed(number)
        last, corner = face, a


class Reel:
    """Frames one after the other, each as what changes from the one before."""

    def __init__(self) -> None:
        self.slots: Dict[Point, int] = {}  # all points by where they stand, in the order they came
        self.faces: Dict[int, Corners] = {}
        self.views: List[str] = []
        self.steps: List[Optional[Tuple[int, ...]]] = []  # A and B of a geomorph's A/B
        self.changes = Numbers()

    def add(self, shot: Shot) -> None:
        frame = shot.frame
        points = ((node, x, y, z) for node, (x, y, z) in zip(frame.nodes, frame.points))
        own = [self.slots.setdefault(point, len(self.slots)) for point in points]
        corners = ((own[a], own[b], own[c]) for a, b, c in frame.faces)
        faces = dict(zip(frame.numbers, corners))
        put_frame(self.changes, len(frame.nodes), self.faces, faces)
        self.faces = faces
        self.views.append(shot.view)
        self.steps.append(frame.step)


def packed(model: Model, reel: Reel) -> bytes:
    nodes = nodes_of(model.stream)
    colours = mean_colours(nodes, model.colours)
    head = {
        "name": model.name,
        "faces": model.faces,
        "coloured": colours is not None,
        "deepest": max(1, max(nodes.depths, default=1)),
        "views": reel.views,
        "steps": reel.steps,
    }
    text = json.dumps(head).encode("ascii")
    numbers = Numbers()
    numbers.put(len(text))
    numbers.bytes += text
    numbers.put(len(reel.slots))
    put_points(numbers, reel.slots, bytes(nodes.depths), colours)
    return zlib.compress(bytes(numbers.bytes + reel.changes.bytes), 9)


def played(path: Path, model: Model, script: str, budget: int) -> Reel:
    """The frames of a script, told from time to time while they are made."""
    reel, asked = Reel(), with_frames(script)
    replies = reply_lines(path, model.stream, asked.script.encode("ascii"), budget, "live")
    told = time.monotonic()
    try:
        for shot in shots(asked.script, replies):
            reel.add(shot)
            if time.monotonic() - told > SECONDS_BETWEEN_NEWS:
                told = time.monotonic()
                tell(f"{len(reel.views)} frames so far")
    except ProgramEnded as fault:
        raise told_of(fault, asked.numbers) from fault
    return reel


def film_page(path: Path, model: Model, flight: bytes, budget: int) -> str:
    """The page that plays a flight over a model."""
    try:
        script = flight.decode("ascii")
    except UnicodeDecodeError:
        raise BadFlight("it isn't a script of `vdpm live` or `vdpm view`") from None
    reel = played(path, model, script, budget)
    if not reel.views:
        raise BadFlight("no line of it asks for a frame, as `w` and `d` do")
    page = (PAGE / "film.html").read_text(encoding="utf-8")
    parts = {
        "/*STYLE*/": (PAGE / "style.css").read_text(encoding="utf-8"),
        "/*SCRIPT*/": bundled(PAGE / "film.js"),
        "FRAMES": base64.b64encode(packed(model, reel)).decode("ascii"),
    }
    for mark, text in parts.items():
        page = page.replace(mark, text, 1)
    return page
