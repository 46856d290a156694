"""The scripts of `view` and `live`: what each line asks for, and its reply. Scripts of more than
2^30 bytes aren't modelled."""
import re
from typing import List, NamedTuple, Optional, Set, Tuple

from .faults import Fault
from .front import collapse_reply, split_reply
from .hierarchy import Hierarchy
from .mesh import Point
from .obj import lines_of
from .pick import Ray, pick_text
from .shown import change_text, frame_text, level_text, morph_text, shape_text, strips_text
from .views import View, after, plan, target_of

BAD_LINE, NO_RECORD = 30, 31

MOST_LINE_BYTES = 1_024
GREATEST_NUMBER = 2**32 - 1
GREATEST_EYE_COORDINATE = 16_777_215
GREATEST_FOCAL = 65_535
GREATEST_NORMAL = 32_767
GREATEST_OFFSET = 2**42
GREATEST_PARTS = 65_535
MOST_PLANES = 6


class Served(NamedTuple):
    """The replies, and the fault that ended the script, if one did."""

    replies: str
    fault: Optional[Fault]


def words_of(text: bytes) -> List[bytes]:
    """The words of a line, with one space between them."""
    if len(text) > MOST_LINE_BYTES:
        raise Fault(BAD_LINE)
    return text.split(b" ")


def unsigned(field: bytes, most: int) -> int:
    """Digits without leading zeros."""
    if not re.fullmatch(rb"0|[1-9][0-9]*", field) or int(field) > most:
        raise Fault(BAD_LINE)
    return int(field)


def signed(field: bytes, most: int) -> int:
    """An unsigned number, or `-` and one that isn't 0."""
    if not field.startswith(b"-"):
        return unsigned(field, most)
    number = unsigned(field[1:], most)
    if number == 0:
        raise Fault(BAD_LINE)
    return -number


def three(fields: List[bytes], most: int) -> Point:
    x, y, z = [signed(field, most) for field in fields]
    return x, y, z


def plane_read(fields: List[bytes]) -> Tuple[Point, int]:
    return three(fields[:3], GREATEST_NORMAL), signed(fields[3], GREATEST_OFFSET)


def view_read(fields: List[bytes], has_outline: bool) -> View:
    """The eye, the focal length, the tolerance, that for outlines, and up to six planes."""
    count = 6 if has_outline else 5
    rest = fields[count:]
    if len(fields) < count or len(rest) % 4 or len(rest) > 4 * MOST_PLANES:
        raise Fault(BAD_LINE)
    eye = three(fields[:3], GREATEST_EYE_COORDINATE)
    focal, tol = unsigned(fields[3], GREATEST_FOCAL), unsigned(fields[4], GREATEST_FOCAL)
    sil = unsigned(fields[5], tol) if has_outline else tol
    planes = [plane_read(rest[i : i + 4]) for i in range(0, len(rest), 4)]
    return View(eye, focal, tol, sil, planes)


def ray_read(fields: List[bytes]) -> Ray:
    """The origin and the way, which isn't 0."""
    if len(fields) != 6:
        raise Fault(BAD_LINE)
    ray = Ray(three(fields[:3], GREATEST_EYE_COORDINATE), three(fields[3:], GREATEST_NORMAL))
    if not any(ray.way):
        raise Fault(BAD_LINE)
    return ray


def number_read(fields: List[bytes]) -> int:
    if len(fields) != 1:
        raise Fault(BAD_LINE)
    return unsigned(fields[0], GREATEST_NUMBER)


def record_read(h: Hierarchy, fields: List[bytes]) -> int:
    k = number_read(fields)
    if k >= len(h.records):
        raise Fault(NO_RECORD)
    return k


def morph_read(fields: List[bytes]) -> Tuple[int, int]:
    """A and B, with A at most B and B from 1."""
    if len(fields) != 2:
        raise Fault(BAD_LINE)
    b = unsigned(fields[1], GREATEST_PARTS)
    if b == 0:
        raise Fault(BAD_LINE)
    return unsigned(fields[0], b), b


class Session:
    """A front with its marks, for a script of `view`. `reply` does one line."""

    def __init__(self, h: Hierarchy, budget: int) -> None:
        self.hierarchy = h
        self.budget = budget
        self.split: Set[int] = set()
        self.marked: Set[int] = set()

    def reply(self, text: bytes) -> str:
        """The reply to a line that isn't `q`."""
        word, *fields = words_of(text)
        if word in (b"s", b"c"):
            return self.move(word, record_read(self.hierarchy, fields))
        if word in (b"v", b"vs"):
            return self.adapt(view_read(fields, word == b"vs"))
        if word == b"p":
            return pick_text(self.hierarchy, ray_read(fields))
        if word == b"g":
            return morph_text(self.hierarchy, self.split, self.marked, *morph_read(fields))
        if text == b"k":
            self.marked = set(self.split)
            return "ok\n"
        texts = {b"w": frame_text, b"m": shape_text, b"t": strips_text}
        if text not in texts:
            raise Fault(BAD_LINE)
        return texts[text](self.hierarchy, self.split)

    def move(self, word: bytes, k: int) -> str:
        """A split or a collapse of record k, if it is legal."""
        may = split_reply if word == b"s" else collapse_reply
        reply = may(self.hierarchy, self.split, k)
        if reply == "ok":
            self.split ^= {k}
        return reply + "\n"

    def adapt(self, view: View) -> str:
        """The first moves of the plan for a view, as many as the budget has."""
        moves = plan(self.split, target_of(self.hierarchy, view))
        self.split = after(self.split, moves[: self.budget])
        if len(moves) <= self.budget:
            return f"settled {len(moves)}\n"
        return f"spent {self.budget} {len(moves) - self.budget}\n"


class LiveSession(Session):
    """The same for a script of `live`, which has lines more."""

    def reply(self, text: bytes) -> str:
        word, *fields = words_of(text)
        if word == b"b":
            self.budget = number_read(fields)
            return "ok\n"
        if word in (b"vd", b"vds"):
            return self.adapt(view_read(fields, word == b"vds")._replace(is_by_deviation=True))
        if text == b"l":
            return level_text(self.hierarchy, self.split)
        if text == b"d":
            change = change_text(self.hierarchy, self.marked, self.split)
            self.marked = set(self.split)
            return change
        return super().reply(text)


def serve(session: Session, script: bytes) -> Served:
    """The replies to the lines up to `q`, a fault or the end."""
    replies = ""
    for number, text in enumerate(lines_of(script), 1):
        if text == b"q":
            break
        try:
            replies += session.reply(text)
        except Fault as fault:
            return Served(replies, Fault(fault.number, f"line {number}"))
    return Served(replies, None)
