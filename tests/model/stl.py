"""What an STL file gives for `prepare`: points, of which equal ones are one, and triangles; or its
first fault, at a line of a text and else at a byte."""
import struct
from fractions import Fraction
from math import isfinite
from typing import Dict, List

from .faults import Fault
from .mesh import MOST_FACES, MOST_VERTICES, Corners, Point
from .obj import OUT_OF_RANGE, fields_of, lines_of
from .scan import GREATEST_UNITS, UNITS, Soup, decimal, empty_soup, nearest

CUT_OFF, MORE_BYTES, NOT_FINITE, TOO_LARGE = 21, 22, 23, 24
TOO_MANY_VERTICES, TOO_MANY_FACES, UNEXPECTED_WORD, BAD_NUMBER = 25, 26, 27, 28
HEAD, EACH = 84, 50  # bytes before the first facet, and of each


def begins_solid(data: bytes) -> bool:
    return data[:5].lower() == b"solid"


def facet_count(data: bytes) -> int:
    return int.from_bytes(data[80:84], "little")


def is_text(data: bytes) -> bool:
    """It begins with `solid`, and hasn't the length of a binary file."""
    whole = len(data) >= HEAD and len(data) == HEAD + EACH * facet_count(data)
    return begins_solid(data) and not whole


class Made:
    """The soup so far, and the number of each of its points."""

    def __init__(self) -> None:
        self.soup: Soup = empty_soup()
        self.number_at: Dict[Point, int] = {}

    def vertex(self, point: Point, place: str) -> int:
        if point not in self.number_at:
            if len(self.soup.points) == MOST_VERTICES:
                raise Fault(TOO_MANY_VERTICES, place)
            self.number_at[point] = len(self.soup.points)
            self.soup.points.append(point)
        return self.number_at[point]


def units_of_single(data: bytes, at: int) -> int:
    """The units of 10^-18 that four bytes are."""
    (value,) = struct.unpack_from("<f", data, at)
    if not isfinite(value):
        raise Fault(NOT_FINITE)
    units = nearest(Fraction(value) * UNITS)
    if abs(units) > GREATEST_UNITS:
        raise Fault(TOO_LARGE)
    return units


def binary_point(data: bytes, at: int) -> Point:
    """The first coordinate with a fault is named by its own byte."""
    place = at
    try:
        x = units_of_single(data, at)
        place = at + 4
        y = units_of_single(data, place)
        place = at + 8
        return x, y, units_of_single(data, place)
    except Fault as fault:
        raise Fault(fault.number, f"byte {place}") from None


def soup_of_binary(data: bytes) -> Soup:
    count = facet_count(data) if len(data) >= HEAD else 0
    whole = HEAD + EACH * count
    if len(data) < whole:
        raise Fault(CUT_OFF, f"byte {len(data)}")
    if len(data) > whole:
        raise Fault(MORE_BYTES, f"byte {whole}")
    if count > MOST_FACES:
        raise Fault(TOO_MANY_FACES, "byte 80")
    made = Made()
    for at in range(HEAD, whole, EACH):
        a, b, c = [
            made.vertex(binary_point(data, corner), f"byte {corner}")
            for corner in (at + 12, at + 24, at + 36)
        ]
        made.soup.faces.append((a, b, c))
        made.soup.passed["attributes"] += any(data[at + 48 : at + EACH])
    return made.soup


def text_units(field: bytes, place: str) -> int:
    try:
        return decimal(field)[0]
    except Fault as fault:
        number = TOO_LARGE if fault.number == OUT_OF_RANGE else BAD_NUMBER
        raise Fault(number, place) from None


class Text:
    """What comes before a line: whether a solid is open, and the words of the facet so far."""

    def __init__(self) -> None:
        self.made = Made()
        self.is_open = False
        self.step = 0  # of a facet: 0 is before one, 7 after its `endloop`
        self.corners: List[int] = []

    def take(self, fields: List[bytes], place: str) -> None:
        words = [field.lower() for field in fields]
        if self.step == 0:
            self.between(words[0], place)
            return
        if self.step in (2, 3, 4) and words[0] == b"vertex" and len(words) == 4:
            x, y, z = [text_units(field, place) for field in fields[1:]]
            self.corners.append(self.made.vertex((x, y, z), place))
        elif words != {1: [b"outer", b"loop"], 5: [b"endloop"], 6: [b"endfacet"]}.get(self.step):
            raise Fault(UNEXPECTED_WORD, place)
        self.step += 1
        if self.step == 7:
            self.end_facet(place)

    def between(self, word: bytes, place: str) -> None:
        """A line before a facet."""
        if self.is_open and word == b"facet":
            self.step = 1
        elif word == (b"endsolid" if self.is_open else b"solid"):
            self.is_open = not self.is_open
        else:
            raise Fault(UNEXPECTED_WORD, place)

    def end_facet(self, place: str) -> None:
        if len(self.made.soup.faces) == MOST_FACES:
            raise Fault(TOO_MANY_FACES, place)
        a, b, c = self.corners
        face: Corners = (a, b, c)
        self.made.soup.faces.append(face)
        self.corners, self.step = [], 0


def soup_of_stl_text(data: bytes) -> Soup:
    text, lines = Text(), lines_of(data)
    for number, line in enumerate(lines, 1):
        fields = fields_of(line[:-1] if line.endswith(b"\r") else line)
        if fields:
            text.take(fields, f"line {number}")
    if text.is_open:
        raise Fault(CUT_OFF, f"line {len(lines) + 1}")
    return text.made.soup


def soup_of_stl(data: bytes) -> Soup:
    soup = soup_of_stl_text(data) if is_text(data) else soup_of_binary(data)
    soup.passed["normals"] = len(soup.faces)
    return soup
