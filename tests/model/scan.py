"""What any OBJ text spells for `prepare`: points, triangles, polygons among them, and what was
passed over.

Numbers may have decimals and exponents, faces any number of corners, and a line that ends in a
backslash is continued by the next. A byte order mark before the first line is passed over. Points
count units of 10^-18.
"""
import re
from fractions import Fraction
from typing import Counter, List, NamedTuple, Tuple

from .faults import Fault
from .mesh import MOST_FACES, MOST_VERTICES, Corners, Point
from .obj import (
    BAD_NUMBER,
    CONTINUED,
    MOST_LINE_BYTES,
    OUT_OF_RANGE,
    TOO_FEW_FIELDS,
    TOO_LONG,
    TOO_MANY,
    content_of,
    fields_of,
    lines_of,
    vertex_named,
)
from .polygons import Polygon, fan

SIXTEEN_BITS, LONE_RETURN, GARBLED_WORD = 10, 11, 13
BYTE_ORDER_MARK = b"\xef\xbb\xbf"

GREATEST_EXPONENT = 999
UNITS = 10**18
GREATEST_UNITS = 10**32


# What lines are by their first word.
KINDS = {
    "texture places": b"vt",
    "normals": b"vn",
    "groups": b"g o s mg",
    "materials": b"usemtl mtllib usemap maplib bevel c_interp d_interp lod shadow_obj trace_obj"
    b" ctech stech",
    "lines and points": b"l p",
    "curves and surfaces": b"curv curv2 surf vp cstype deg bmat step parm trim hole scrv sp end"
    b" con",
    "calls": b"call csh",
}
KIND_OF = {word: kind for kind, words in KINDS.items() for word in words.split()}
PASSED_OVER = ["weights", "colours", *KINDS]
OF_FILES = ["attributes", "other properties", "other elements"]  # of no OBJ text


class Soup(NamedTuple):
    points: List[Point]
    faces: List[Corners]
    polygons: List[Polygon]
    passed: Counter[str]  # how much of each kind was passed over
    others: List[int]  # the lines that begin otherwise
    inexact: List[int]  # the points that aren't exactly what was read


def empty_soup() -> Soup:
    return Soup([], [], [], Counter(), [], [])


def nearest(value: Fraction) -> int:
    """The nearest whole number, halves away from 0."""
    size = int(abs(value) + Fraction(1, 2))
    return -size if value < 0 else size


def decimal(field: bytes) -> Tuple[int, bool]:
    """The units of 10^-18 that a field spells, and whether exactly so many."""
    form = re.fullmatch(rb"([+-]?)([0-9]*)(?:\.([0-9]*))?(?:[eE]([+-]?)([0-9]+))?", field)
    if form is None or not (form[2] or form[3]):
        raise Fault(BAD_NUMBER)
    exponent, decimals = int(form[5] or b"0"), form[3] or b""
    if exponent > GREATEST_EXPONENT:
        raise Fault(OUT_OF_RANGE)
    shift = (-exponent if form[4] == b"-" else exponent) - len(decimals)
    value = Fraction(int(form[2] + decimals)) * Fraction(10) ** shift * UNITS
    units = nearest(value)
    if units > GREATEST_UNITS:
        raise Fault(OUT_OF_RANGE)
    return (-units if form[1] == b"-" else units), units == value


def is_weight(field: bytes) -> bool:
    """The field is a number, and not 1."""
    try:
        return decimal(field)[0] != UNITS
    except Fault as fault:
        return fault.number == OUT_OF_RANGE


def begun_least(points: List[Point], corners: List[int]) -> List[int]:
    """A polygon of more than three corners begins at the first whose point is least by x, then y,
    then z."""
    least = min(range(len(corners)), key=lambda i: points[corners[i]])
    return corners[least:] + corners[:least]


def passed_after_place(fields: List[bytes]) -> List[str]:
    """What stands after the three coordinates of a vertex."""
    if len(fields) == 1 and is_weight(fields[0]):
        return ["weights"]
    return ["colours"] if len(fields) > 2 else []


def pass_over(soup: Soup, word: bytes, number: int) -> None:
    """Counts a line that is neither a vertex nor a face."""
    common = (b"v", b"vt", b"vn", b"f")
    if word not in common and re.sub(rb"[^A-Za-z]", b"", word) in common:
        raise Fault(GARBLED_WORD)
    if word in KIND_OF:
        soup.passed[KIND_OF[word]] += 1
    else:
        soup.others.append(number)


def take(soup: Soup, text: bytes, number: int) -> None:
    """Adds what the line with this number gives, which stands here with those that it continues."""
    word, *fields = fields_of(text) or [b""]
    if word in (b"v", b"f") and len(fields) < 3:
        raise Fault(TOO_FEW_FIELDS)
    if word == b"v":
        (x, *of_x), (y, *of_y), (z, *of_z) = [decimal(field) for field in fields[:3]]
        if len(soup.points) == MOST_VERTICES:
            raise Fault(TOO_MANY)
        if not all(of_x + of_y + of_z):
            soup.inexact.append(len(soup.points))
        soup.points.append((x, y, z))
        soup.passed.update(passed_after_place(fields[3:]))
    elif word == b"f":
        corners = [vertex_named(field, len(soup.points)) for field in fields]
        if len(soup.faces) + len(corners) - 2 > MOST_FACES:
            raise Fault(TOO_MANY)
        if len(corners) > 3:
            corners = begun_least(soup.points, corners)
            soup.polygons.append(Polygon(len(soup.faces), corners))
        soup.faces.extend(fan(corners))
    elif word:
        pass_over(soup, word, number)


def read_of(number: int, line: bytes) -> bytes:
    """What is read of the line with this number, where its form is right."""
    content = content_of(line)
    if number == 1 and content[:2] in (b"\xff\xfe", b"\xfe\xff"):
        raise Fault(SIXTEEN_BITS, f"line {number}")
    if b"\r" in line[:-1]:
        raise Fault(LONE_RETURN, f"line {number}")
    marked = number == 1 and content.startswith(BYTE_ORDER_MARK)
    return content[len(BYTE_ORDER_MARK) :] if marked else content


def soup_of_text(text: bytes) -> Soup:
    """The points and triangles of a text, or the first fault of its first line with one. Of lines
    that go together the first is named."""
    soup, begun, first = empty_soup(), b"", 1
    for number, line in enumerate(lines_of(text), 1):
        if len(line) > MOST_LINE_BYTES:
            raise Fault(TOO_LONG, f"line {number}")
        content = read_of(number, line)
        begun += content
        if len(begun) > MOST_LINE_BYTES:
            raise Fault(TOO_LONG, f"line {first}")
        if content.endswith(b"\\"):
            begun = begun[:-1] + b" "
            continue
        try:
            take(soup, begun, first)
        except Fault as fault:
            raise Fault(fault.number, f"line {first}") from None
        begun, first = b"", number + 1
    if first <= len(lines_of(text)):
        raise Fault(CONTINUED, f"line {first}")
    return soup
