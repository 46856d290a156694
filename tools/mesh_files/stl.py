"""Reads STL files, ascii and binary. Corners at one place are one point."""
import struct
from typing import BinaryIO, Dict, Iterator, List, Tuple

from .soup import MeshFault, Soup, finite

HEAD, EACH = 84, 50  # bytes
_COUNT = struct.Struct("<I")
_BLOCK = 4096  # triangles
_FORM = ("facet", "outer", "vertex", "vertex", "vertex", "endloop", "endfacet")
Point = Tuple[float, ...]


def is_binary(head: bytes, size: int) -> bool:
    """Whether a file is as long as its count of triangles tells."""
    return len(head) >= HEAD and size == HEAD + EACH * _COUNT.unpack_from(head, 80)[0]


class _Joined:
    """A soup whose points are told apart by their places; in one that is in files, which is joined
    later, each corner is a point of its own."""

    def __init__(self, soup: Soup) -> None:
        self.soup = soup
        self.number_at: Dict[Point, int] = {}

    def corner(self, point: Point) -> int:
        new = found = self.soup.count
        if not self.soup.is_filed:
            found = self.number_at.setdefault(point, new)
        if found == new:
            self.soup.points.extend(finite(point))
        return found


def read_binary(file: BinaryIO, _: int, soup: Soup) -> None:
    head = file.read(HEAD)
    count = _COUNT.unpack_from(head, 80)[0]
    made = _Joined(soup)
    made.soup.is_binary = True
    triangle = struct.Struct("<12x9fH")
    for start in range(0, count, _BLOCK):
        block = file.read(EACH * min(_BLOCK, count - start))
        for number, numbers in enumerate(triangle.iter_unpack(block), start):
            try:
                corners = [made.corner(numbers[i : i + 3]) for i in (0, 3, 6)]
            except MeshFault as fault:
                raise MeshFault(f"triangle {number + 1}, byte {HEAD + EACH * number}: {fault}")
            made.soup.corners.extend(corners)
            made.soup.pass_over("facet attributes", numbers[9] != 0)


def _lines(file: BinaryIO) -> Iterator[Tuple[int, List[bytes]]]:
    for number, line in enumerate(file, 1):
        fields = line.split()
        if fields:
            yield number, fields


def _point(fields: List[bytes]) -> Point:
    try:
        x, y, z = finite(map(float, fields[1:]))
    except ValueError:
        raise MeshFault("a vertex has three numbers") from None
    return x, y, z


def _facet(lines: Iterator[Tuple[int, List[bytes]]], made: _Joined, first: int) -> None:
    """The lines of a facet after its first one."""
    corners: List[int] = []
    number = first
    for wanted in _FORM[1:]:
        number, fields = next(lines, (number, [b"the end"]))
        word = fields[0].lower().decode("ascii", "replace")
        if word != wanted:
            raise MeshFault(f"line {number}: `{wanted}` was to come, and `{word[:20]}` came")
        if word == "vertex":
            try:
                corners.append(made.corner(_point(fields)))
            except MeshFault as fault:
                raise MeshFault(f"line {number}: {fault}") from None
    made.soup.corners.extend(corners)


def read_text(file: BinaryIO, _: int, soup: Soup) -> None:
    made = _Joined(soup)
    lines = _lines(file)
    is_open = False
    for number, fields in lines:
        word = fields[0].lower()
        if word == b"facet" and is_open:
            _facet(lines, made, number)
        elif word == (b"endsolid" if is_open else b"solid"):
            is_open = not is_open
        else:
            came = word.decode("ascii", "replace")[:20]
            raise MeshFault(f"line {number}: `{came}` has no place there in an STL text")
    if is_open:
        raise MeshFault("the text is cut off: it has no `endsolid` at its end")
