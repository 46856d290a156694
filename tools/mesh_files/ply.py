"""Reads PLY 1.0: ascii, and binary of both orders of bytes."""
import re
import struct
from dataclasses import dataclass
from typing import BinaryIO, Iterator, List, NamedTuple, Optional, Tuple, Union

from .soup import MeshFault, Soup, finite

_LETTERS = {
    "char": "b", "int8": "b", "uchar": "B", "uint8": "B", "short": "h", "int16": "h",
    "ushort": "H", "uint16": "H", "int": "i", "int32": "i", "uint": "I", "uint32": "I",
    "float": "f", "float32": "f", "double": "d", "float64": "d",
}
_ORDERS = {"ascii": "", "binary_little_endian": "<", "binary_big_endian": ">"}
_INDICES = ("vertex_indices", "vertex_index")
_KINDS = {
    "normals": "nx ny nz",
    "vertex colours": "red green blue alpha r g b a diffuse_red diffuse_green diffuse_blue",
    "texture coordinates": "s t u v texture_u texture_v texcoord texnumber",
}
_KIND_OF = {name: kind for kind, names in _KINDS.items() for name in names.split()}
_COLOURS = (
    ("red", "green", "blue"), ("r", "g", "b"), ("diffuse_red", "diffuse_green", "diffuse_blue"),
)
_ALPHA = ("alpha", "a")
_LONGEST_HEAD = 65_536
Number = Union[int, float]


class Property(NamedTuple):
    name: str
    letter: str  # of a number, as `struct` has it
    counter: str = ""  # of the count before a list


@dataclass(frozen=True)
class Element:
    name: str
    count: int
    properties: List[Property]

    @property
    def letters(self) -> Optional[str]:
        """The letters of all numbers; None where there is a list."""
        if any(one.counter for one in self.properties):
            return None
        return "".join(one.letter for one in self.properties)


class Head(NamedTuple):
    order: str  # of bytes, as `struct` has it; empty for ascii
    elements: List[Element]
    lines: int


def _property(words: List[str]) -> Property:
    types = words[2:4] if words[1] == "list" else words[1:2]
    if len(words) != len(types) + (3 if words[1] == "list" else 2):
        raise MeshFault("a property has a type and a name, or `list`, two types and a name")
    for kind in types:
        if kind not in _LETTERS:
            raise MeshFault(f"{kind!r} is no type of PLY 1.0")
    letters = [_LETTERS[kind] for kind in types]
    if len(letters) == 2 and letters[0] in "fd":
        raise MeshFault("a list is counted by whole numbers")
    return Property(words[-1], letters[-1], letters[0] if len(letters) == 2 else "")


def _take(words: List[str], elements: List[Element]) -> str:
    """What a line of the head tells; the order of bytes where it is the format's line."""
    if words[0] == "format":
        if len(words) != 3 or words[1] not in _ORDERS or words[2] != "1.0":
            raise MeshFault(f"{' '.join(words[1:])!r} is no format of PLY 1.0")
        return words[1]
    if words[0] == "element" and len(words) == 3 and words[2].isdigit():
        elements.append(Element(words[1], int(words[2]), []))
    elif words[0] == "property" and elements and len(words) > 2:
        elements[-1].properties.append(_property(words))
    elif words[0] not in ("comment", "obj_info"):
        raise MeshFault(f"{' '.join(words)[:40]!r} is no line of a PLY head")
    return ""


def read_head(file: BinaryIO) -> Head:
    elements: List[Element] = []
    form, number = "", 1
    file.readline()
    while True:
        number += 1
        line = file.readline(_LONGEST_HEAD)
        words = line.decode("latin-1").split()
        if words == ["end_header"]:
            break
        if not line:
            raise MeshFault(f"line {number}: the head has no `end_header`")
        try:
            form = _take(words or ["comment"], elements) or form
        except MeshFault as fault:
            raise MeshFault(f"line {number}: {fault}") from None
    if not form:
        raise MeshFault(f"line {number}: the head tells no format")
    _judge(elements)
    return Head(_ORDERS[form], elements, number)


def _judge(elements: List[Element]) -> None:
    """Whether there are vertices with places, and faces with corners."""
    by_name = {element.name: element for element in elements}
    if "tristrips" in by_name and "face" not in by_name:
        raise MeshFault("its triangles are strips (`tristrips`), which aren't read: write faces")
    if "vertex" not in by_name:
        raise MeshFault("the head has no element `vertex`")
    single = [one.name for one in by_name["vertex"].properties if not one.counter]
    for axis in "xyz":
        if single.count(axis) != 1:
            raise MeshFault(f"a vertex has no one property `{axis}` that is a number")
    if "face" not in by_name:
        raise MeshFault("it has no faces: points alone are no mesh")
    lists = [one for one in by_name["face"].properties if one.name in _INDICES and one.counter]
    if len(lists) != 1 or lists[0].letter in "fd":
        raise MeshFault("a face has no one list `vertex_indices` of whole numbers")


# --- the numbers of an element: those of a property that is a list stand as one list

Row = List[Union[Number, Tuple[Number, ...]]]


class _Rows:
    """The rows of an element, each with its place in the file."""

    def rows(self, element: Element) -> Iterator[Tuple[str, Row]]:
        raise NotImplementedError


class _Text(_Rows):
    """Rows of an ascii file, an element a line."""

    def __init__(self, file: BinaryIO, lines: int) -> None:
        self.file, self.number = file, lines

    def rows(self, element: Element) -> Iterator[Tuple[str, Row]]:
        for k in range(element.count):
            place, row = self._row(element, k)
            yield place, row

    def _fields(self, element: Element, k: int) -> List[bytes]:
        while True:
            line = self.file.readline()
            self.number += 1
            if not line:
                raise MeshFault(
                    f"line {self.number}: the text ends before {element.name} {k + 1} of"
                    f" {element.count}"
                )
            fields = line.split()
            if fields:
                return fields

    def _row(self, element: Element, k: int) -> Tuple[str, Row]:
        fields = self._fields(element, k)
        place = f"line {self.number}"
        row: Row = []
        at = 0
        try:
            for one in element.properties:
                if one.counter:
                    count = _whole(fields[at])
                    part = fields[at + 1 : at + 1 + count]
                    if count < 0 or len(part) != count:
                        raise IndexError
                    row.append(tuple(_number(field, one.letter) for field in part))
                    at += 1 + count
                else:
                    row.append(_number(fields[at], one.letter))
                    at += 1
        except IndexError:
            raise MeshFault(f"{place}: {element.name} {k + 1} has too few numbers") from None
        except ValueError:
            raise MeshFault(f"{place}: {element.name} {k + 1} has a wrong number") from None
        if at != len(fields):
            raise MeshFault(f"{place}: {element.name} {k + 1} has more numbers than the head tells")
        return place, row


_WHOLE = re.compile(rb"[+-]?[0-9]+")


def _whole(field: bytes) -> int:
    if not _WHOLE.fullmatch(field):
        raise ValueError
    return int(field)


def _number(field: bytes, letter: str) -> Number:
    if letter not in "fd":
        return _whole(field)
    if b"_" in field:
        raise ValueError
    return float(field)


class _Binary(_Rows):
    """Rows of a binary file of so many bytes."""

    def __init__(self, file: BinaryIO, order: str, size: int) -> None:
        self.file, self.order, self.left = file, order, size - file.tell()

    def take(self, count: int, element: Element, k: int) -> bytes:
        self.left -= count
        if self.left < 0:
            raise MeshFault(
                f"byte {self.file.tell()}: the data end before {element.name} {k + 1} of"
                f" {element.count}"
            )
        return self.file.read(count)

    def rows(self, element: Element) -> Iterator[Tuple[str, Row]]:
        if element.letters is None:
            for k in range(element.count):
                at = self.file.tell()
                yield f"byte {at}", self._row(element, k)
            return
        form = struct.Struct(self.order + element.letters)
        for k in range(element.count):
            yield f"byte {self.file.tell()}", list(form.unpack(self.take(form.size, element, k)))

    def _row(self, element: Element, k: int) -> Row:
        row: Row = []
        for one in element.properties:
            count: Number = 1
            if one.counter:
                (count,) = self._numbers(one.counter, 1, element, k)
                if count < 0:
                    raise MeshFault(f"byte {self.file.tell()}: a list has {count} numbers")
            numbers = self._numbers(one.letter, int(count), element, k)
            row.append(numbers if one.counter else numbers[0])
        return row

    def _numbers(self, letter: str, count: int, element: Element, k: int) -> Tuple[Number, ...]:
        size = count * struct.calcsize("=" + letter)
        return struct.unpack(f"{self.order}{count}{letter}", self.take(size, element, k))


def colours_of(element: Element) -> Tuple[str, ...]:
    """The names of the properties that are the colour of a vertex; none where there is no one."""
    single = {one.name for one in element.properties if not one.counter}
    return next((names for names in _COLOURS if single.issuperset(names)), ())


def _byte(part: Number, letter: str) -> int:
    """A part of a colour, which is from 0 to 1 where it has decimals, and else to 255 or 65,535."""
    if letter in "fd":
        return round(255 * min(1.0, max(0.0, part))) if part == part else 0
    return min(255, max(0, int(part) >> (8 if letter == "H" else 0)))


def _add_vertices(
    soup: Soup, rows: Iterator[Tuple[str, Row]], element: Element, colours: Tuple[str, ...]
) -> None:
    names = [one.name for one in element.properties]
    x, y, z = (names.index(axis) for axis in "xyz")
    parts = [(names.index(name), element.properties[names.index(name)].letter) for name in colours]
    for place, row in rows:
        try:
            soup.points.extend(finite((row[x], row[y], row[z])))  # type: ignore[arg-type]
        except MeshFault as fault:
            raise MeshFault(f"{place}: {fault}") from None
        for at, letter in parts:
            soup.colours.append(_byte(row[at], letter))  # type: ignore[arg-type]


def _add_faces(soup: Soup, rows: Iterator[Tuple[str, Row]], element: Element, most: int) -> None:
    at = next(k for k, one in enumerate(element.properties) if one.name in _INDICES)
    for number, (place, row) in enumerate(rows, 1):
        named = row[at]
        assert isinstance(named, tuple)
        if len(named) < 3:
            raise MeshFault(f"{place}: face {number} has {len(named)} corners")
        if min(named) < 0 or max(named) >= most:
            wrong = next(v for v in named if not 0 <= v < most)
            raise MeshFault(
                f"{place}: face {number} names vertex {wrong}, and there are {most}, from 0"
            )
        soup.add_polygon([int(v) for v in named])


def _pass_over(soup: Soup, element: Element, read: Tuple[str, ...]) -> None:
    kinds = {
        _KIND_OF.get(one.name, f"{one.name} properties")
        for one in element.properties if one.name not in read
    }
    for kind in sorted(kinds):
        soup.pass_over(kind, element.count)


def read(file: BinaryIO, size: int, soup: Soup) -> None:
    head = read_head(file)
    soup.is_binary = bool(head.order)
    rows = _Binary(file, head.order, size) if head.order else _Text(file, head.lines)
    most = next(element.count for element in head.elements if element.name == "vertex")
    for element in head.elements:
        if element.name == "vertex":
            colours = () if soup.is_filed else colours_of(element)
            _add_vertices(soup, rows.rows(element), element, colours)
            _pass_over(soup, element, ("x", "y", "z", *colours, *(_ALPHA if colours else ())))
        elif element.name == "face":
            _add_faces(soup, rows.rows(element), element, most)
            _pass_over(soup, element, _INDICES)
        else:
            soup.pass_over(f"{element.name} elements", sum(1 for _ in rows.rows(element)))
