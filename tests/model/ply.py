"""What a PLY file 1.0 gives for `prepare`: points, triangles and polygons; or its first fault, at a
line of the header or of a text, and else at a byte."""
import re
import struct
from fractions import Fraction
from math import isfinite
from typing import Counter, List, NamedTuple, Optional, Tuple

from .faults import Fault
from .mesh import MOST_FACES, MOST_VERTICES
from .obj import OUT_OF_RANGE, fields_of, lines_of
from .polygons import Polygon, fan
from .scan import GREATEST_UNITS, UNITS, Soup, begun_least, decimal, empty_soup, nearest

NOT_PLY, CUT_OFF, UNEXPECTED_LINE, UNKNOWN_FORMAT, UNKNOWN_TYPE, BAD_NUMBER = range(41, 47)
UNEXPECTED_PROPERTY, MISSING_PROPERTY, UNEXPECTED_ELEMENT, NO_VERTICES = range(47, 51)
TRIANGLE_STRIPS, TOO_MANY_VERTICES, TOO_MANY_TRIANGLES, BAD_INDEX = range(51, 55)
NOT_FINITE, TOO_LARGE = 55, 56

TYPES = {
    b"char": "b", b"int8": "b", b"uchar": "B", b"uint8": "B",
    b"short": "h", b"int16": "h", b"ushort": "H", b"uint16": "H",
    b"int": "i", b"int32": "i", b"uint": "I", b"uint32": "I",
    b"float": "f", b"float32": "f", b"double": "d", b"float64": "d",
}  # fmt: skip
ORDERS = {b"ascii": "", b"binary_little_endian": "<", b"binary_big_endian": ">"}
INDICES = (b"vertex_indices", b"vertex_index")
PARTS = {
    "normals": b"nx ny nz",
    "colours": b"red green blue alpha r g b a diffuse_red diffuse_green diffuse_blue",
    "texture places": b"s t u v texture_u texture_v texcoord texnumber",
}
PART_OF = {name: kind for kind, names in PARTS.items() for name in names.split()}
READ = {b"vertex": (b"x", b"y", b"z"), b"face": INDICES}
KINDS = {b"vertex": list(PARTS), b"face": ["texture places"]}


class Property(NamedTuple):
    name: bytes
    item: str  # the type of its numbers, as `struct` has it
    length: Optional[str] = None  # of a list: the type of its count


class Element(NamedTuple):
    name: bytes
    total: int
    properties: List[Property]

    def fits(self, new: Property) -> bool:
        """Whether a property may stand there after those that do."""
        if self.name == b"vertex" and new.name in (b"x", b"y", b"z"):
            return new.length is None and all(old.name != new.name for old in self.properties)
        if self.name == b"face" and new.name in INDICES:
            is_whole = new.length is not None and new.item not in "fd"
            return is_whole and all(old.name not in INDICES for old in self.properties)
        return True

    def is_complete(self) -> bool:
        names = {one.name for one in self.properties}
        if self.name == b"vertex":
            return names >= {b"x", b"y", b"z"}
        return self.name != b"face" or bool(names.intersection(INDICES))


class Header(NamedTuple):
    order: str  # of bytes, as `struct` has it; empty for a text
    elements: List[Element]
    size: int  # its bytes


def unsigned(field: bytes) -> int:
    """A number of 32 bits without leading zeros."""
    if not re.fullmatch(rb"0|[1-9][0-9]*", field) or int(field) >= 2**32:
        raise Fault(BAD_NUMBER)
    return int(field)


def property_of(words: List[bytes]) -> Property:
    """The words after `property`: a type and a name, or `list`, two types and a name."""
    is_list = words[:1] == [b"list"]
    if len(words) != (4 if is_list else 2):
        raise Fault(UNEXPECTED_LINE)
    types = [TYPES.get(word, "") for word in words[1 if is_list else 0 : -1]]
    if not all(types) or (is_list and types[0] in "fd"):
        raise Fault(UNKNOWN_TYPE)
    return Property(words[-1], types[-1], types[0] if is_list else None)


def element_of(words: List[bytes], before: List[Element]) -> Element:
    """The words after `element`: a name and a count."""
    if len(words) != 2:
        raise Fault(UNEXPECTED_LINE)
    if before and not before[-1].is_complete():
        raise Fault(MISSING_PROPERTY)
    if words[0] == b"tristrips":
        raise Fault(TRIANGLE_STRIPS)
    new, names = Element(words[0], unsigned(words[1]), []), [old.name for old in before]
    if new.name in (b"vertex", b"face") and new.name in names:
        raise Fault(UNEXPECTED_ELEMENT)
    if new.name == b"face" and b"vertex" not in names:
        raise Fault(UNEXPECTED_ELEMENT)
    if new.name == b"vertex" and new.total > MOST_VERTICES:
        raise Fault(TOO_MANY_VERTICES)
    return new


def format_of(words: List[bytes], before: Optional[str]) -> str:
    """The order that the words after `format` tell."""
    if len(words) != 2:
        raise Fault(UNEXPECTED_LINE)
    if words[1] != b"1.0":
        raise Fault(UNKNOWN_FORMAT)
    if before is not None:
        raise Fault(UNEXPECTED_LINE)
    if words[0] not in ORDERS:
        raise Fault(UNKNOWN_FORMAT)
    return ORDERS[words[0]]


class Lines:
    """What the lines of a header say so far."""

    def __init__(self) -> None:
        self.order: Optional[str] = None
        self.elements: List[Element] = []

    def take(self, word: bytes, more: List[bytes]) -> None:
        if word in (b"comment", b"obj_info"):
            return
        if word == b"format":
            self.order = format_of(more, self.order)
        elif word == b"element":
            self.elements.append(element_of(more, self.elements))
        elif word == b"property":
            new = property_of(more)
            if not self.elements or not self.elements[-1].fits(new):
                raise Fault(UNEXPECTED_PROPERTY)
            self.elements[-1].properties.append(new)
        else:
            raise Fault(UNEXPECTED_LINE)

    def ended(self, size: int) -> Header:
        if self.elements and not self.elements[-1].is_complete():
            raise Fault(MISSING_PROPERTY)
        if all(element.name != b"vertex" for element in self.elements):
            raise Fault(NO_VERTICES)
        if self.order is None:
            raise Fault(UNKNOWN_FORMAT)
        return Header(self.order, self.elements, size)


def header_of(data: bytes) -> Header:
    said, size, number = Lines(), 0, 0
    try:
        for number, line in enumerate(lines_of(data), 1):
            size += len(line) + 1
            words = fields_of(line[:-1] if line.endswith(b"\r") else line)
            if number == 1 and words != [b"ply"]:
                raise Fault(NOT_PLY)
            if words == [b"end_header"]:
                return said.ended(size)
            if words and number > 1:
                said.take(words[0], words[1:])
    except Fault as fault:
        raise Fault(fault.number, f"line {number}") from None
    raise Fault(CUT_OFF, f"line {number + 1}")


class Items:
    """The numbers after a header, one after the other."""

    def __init__(self, data: bytes, header: Header) -> None:
        self.data, self.order, self.at = data, header.order, header.size

    def place(self, at: int) -> str:
        return f"byte {at}" if self.order else f"line {1 + self.data[:at].count(10)}"

    def fault(self, number: int, at: int) -> Fault:
        return Fault(number, self.place(at))

    def next(self, kind: str) -> Tuple[int, bytes]:
        """Where the next number stands, and what it is written as."""
        if self.order:
            at, end = self.at, self.at + struct.calcsize("=" + kind)
        else:
            found = re.compile(rb"[ \t\r\n]*([^ \t\r\n]*)").match(self.data, self.at)
            assert found
            at, end = found.span(1)
        if end > len(self.data) or at == end:
            raise self.fault(CUT_OFF, len(self.data))
        self.at = end
        return at, self.data[at:end]

    def coordinate(self, kind: str) -> int:
        at, field = self.next(kind)
        try:
            return self.binary_units(kind, field) if self.order else text_units(field)
        except Fault as fault:
            raise self.fault(fault.number, at) from None

    def binary_units(self, kind: str, field: bytes) -> int:
        (value,) = struct.unpack(self.order + kind, field)
        if not isfinite(value):
            raise Fault(NOT_FINITE)
        units = nearest(Fraction(value) * UNITS)
        if abs(units) > GREATEST_UNITS:
            raise Fault(TOO_LARGE)
        return units

    def whole(self, kind: str, below: int) -> int:
        """A whole number from 0 on; BAD_INDEX where it isn't below this one."""
        at, field = self.next(kind)
        try:
            number = struct.unpack(self.order + kind, field)[0] if self.order else unsigned(field)
        except Fault as fault:
            raise self.fault(fault.number, at) from None
        if number < 0:
            raise self.fault(BAD_NUMBER, at)
        if number >= below:
            raise self.fault(BAD_INDEX, at)
        return int(number)

    def count(self, kind: str) -> int:
        return self.whole(kind, 2**32)

    def pass_over(self, one: Property) -> None:
        for _ in range(1 if one.length is None else self.count(one.length)):
            self.next(one.item)


def text_units(field: bytes) -> int:
    try:
        return decimal(field)[0]
    except Fault as fault:
        raise Fault(TOO_LARGE if fault.number == OUT_OF_RANGE else BAD_NUMBER) from None


def take_vertex(items: Items, properties: List[Property], soup: Soup) -> None:
    units = {b"x": 0, b"y": 0, b"z": 0}
    for one in properties:
        if one.name in units:
            units[one.name] = items.coordinate(one.item)
        else:
            items.pass_over(one)
    soup.points.append((units[b"x"], units[b"y"], units[b"z"]))


def take_face(items: Items, properties: List[Property], soup: Soup) -> None:
    """A face of fewer than three corners counts among the lines and points passed over."""
    corners: List[int] = []
    for one in properties:
        if one.name in INDICES and one.length is not None:
            most = len(soup.points)
            corners = [items.whole(one.item, most) for _ in range(items.count(one.length))]
        else:
            items.pass_over(one)
    if len(corners) < 3:
        soup.passed["lines and points"] += 1
        return
    if len(soup.faces) + len(corners) - 2 > MOST_FACES:
        raise items.fault(TOO_MANY_TRIANGLES, items.at)
    if len(corners) > 3:
        corners = begun_least(soup.points, corners)
        soup.polygons.append(Polygon(len(soup.faces), corners))
    soup.faces.extend(fan(corners))


def losses_of(element: Element) -> Counter[str]:
    """What the header tells of an element that is passed over: one normal, colour and texture
    coordinate a vertex and one texture coordinate a face, other properties, and other elements."""
    if element.name not in READ:
        return Counter({"other elements": element.total})
    if element.total == 0:
        return Counter()
    names = [one.name for one in element.properties if one.name not in READ[element.name]]
    kinds = [PART_OF.get(name, "") for name in names]
    own = [kind for kind in KINDS[element.name] if kind in kinds]
    others = sum(kind not in own for kind in kinds)
    return Counter({"other properties": others, **dict.fromkeys(own, element.total)})


def soup_of_ply(data: bytes) -> Soup:
    header, soup = header_of(data), empty_soup()
    items = Items(data, header)
    for element in header.elements:
        soup.passed.update(losses_of(element))
        for _ in range(element.total if element.properties else 0):
            if element.name == b"vertex":
                take_vertex(items, element.properties, soup)
            elif element.name == b"face":
                take_face(items, element.properties, soup)
            else:
                for one in element.properties:
                    items.pass_over(one)
    return soup
