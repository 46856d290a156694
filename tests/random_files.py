"""Random PLY and STL files for `prepare`, of meshes whose faces don't fit together."""
import struct
from random import Random
from typing import List, NamedTuple, Sequence

from model.mesh import Point
from random_soups import Soup

SHORT = {
    "b": ["char", "int8"], "B": ["uchar", "uint8"], "h": ["short", "int16"],
    "H": ["ushort", "uint16"], "i": ["int", "int32"], "I": ["uint", "uint32"],
    "f": ["float", "float32"], "d": ["double", "float64"],
}  # fmt: skip
FORMATS = {"": "ascii", "<": "binary_little_endian", ">": "binary_big_endian"}
NUMBERS = "nan -inf 1e999 1e15 -1 x 1. +2 007 4294967296".split() + ["", "0 0"]
HEADER_LINES = [
    "", "comment x", "obj_info", "format ascii 1.0", "format ascii 1.1", "format ply 1.0",
    "element face 0", "element vertex 2", "element vertex 1048577", "element edge",
    "element tristrips 1", "element edge -1", "property float x", "property float32 q",
    "property list uchar int vertex_index", "property list float int vertex_indices",
    "property list uchar float vertex_indices", "property int vertex_indices", "property float",
    "property list uchar", "property bool x", "end_header", "end", "end_header x", "PLY",
]  # fmt: skip
OTHERS = "q quality nx ny nz red green alpha r s t texture_u texcoord diffuse_red x2".split()
WORDS = b"nan 1e40 1e15 x vertex SOLID endsolid facet loop".split()
BYTES = [0, 10, 13, 32, 45, 57, 127, 128, 255]
NOT_FINITE = [b"\x00\x00\x80\x7f", b"\x00\x00\xc0\xff", b"\x00\x00\x80\x7f\x00\x00\xf0\x7f"]


class Property(NamedTuple):
    name: str
    item: str  # its type, as `struct` has it
    length: str = ""  # of a list: the type of its count


def fitting(kinds: str, numbers: Sequence[float]) -> List[str]:
    """Those of the types that hold all of the numbers, as far as these are whole."""
    bits = {"b": 7, "B": 8, "h": 15, "H": 16, "i": 31, "I": 32, "f": 99, "d": 99}
    return [
        kind for kind in kinds
        if all((-(2 ** bits[kind]) if kind not in "BHI" else 0) <= n < 2 ** bits[kind]
               for n in numbers)
    ]  # fmt: skip


def written(order: str, kind: str, number: float) -> bytes:
    """A number in a file of this order of bytes; in a text as a word."""
    if kind not in "fd":
        number = int(number)
    return struct.pack(order + kind, number) if order else f"{number} ".encode()


class Ply:
    """A file that is written part by part."""

    def __init__(self, rng: Random) -> None:
        self.rng = rng
        self.order = rng.choice(["", "<", ">"])
        self.header = ["ply", f"format {FORMATS[self.order]} 1.0"]
        self.body = b""

    def declare(self, name: str, count: int, properties: List[Property]) -> None:
        self.header.append(f"element {name} {count}")
        for one in properties:
            types = [SHORT[kind] for kind in (one.length, one.item) if kind]
            words = ["list"] * bool(one.length) + [self.rng.choice(names) for names in types]
            self.header.append(" ".join(["property", *words, one.name]))

    def put(self, one: Property, numbers: Sequence[float]) -> None:
        if one.length:
            self.body += written(self.order, one.length, len(numbers))
        for number in numbers:
            self.body += written(self.order, one.item, number)

    def end_row(self) -> None:
        if not self.order:
            self.body += self.rng.choice([b"\n", b"\n", b"\r\n", b"", b"\n\n"])

    def others(self) -> List[Property]:
        """Properties that are passed over, in any place."""
        kinds = "bBhHiIfd"
        return [
            Property(name, self.rng.choice(kinds), self.rng.choice(["", "", "B", "i"]))
            for name in self.rng.sample(OTHERS, self.rng.choice([0, 0, 1, 3]))
        ]

    def put_other(self, one: Property) -> None:
        self.put(one, [self.rng.randrange(100) for _ in range(self.rng.randint(0, 3))]
                 if one.length else [self.rng.randrange(100)])

    def elements(self, name: str, own: List[Property], rows: List[List[Sequence[float]]]) -> None:
        """Rows with a value for each of an element's own properties, and others beside them."""
        mixed = own + self.others()
        self.rng.shuffle(mixed)
        self.declare(name, len(rows), mixed)
        for row in rows:
            for one in mixed:
                if one in own:
                    self.put(one, row[own.index(one)])
                else:
                    self.put_other(one)
            self.end_row()

    def text(self) -> bytes:
        end = self.rng.choice(["\n", "\n", "\r\n"])
        header = end.join([*self.header, "end_header"]) + end
        return header.encode() + self.body + b"\n\0"[: self.rng.choice([0, 0, 0, 1, 2])]


def scaled(rng: Random, points: List[Point]) -> List[List[float]]:
    factor = rng.choice([1.0, 1.0, 0.1, 1e-3, 1e10])
    return [[factor * c for c in point] for point in points]


def ply_file(rng: Random, soup: Soup) -> bytes:
    points, faces = scaled(rng, soup[0]), soup[1]
    ply, numbers = Ply(rng), [c for point in points for c in point]
    axes = [Property(axis, rng.choice(fitting("bBhHiIffdd", numbers))) for axis in "xyz"]
    corners = [v for face in faces for v in face] + [0]
    item = rng.choice(fitting("bBhHiiiI", corners))
    name = rng.choice(["vertex_indices", "vertex_indices", "vertex_index"])
    indices = Property(name, item, rng.choice("bBBBhHiI"))
    most = rng.choice([99, 99, 99, 99, 2])
    named: List[List[Sequence[float]]] = [[face[:most]] for face in faces]
    if rng.random() < 0.2:
        ply.elements("material", [Property("m", "B")], [[[1]], [[2]]])
    ply.elements("vertex", axes, [[[c] for c in point] for point in points])
    if rng.random() < 0.2:
        ply.elements("edge", [Property("vertex_indices", "f", "B")], [[[0, 1]]])
    ply.elements("face", [indices], named)
    if rng.random() < 0.3:
        place = rng.randrange(len(ply.header) + 1)
        ply.header[place : place + rng.randint(0, 1)] = [rng.choice(HEADER_LINES)]
    return ply.text()


def stl_triangles(soup: Soup, points: List[List[float]]) -> List[List[List[float]]]:
    return [
        [points[face[0]], points[b], points[c]]
        for face in soup[1] for b, c in zip(face[1:], face[2:])
    ]


def binary_stl(rng: Random, triangles: List[List[List[float]]]) -> bytes:
    head = rng.choice([b"solid of no text", b"made by hand", b"", b"#", b"v 0 0 0\n"])
    count = len(triangles) + rng.choice([0, 0, 0, 0, 0, 1, -1])
    data = head.ljust(80, rng.choice([b"\0", b" "])) + struct.pack("<I", max(0, count))
    for corners in triangles:
        numbers = [0.0, 0.0, 1.0] + [c for corner in corners for c in corner]
        data += struct.pack("<12fH", *numbers, rng.choice([0, 0, 7]))
    return data


def stl_text(rng: Random, triangles: List[List[List[float]]]) -> bytes:
    lines = ["solid some thing"]
    for corners in triangles:
        lines += ["  facet normal 0 0 1", "\touter loop"]
        lines += ["vertex " + " ".join(f"{c:.9g}" for c in corner) for corner in corners]
        lines += [" endloop", "endfacet"]
        if rng.random() < 0.05:
            lines += ["endsolid", "", "solid"]
    lines = lines + ["endsolid some thing"]
    if rng.random() < 0.3:
        lines = [rng.choice([line, line, line.upper(), line.title()]) for line in lines]
    return (rng.choice(["\n", "\n", "\r\n"]).join(lines) + rng.choice(["\n", "", "\n\n"])).encode()


def stl_file(rng: Random, soup: Soup) -> bytes:
    triangles = stl_triangles(soup, scaled(rng, soup[0]))
    return rng.choice([binary_stl, stl_text])(rng, triangles)


def damaged(rng: Random, data: bytes) -> bytes:
    """With an end cut off, another byte, another word, or bits that are no finite number."""
    at = rng.randrange(len(data) + 1)
    how = rng.randrange(5)
    if how == 0:
        return data[:at]
    if how == 1:
        return data[:at] + bytes([rng.choice(BYTES)]) + data[at + 1 :]
    if how == 2:
        return data[:at] + rng.choice(NOT_FINITE) + data[at + 4 :]
    words = data.split(b" ")
    place = rng.randrange(len(words))
    if how == 3:
        words[place] = rng.choice(WORDS)
    else:
        words[place] = rng.choice(NUMBERS).encode()
    return b" ".join(words)


def random_file(rng: Random, soup: Soup) -> bytes:
    data = rng.choice([ply_file, ply_file, stl_file])(rng, soup)
    return damaged(rng, data) if rng.random() < 0.3 else data
