"""Makes what cases read and expect: `build` answers the bytes of one `in` or `out` line.

A line is a builder and its arguments, and then filters, each after ` | `. A name that a file of
cases gives to a text or a stream is a builder too. Bytes are kept as parts, each with how often it
stands, so that a text of a million equal lines takes no room.
"""
import array
import re
import struct
import sys
from pathlib import Path
from typing import Callable, Dict, Iterable, Iterator, List, Tuple, Union

from binary_builders import apart, empty_facets, facets, numbers
from model.packed import packed_words

TOP = Path(__file__).resolve().parent.parent
Data = List[Tuple[bytes, int]]
Point = Tuple[int, int, int]
ESCAPES = {"r": b"\r", "n": b"\n", "t": b"\t", "0": b"\0", "\\": b"\\", "s": b" "}


class BuildFault(Exception):
    """What is wrong with a line that tells bytes."""


def unescaped(text: str) -> bytes:
    r"""The bytes of a text: `\r`, `\n`, `\t`, `\0`, `\\`, `\s` for a blank, and `\xHH`."""
    parts = re.split(r"(\\x[0-9a-f]{2}|\\.)", text)
    found = b""
    for part in parts:
        if part.startswith("\\x"):
            found += bytes([int(part[2:], 16)])
        elif part.startswith("\\"):
            if part[1] not in ESCAPES:
                raise BuildFault(f"`{part}` is no escape")
            found += ESCAPES[part[1]]
        else:
            found += part.encode()
    return found


def flat(data: Data) -> bytes:
    return b"".join(part * count for part, count in data)


def blocks(data: Data, size: int) -> Iterator[bytes]:
    """The bytes of the parts, in blocks of this size but for the last."""
    rest = b""
    for part, count in data:
        at_once = max(1, size // max(1, len(part)))
        while count:
            now = min(count, at_once)
            rest += part * now
            count -= now
            whole = len(rest) - len(rest) % size
            for start in range(0, whole, size):
                yield rest[start : start + size]
            rest = rest[whole:]
    if rest:
        yield rest


def little_endian(words: "array.array[int]") -> bytes:
    if sys.byteorder == "big":
        words.byteswap()
    return words.tobytes()


def stream_of(words: Iterable[int]) -> bytes:
    """The stream text of these words after its first four bytes, in two's complement."""
    return b"VDPM" + little_endian(array.array("I", (word % 2**32 for word in words)))


def lines(text: str) -> bytes:
    """Lines that are separated by `; `, each ended by LF."""
    return b"".join(unescaped(line) + b"\n" for line in text.split("; "))


def text(given: str) -> bytes:
    """A text without an LF at its end."""
    return unescaped(given)


def repeat(given: str) -> Data:
    """A line so many times: COUNT LINE."""
    count, _, line = given.partition(" ")
    return [(unescaped(line) + b"\n", int(count))]


def byte(given: str) -> Data:
    """A text so many times, without LF: COUNT TEXT."""
    count, _, part = given.partition(" ")
    return [(unescaped(part), int(count))]


def comments(given: str) -> Data:
    """So many lines of comment, each of so many bytes with its LF: COUNT SIZE."""
    count, size = (int(number) for number in given.split())
    return [(b"#" * (size - 1) + b"\n", count)]


def views(given: str) -> Data:
    """So many script lines of 256 bytes with their LF, each a view of six planes."""
    eye, plane = b"v -16777215 -16777215 -16777215 65535 65535", b" -32767 -32767 -32767 "
    line = eye + 5 * (plane + b"-4398046511104") + plane + b"-398046511\n"
    return [(line, int(given))]


def file(given: str) -> bytes:
    """A file of the repository."""
    return (TOP / given).read_bytes()


def header(given: str) -> bytes:
    """A stream's first bytes alone: LEAVES ROOTS BASES RECORDS."""
    return stream_of([1, *(int(count) for count in given.split())])


def splits(given: str) -> bytes:
    """The script lines that split so many records, ascending."""
    return b"".join(b"s %d\n" % record for record in range(int(given)))


def collapses(given: str) -> bytes:
    """The script lines that collapse so many records, descending."""
    return b"".join(b"c %d\n" % record for record in reversed(range(int(given))))


def obj_text(points: Iterable[Point], faces: Iterable[Point]) -> bytes:
    """The canonical text of a mesh whose vertices are numbered from 0."""
    places = ["v %d %d %d\n" % point for point in points]
    corners = ["f %d %d %d\n" % (a + 1, b + 1, c + 1) for a, b, c in faces]
    return "".join(places + corners).encode()


def grid_faces(side: int) -> Iterator[Point]:
    """The faces of a grid of side times side cells, two a cell."""
    width = side + 1
    for row in range(side):
        for column in range(side):
            low = row * width + column
            yield (low, low + 1, low + width + 1)
            yield (low, low + width + 1, low + width)


def grid(given: str) -> bytes:
    """The grid that `demo N` makes, as an OBJ text. Its heights repeat after 97 rows."""
    side = int(given)
    points = (
        (100 * c, 100 * r, (7 * c * c + 11 * c * r + 13 * r * r) % 97)
        for r in range(side + 1)
        for c in range(side + 1)
    )
    return obj_text(points, grid_faces(side))


def cube(given: str) -> bytes:
    """A cube whose six sides are flat grids of so many times so many cells, two faces a cell."""
    side = int(given)
    numbers: Dict[Point, int] = {}
    faces = []
    for axis in range(3):
        for end in (0, side):
            corners = []
            for row in range(side + 1):
                for column in range(side + 1):
                    place = [row, column]
                    place.insert(axis, end)
                    x, y, z = (100 * number for number in place)
                    corners.append(numbers.setdefault((x, y, z), len(numbers)))
            # The sides at 0 and those at the other end are turned the other way, as every second
            # axis is.
            turned = (end == 0) == (axis != 1)
            for a, b, c in grid_faces(side):
                one, two = (c, b) if turned else (b, c)
                faces.append((corners[a], corners[one], corners[two]))
    return obj_text(numbers, faces)


def cone(given: str) -> bytes:
    """A tip with so many faces round it, open or closed: COUNT `open` or COUNT `closed`."""
    count, form = given.split()
    rim = int(count) + (form == "open")
    points = [(0, 0, 1000)] + [(k % 30000, k // 30000, 0) for k in range(rim)]
    faces = ((0, 1 + k, 1 + (k + 1) % rim) for k in range(int(count)))
    return obj_text(points, faces)


def book(given: str) -> bytes:
    """So many pages at one spine, all turned the same way."""
    count = int(given)
    points = [(0, 0, -1), (0, 0, 1)] + [(1 + k % 30000, k // 30000, 0) for k in range(count)]
    return obj_text(points, ((0, 1, 2 + k) for k in range(count)))


def chain(given: str) -> bytes:
    """A stream as deep as it has records: each record splits the second child of the one before.

    Its text is for M from 2: three roots, of which the last has M leaves, one base face, and M - 1
    records with a left face each.
    """
    many = int(given)
    records = many - 1
    head = [1, many + 2, 3, 1, records, 0, 0, 0, 1, 1, 0, 0, 0, 1, 2, 1, 0, 0, many, 0, 0, 1, 2, 1]
    words = array.array("I", [0]) * (17 * records)
    columns: List[Union[range, int]] = [
        range(2, 2 * many, 2), 1, 0, 0, 0, range(3, many + 2), 1, 0, 0, 0, 1,
        0, range(2, many + 1), range(3, many + 2), range(2, many + 1), 0, range(3, 3 * many, 3),
    ]  # fmt: skip
    for place, column in enumerate(columns):
        if isinstance(column, range):
            words[place::17] = array.array("I", column)
        elif column:
            words[place::17] = array.array("I", [column]) * records
    # The last record's second child is a leaf.
    last = 17 * (records - 1)
    words[last + 6] = 0
    words[last + 9] = many + 2
    return stream_of(head) + little_endian(words)


def square_of(given: str) -> bytes:
    """The square's stream with so many base faces, all with the same corners."""
    many = int(given)
    roots = [1, 4, 3, many, 1, 0, 10, 0, 1, 3, 10, 10, 0, 1, 4, 0, 0, 0, 2, 0]
    bases = array.array("I", [2, 1, 0, 0]) * many
    bases[3::4] = array.array("I", range(1, many + 1))
    record = array.array("I", [2, 1, 0, 0, 0, 1, 10, 0, 0, 2, 1, 2, 3, 1, many + 1, 0, 1])
    return stream_of(roots) + little_endian(bases) + little_endian(record)


def set_word(data: bytes, given: str) -> bytes:
    """The bytes with another 32-bit word at this place: BYTE WORD."""
    place, word = (int(number) for number in given.split())
    if place + 4 > len(data):
        raise BuildFault(f"no word begins at byte {place}")
    return data[:place] + struct.pack("<I", word % 2**32) + data[place + 4 :]


def set_byte(data: bytes, given: str) -> bytes:
    """The bytes with another byte at this place: BYTE VALUE."""
    place, value = (int(number) for number in given.split())
    return data[:place] + bytes([value]) + data[place + 1 :]


def cut(data: bytes, given: str) -> bytes:
    """So many of the first bytes."""
    return data[: int(given)]


def packed(data: bytes, given: str) -> bytes:
    """The words as a packed text says them, by the model."""
    return packed_words(data)


def with_crlf(data: bytes, given: str) -> bytes:
    return data.replace(b"\n", b"\r\n")


def begun(data: bytes, given: str) -> bytes:
    """The bytes with this text in the place of as many of the first ones."""
    first = unescaped(given)
    return first + data[len(first) :]


BUILDERS: Dict[str, Callable[[str], Union[bytes, Data]]] = {
    "lines": lines, "text": text, "repeat": repeat, "byte": byte, "comments": comments,
    "views": views, "file": file, "header": header, "splits": splits, "collapses": collapses,
    "grid": grid, "cube": cube, "cone": cone, "book": book, "chain": chain, "square_of": square_of,
    "numbers": numbers, "facets": facets, "empty_facets": empty_facets, "apart": apart,
}  # fmt: skip
FILTERS: Dict[str, Callable[[bytes, str], bytes]] = {
    "set": set_word, "byte": set_byte, "cut": cut, "crlf": with_crlf, "packed": packed,
    "begun": begun,
}  # fmt: skip


def build(line: str, named: Dict[str, bytes]) -> Data:
    """The bytes that a line tells: a builder with its arguments, and then filters."""
    first, *filters = line.split(" | ")
    name, _, given = first.partition(" ")
    if name in named:
        found: Union[bytes, Data] = named[name]
    elif name in BUILDERS:
        found = BUILDERS[name](given)
    else:
        raise BuildFault(f"`{name}` names no builder, text or stream")
    data: Data = [(found, 1)] if isinstance(found, bytes) else found
    for one in filters:
        name, _, given = one.partition(" ")
        if name not in FILTERS:
            raise BuildFault(f"`{name}` is no filter")
        data = [(FILTERS[name](flat(data), given), 1)]
    return data
