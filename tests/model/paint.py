"""The coat that follows a stream text, and what `paint` answers: by docs/FORMATS.md."""
import struct
from typing import Dict, List, NamedTuple, Optional, Sequence

from .faults import Answer, Fault, not_understood
from .fits import fits_of
from .hierarchy import Hierarchy
from .packed import REASONS as STREAM_REASONS
from .stream import read_stream

HEAD = 20
COLOURS, COORDINATES, PAGES = 1, 2, 4
GREATEST = 2**21
NO_COAT, VERSION, VERTICES, FACES, PARTS, CUT, NUMBER, FILLER, TRAILING = range(61, 70)
REASONS: Dict[int, str] = {
    **STREAM_REASONS,
    NO_COAT: "no coat follows the stream",
    VERSION: "the version is unknown",
    VERTICES: "not as many vertices as leaves",
    FACES: "not as many faces as the stream",
    PARTS: "the parts aren't from 1 to 7",
    CUT: "the coat is cut off",
    NUMBER: "beyond 32 widths of the image",
    FILLER: "a filler that isn't 0",
    TRAILING: "bytes follow the coat",
}


class Coat(NamedTuple):
    """What vertices and faces of the input have, by number from 0. A part may be missing."""

    colours: Optional[Sequence[Sequence[int]]]
    coordinates: Optional[Sequence[Sequence[int]]]
    pages: Optional[Sequence[int]]


def filled(part: bytes) -> bytes:
    """With zeros up to a whole word."""
    return part + bytes(-len(part) % 4)


def coat_text(coat: Coat, vertices: int, faces: int) -> bytes:
    """The bytes of a coat."""
    parts, text = 0, b""
    if coat.colours is not None:
        parts += COLOURS
        text += filled(bytes(number for colour in coat.colours for number in colour))
    if coat.coordinates is not None:
        parts += COORDINATES
        numbers = [number for pair in coat.coordinates for number in pair]
        text += struct.pack(f"<{len(numbers)}i", *numbers)
    if coat.pages is not None:
        parts += PAGES
        text += filled(bytes(coat.pages))
    return b"COAT" + struct.pack("<4I", 1, vertices, faces, parts) + text


def at_byte(number: int, place: int) -> Fault:
    """A fault at this byte, counted from 0. It is told from 1."""
    return Fault(number, f"byte {place + 1}")


def parts_of(data: bytes, vertices: int, faces: int) -> int:
    """The parts that the head of a coat tells."""
    if data[:4] != b"COAT":
        raise at_byte(NO_COAT, 0)
    if len(data) < HEAD:
        raise Fault(CUT, f"byte {len(data)}")
    wanted = {VERSION: 1, VERTICES: vertices, FACES: faces}
    *words, parts = struct.unpack("<4I", data[4:HEAD])
    for i, (number, word) in enumerate(wanted.items()):
        if words[i] != word:
            raise at_byte(number, 4 + 4 * i)
    if not 1 <= parts <= 7:
        raise at_byte(PARTS, 16)
    return int(parts)


def read_coat(data: bytes, vertices: int, faces: int) -> Coat:
    """The coat for so many vertices and faces that bytes are, or their first fault."""
    parts = parts_of(data, vertices, faces)
    sizes = [3 * vertices if parts & COLOURS else 0, 8 * vertices if parts & COORDINATES else 0,
             faces if parts & PAGES else 0]  # fmt: skip
    begins = [HEAD]
    for size in sizes:
        begins.append(begins[-1] + size + -size % 4)
    if len(data) < begins[3]:
        raise Fault(CUT, f"byte {len(data)}")
    colours, numbers, pages = [data[at : at + n] for at, n in zip(begins, sizes)]
    coordinates = [number for number, in struct.iter_unpack("<i", numbers)]
    for i, number in enumerate(coordinates):
        if abs(number) > GREATEST:
            raise at_byte(NUMBER, begins[1] + 4 * i)
    for part in (0, 2):
        for at in range(begins[part] + sizes[part], begins[part + 1]):
            if data[at]:
                raise at_byte(FILLER, at)
    if len(data) > begins[3]:
        raise at_byte(TRAILING, begins[3])
    return Coat(
        [colours[3 * i : 3 * i + 3] for i in range(vertices)] if parts & COLOURS else None,
        list(zip(coordinates[::2], coordinates[1::2])) if parts & COORDINATES else None,
        list(pages) if parts & PAGES else None,
    )


def means_of(h: Hierarchy, by_vertex: Sequence[int]) -> List[int]:
    """The rounded mean of each node, halves up, where each vertex of the input has a number."""
    by_leaf = [by_vertex[h.nodes[node].input - 1] for node in h.leaf_nodes()]
    under = [by_leaf[node.first : node.after] for node in h.nodes]
    return [(2 * sum(numbers) + len(numbers)) // (2 * len(numbers)) for numbers in under]


def lines(h: Hierarchy, coat: Coat) -> List[str]:
    """What each node and face has, one line each."""
    told = []
    if coat.colours is not None:
        means = [means_of(h, [colour[j] for colour in coat.colours]) for j in range(3)]
        told += [f"c {v} {r} {g} {b}\n" for v, (r, g, b) in enumerate(zip(*means))]
    if coat.coordinates is not None:
        fits = [fits_of(h, [pair[j] for pair in coat.coordinates]) for j in range(2)]
        told += [f"t {n} {u} {v}\n" for n, (u, v) in enumerate(zip(*fits))]
    if coat.pages is not None:
        pages = [coat.pages[number - 1] for number in h.face_inputs]
        told += [f"p {face} {page}\n" for face, page in enumerate(pages)]
    return told


def answer(words: List[str], data: bytes) -> Answer:
    """The answer of `paint`, or that its words aren't understood."""
    if words:
        return not_understood("paint")
    try:
        stream = read_stream(data)
        h = stream.hierarchy
        coat = read_coat(stream.rest, len(h.leaf_nodes()), len(h.faces))
        return Answer(0, "".join(lines(h, coat)).encode(), "")
    except Fault as fault:
        return Answer(1, b"", f"paint: fault {fault} ({REASONS[fault.number]})\n")
