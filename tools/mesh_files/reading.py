"""The soup of a mesh file of any kind that is read here, and its text for `prepare`."""
import re
from decimal import Decimal
from itertools import chain
from pathlib import Path
from typing import BinaryIO, Callable, Dict, Iterator, List, Optional, Tuple

from . import obj, ply, stl
from .soup import MeshFault, Soup, blocks_of

_HEAD = 512
# Files of other kinds, by their first bytes.
_OTHERS = (
    (b"glTF", "a GLB file"), (b"OFF", "an OFF file"), (b"PK\x03\x04", "a ZIP archive"),
    (b"\x89PNG", "a PNG picture"), (b"\xff\xd8\xff", "a JPEG picture"), (b"GIF8", "a GIF picture"),
    (b"II*\0", "a TIFF picture"), (b"MM\0*", "a TIFF picture"), (b"II+\0", "a TIFF picture"),
    (b"%PDF", "a PDF document"), (b"Kaydara FBX", "an FBX file"), (b"MM", "a 3DS file"),
    (b"<", "a text of HTML or XML"), (b"VDPM", "a stream of this project"),
)  # fmt: skip
# An object of JSON begins, by as many bytes as tell `prepare` the format.
_OBJECT, _TOLD_BY = re.compile(rb'[ \t\n\f\r]*\{[ \t\n\f\r]*"'), 84
# What makes a file of those that are read here of one that isn't, by its first bytes.
_CURES = (
    (b"\x1f\x8b", "a file compressed by gzip: unpack it by gunzip"),
    (b"ncols", "a height field: cut it by tools/world.py, with a name that ends in .asc"),
    (b"P5", "a PGM picture: cut it by tools/world.py, with a name that ends in .pgm"),
)
_CONTROLS = re.compile(rb"[\0-\x08\x0e-\x1f]")
_ROW_OF_NUMBERS = re.compile(rb"\s*[-+.\d][-+.,;eE\d \t]*[\r\n]")
Reader = Callable[[BinaryIO, int, Soup], None]
READERS: Dict[str, Reader] = {
    "OBJ": obj.read, "PLY": ply.read, "binary STL": stl.read_binary, "STL": stl.read_text,
}


def kind_of(head: bytes, size: int) -> str:
    """Which kind a file of so many bytes is, by the first of them; MeshFault where it is one that
    isn't read here."""
    if head.startswith((b"ply\n", b"ply\r")):
        return "PLY"
    if stl.is_binary(head, size):
        return "binary STL"
    if head.split()[:1] and head.split()[0].lower() == b"solid":
        if b"\0" in head:
            raise _cut_off(head, size)
        return "STL"
    for begin, name in _OTHERS:
        if head.startswith(begin):
            raise MeshFault(f"it looks like {name}: an OBJ, PLY or STL file is read here")
    if _OBJECT.match(head[:_TOLD_BY]):
        raise MeshFault("it looks like JSON, perhaps glTF: an OBJ, PLY or STL file is read here")
    for begin, told in _CURES:
        if head.startswith(begin):
            raise MeshFault(f"it looks like {told}")
    if b"\0" in head and head[:2] not in (b"\xff\xfe", b"\xfe\xff"):
        raise _cut_off(head, size)
    return "OBJ"


def _cut_off(head: bytes, size: int) -> MeshFault:
    """What is said of a file with zero bytes, which may be an STL file that lost its end."""
    if size < stl.HEAD:
        return MeshFault(f"byte {size}: the data end before the {stl.HEAD} bytes of an STL head do")
    count = int.from_bytes(head[80:84], "little")
    wanted = stl.HEAD + stl.EACH * count
    if size < wanted <= 100 * size:
        return MeshFault(
            f"byte {size}: the data end before triangle {max(0, size - 84) // 50 + 1} of {count}"
        )
    return MeshFault("it is no text, and no PLY or STL file that is whole")


def without_faces(head: bytes) -> MeshFault:
    """What is said of a file in which there are no faces, by the first of its bytes."""
    if not head:
        return MeshFault("it is empty")
    if stl.is_binary(head, len(head)):
        return MeshFault("it is an STL file without a triangle")
    if _CONTROLS.search(head):
        return MeshFault("it is no text, and no PLY or STL file that is whole")
    if _ROW_OF_NUMBERS.match(head):
        return MeshFault("it has rows of numbers and no faces: points alone are no mesh")
    return MeshFault("it has no faces")


def kind_at(path: Path) -> str:
    with path.open("rb") as file:
        return kind_of(file.read(_HEAD), path.stat().st_size)


def read_soup(
    path: Path, watch: Callable[[BinaryIO], None] = lambda _: None, soup: Optional[Soup] = None
) -> Soup:
    """The soup of a file, added to one that is empty; MeshFault where it has a fault or no faces.
    `watch` is given the open file."""
    reader, size = READERS[kind_at(path)], path.stat().st_size
    soup = soup or Soup()
    with path.open("rb") as file:
        watch(file)
        reader(file, size, soup)
    if not len(soup.corners):
        with path.open("rb") as file:
            raise without_faces(file.read(_HEAD))
    return soup


def exact(number: float) -> str:
    """All decimals of a binary number, without an exponent."""
    return format(Decimal(number), "f")


def polygons_of(soup: Soup) -> Iterator[List[int]]:
    """The faces, each with all its corners."""
    numbers = chain.from_iterable(blocks_of(soup.polygons))
    polygons = chain(zip(numbers, numbers), [(soup.faces, 3)])
    corners = chain.from_iterable(blocks_of(soup.corners))
    first, size = next(polygons)
    for face, named in enumerate(zip(corners, corners, corners)):
        if face < first:
            yield list(named)
        elif face == first:
            polygon = list(named)
        else:
            polygon.append(named[2])
        if face == first + size - 3:
            yield polygon
            first, size = next(polygons)


def text_of(soup: Soup) -> bytes:
    """An OBJ text with the same numbers: binary ones with all their decimals; and with colours."""
    told = exact if soup.is_binary else repr
    numbers = iter(soup.points)
    lines = [
        f"v {told(x)} {told(y)} {told(z)}" for x, y, z in zip(numbers, numbers, numbers)
    ]
    parts = iter(soup.colours)
    for number, colour in enumerate(zip(parts, parts, parts)):
        lines[number] += "".join(f" {part / 255:.6f}" for part in colour)
    lines += ["f " + " ".join(str(v + 1) for v in corners) for corners in polygons_of(soup)]
    return ("\n".join(lines) + "\n").encode("ascii")


def as_obj(path: Path) -> Tuple[bytes, List[str]]:
    """The OBJ text of a file, its own where it is one, and what was passed over."""
    if kind_at(path) == "OBJ":
        return obj.without_mark(path.read_bytes()), []
    soup = read_soup(path)
    return text_of(soup), soup.notes()
