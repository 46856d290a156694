"""What an OBJ text says of textures: `vt`, `usemtl`, `mtllib`, and corners' second numbers."""
import re
from typing import Dict, List, NamedTuple, Optional, Tuple

from mesh_files.obj import fields_of
from mesh_files.soup import MeshFault, finite

NONE = -1  # of a corner without a texture coordinate
_HAS_SOME = re.compile(rb"^[ \t]*(?:vt|usemtl)[ \t]", re.MULTILINE)
_LIBRARY = re.compile(rb"^[ \t]*(mtllib[ \t].*)$", re.MULTILINE)
Place = Tuple[float, float, float]
Spot = Tuple[float, float]


class Face(NamedTuple):
    """A face of the text: its vertices and its texture coordinates, from 0, and its page."""

    corners: Tuple[int, ...]
    spots: Tuple[int, ...]
    page: int


class Textured(NamedTuple):
    """Pages are the names of materials, in the order of their first faces; "" of faces that have
    none."""

    places: List[Place]
    spots: List[Spot]
    faces: List[Face]
    pages: List[str]
    libraries: List[str]

    @property
    def has_spots(self) -> bool:
        """Whether a corner has a texture coordinate."""
        return any(spot != NONE for face in self.faces for spot in face.spots)


class _Reader:
    def __init__(self) -> None:
        self.told = Textured([], [], [], [], [])
        self.number: Dict[str, int] = {}
        self.material = ""

    def page(self) -> int:
        told = self.told.pages
        if self.material not in self.number:
            self.number[self.material] = len(told)
            told.append(self.material)
        return self.number[self.material]

    def face(self, fields: List[bytes]) -> None:
        told, corners, spots = self.told, [], []
        for field in fields:
            corner, _, rest = field.partition(b"/")
            spot = rest.partition(b"/")[0]
            corners.append(_index(corner, len(told.places)))
            spots.append(_index(spot, len(told.spots)) if spot else NONE)
        told.faces.append(Face(tuple(corners), tuple(spots), self.page()))

    def take(self, fields: List[bytes]) -> None:
        word, told = fields[0], self.told
        if word == b"v":
            x, y, z = finite(map(float, fields[1:4]))
            told.places.append((x, y, z))
        elif word == b"vt":
            u, v = finite([float(fields[1]), float(fields[2]) if len(fields) > 2 else 0.0])
            told.spots.append((u, v))
        elif word == b"f":
            self.face(fields[1:])
        elif word == b"usemtl":
            self.material = _name(fields)
        elif word == b"mtllib":
            told.libraries.append(_name(fields))


def _index(field: bytes, count: int) -> int:
    number = int(field)
    index = number - 1 if number > 0 else count + number
    if not 0 <= index < count:
        raise ValueError(field)
    return index


def _name(fields: List[bytes]) -> str:
    return b" ".join(fields[1:]).decode("utf-8", "replace")


def has_texture(text: bytes) -> bool:
    """Whether a file may have texture coordinates or materials."""
    return _HAS_SOME.search(text) is not None


def libraries_of(text: bytes) -> List[str]:
    """The files of materials that a text names."""
    return [_name(line.split()) for line in _LIBRARY.findall(text)]


def read(text: bytes) -> Optional[Textured]:
    """None where no corner has a texture coordinate and no face a material, or a number isn't
    one."""
    if not has_texture(text):
        return None
    reader = _Reader()
    try:
        for _, fields in fields_of(text.split(b"\n")):
            reader.take(fields)
    except (ValueError, IndexError, MeshFault):
        return None
    told = reader.told
    return told if told.has_spots or any(told.pages) else None
