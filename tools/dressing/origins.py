"""Which corners of a text's faces the corners of its prepared mesh were.

`prepare` keeps the order of faces, and the corners of each are corners of one face of the text. So
a face is that of the first face of the text, from that of the face before on, that has three
corners where its corners stand."""
from typing import Callable, List, NamedTuple, Optional, Sequence, Tuple

from .textured import Face, Place, Textured

_HALF = 0.5 + 1e-6  # of a step: how far a place may be from what it was rounded from
Three = Tuple[int, int, int]


class Mesh(NamedTuple):
    """The places and faces of a text that `simplify` takes."""

    lines: List[bytes]  # those of its vertices
    places: List[Place]
    faces: List[Three]


class Origin(NamedTuple):
    """A face of the text, and which of its corners these were."""

    face: int
    corners: Three


def mesh_of(text: bytes) -> Mesh:
    mesh = Mesh([], [], [])
    for line in text.split(b"\n"):
        if line.startswith(b"v "):
            x, y, z = map(float, line.split()[1:4])
            mesh.lines.append(line)
            mesh.places.append((x, y, z))
        elif line.startswith(b"f "):
            a, b, c = (int(field.partition(b"/")[0]) - 1 for field in line.split()[1:4])
            mesh.faces.append((a, b, c))
    return mesh


def as_they_stood(textured: Textured) -> Optional[List[Origin]]:
    """Those of a text whose faces are taken as they stand."""
    if any(len(face.corners) != 3 for face in textured.faces):
        return None
    return [Origin(number, (0, 1, 2)) for number in range(len(textured.faces))]


def _found(places: Sequence[Place], corner: Place) -> Optional[int]:
    x, y, z = corner
    for number, (a, b, c) in enumerate(places):
        if abs(a - x) < _HALF and abs(b - y) < _HALF and abs(c - z) < _HALF:
            return number
    return None


def _met(places: Sequence[Place], corners: Sequence[Place]) -> Optional[Three]:
    a = _found(places, corners[0])
    b = None if a is None else _found(places, corners[1])
    c = None if b is None else _found(places, corners[2])
    return None if a is None or b is None or c is None else (a, b, c)


def traced(
    textured: Textured, mesh: Mesh, unit: float, middle: Place
) -> Optional[List[Origin]]:
    """Those of a prepared mesh, of which a coordinate is `unit` times the place plus `middle`; None
    where a face comes from none."""
    placed = _placing(textured, unit, middle)
    origins: List[Origin] = []
    number, count = 0, len(textured.faces)
    places = placed(textured.faces[0]) if count else []
    for face in mesh.faces:
        corners = [mesh.places[corner] for corner in face]
        met = _met(places, corners)
        while met is None:
            number += 1
            if number >= count:
                return None
            places = placed(textured.faces[number])
            met = _met(places, corners)
        origins.append(Origin(number, met))
    return origins


def _placing(
    textured: Textured, unit: float, middle: Place
) -> Callable[[Face], List[Place]]:
    x, y, z = middle
    points = [((a - x) / unit, (b - y) / unit, (c - z) / unit) for a, b, c in textured.places]
    return lambda face: [points[corner] for corner in face.corners]
