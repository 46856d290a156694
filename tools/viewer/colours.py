"""The colours of an OBJ file's vertices: lines `v X Y Z R G B`, with parts from 0 to 1 as MeshLab
writes them, or from 0 to 255. The programs read past them, so they are looked up here.

Where the file went through `prepare`, its vertices are joined, scaled and numbered anew; there a
vertex has the mean of those of the file that were scaled to its place.
"""
from typing import Dict, List, NamedTuple, Optional, Tuple

from mesh_files.obj import fields_of

PLAIN = (184, 178, 168)
Point = Tuple[float, float, float]


class Vertex(NamedTuple):
    place: Point
    colour: Optional[Point]


def coloured_vertices(text: bytes) -> Optional[List[Vertex]]:
    """All vertices of an OBJ text in order; None where none has a colour."""
    vertices: List[Vertex] = []
    for _, fields in fields_of(text.split(b"\n")):
        if len(fields) < 4 or fields[0] != b"v":
            continue
        numbers = _numbers(fields[1:])
        colour = numbers[3:6] if len(numbers) == 6 else None
        vertices.append(Vertex((numbers[0], numbers[1], numbers[2]), _triple(colour)))
        if len(vertices) == 1000 and not any(vertex.colour for vertex in vertices):
            return None
    return vertices if any(vertex.colour for vertex in vertices) else None


def _numbers(fields: List[bytes]) -> List[float]:
    try:
        return [float(field) for field in fields]
    except ValueError:
        return [0.0, 0.0, 0.0]


def _triple(numbers: Optional[List[float]]) -> Optional[Point]:
    return (numbers[0], numbers[1], numbers[2]) if numbers else None


def _scale(vertices: List[Vertex]) -> float:
    """By what a part is multiplied to be one of 255."""
    greatest = max(max(vertex.colour) for vertex in vertices if vertex.colour)
    return 255.0 if greatest <= 1 else 1.0


def _byte(part: float) -> int:
    return max(0, min(255, round(part)))


def packed(vertices: List[Vertex]) -> bytes:
    """Three bytes for each vertex."""
    scale = _scale(vertices)
    parts = bytearray()
    for vertex in vertices:
        colour = [scale * part for part in vertex.colour] if vertex.colour else PLAIN
        parts += bytes(_byte(part) for part in colour)
    return bytes(parts)


def packed_by_place(vertices: List[Vertex], mesh: bytes, unit: float, middle: Point) -> bytes:
    """Three bytes for each vertex of a prepared mesh, of which a coordinate is `unit` times the
    place plus `middle`."""
    scale = _scale(vertices)
    sums: Dict[Tuple[int, ...], List[float]] = {}
    for place, colour in vertices:
        if colour is not None:
            at = tuple(round((c - m) / unit) for c, m in zip(place, middle))
            total = sums.setdefault(at, [0.0, 0.0, 0.0, 0.0])
            for part in range(3):
                total[part] += scale * colour[part]
            total[3] += 1
    parts = bytearray()
    for _, fields in fields_of(mesh.split(b"\n")):
        if fields[0] == b"v":
            found = _nearby(sums, tuple(int(field) for field in fields[1:4]))
            parts += bytes(_byte(part / found[3]) for part in found[:3]) if found else bytes(PLAIN)
    return bytes(parts)


def _nearby(sums: Dict[Tuple[int, ...], List[float]], at: Tuple[int, ...]) -> Optional[List[float]]:
    """What was summed up at a place, or beside it: a coordinate in the middle of two places may be
    rounded to either, since numbers here have fewer digits than those of `prepare`."""
    steps = (0, 1, -1)
    around = ((at[0] + i, at[1] + j, at[2] + k) for i in steps for j in steps for k in steps)
    return next((sums[place] for place in around if place in sums), None)
