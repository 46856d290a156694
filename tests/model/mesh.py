"""Meshes as plain lists: points, faces, sides, twins, fans, and the canonical text.

A face is its three corners, which are vertex numbers from 0. Side i of face f runs from corner i to
the next corner and has the number 3 f + i.
"""
from math import isqrt
from typing import Dict, List, NamedTuple, Optional, Set, Tuple

Point = Tuple[int, int, int]
Corners = Tuple[int, int, int]
Faces = Dict[int, Corners]  # faces by number

GREATEST_COORDINATE = 32_767
MOST_FACES = 1_048_576
MOST_VERTICES = 1_048_576


class Mesh(NamedTuple):
    points: List[Point]
    faces: List[Corners]


def minus(p: Point, q: Point) -> Point:
    return (p[0] - q[0], p[1] - q[1], p[2] - q[2])


def dot(p: Point, q: Point) -> int:
    return p[0] * q[0] + p[1] * q[1] + p[2] * q[2]


def cross(p: Point, q: Point) -> Point:
    return (
        p[1] * q[2] - p[2] * q[1],
        p[2] * q[0] - p[0] * q[2],
        p[0] * q[1] - p[1] * q[0],
    )


def normal(a: Point, b: Point, c: Point) -> Point:
    """The normal (b - a) x (c - a) of a face, which isn't made unit."""
    return cross(minus(b, a), minus(c, a))


def distance_up(p: Point, q: Point) -> int:
    """The least whole number whose square is at least the squared distance."""
    squared = dot(minus(p, q), minus(p, q))
    return isqrt(squared - 1) + 1 if squared else 0


def numbered(faces: List[Corners]) -> Faces:
    return dict(enumerate(faces))


def face_of(side: int) -> int:
    return side // 3


def following(side: int) -> int:
    """The next side of the same face."""
    return side - 2 if side % 3 == 2 else side + 1


def ends(faces: Faces, side: int) -> Tuple[int, int]:
    """The two vertices that a side runs from and to."""
    corners = faces[face_of(side)]
    return corners[side % 3], corners[following(side) % 3]


def sides(faces: Faces) -> List[int]:
    return [3 * face + i for face in faces for i in range(3)]


def twins(faces: Faces) -> Dict[int, int]:
    """Beside each side that has a twin the side that joins the same two vertices in the other
    order. No directed side may stand twice."""
    by_ends = {ends(faces, side): side for side in sides(faces)}
    pairs = {side: by_ends.get(ends(faces, side)[::-1]) for side in sides(faces)}
    return {side: twin for side, twin in pairs.items() if twin is not None}


def first_repeating(faces: List[Corners]) -> Optional[int]:
    """The least face with a directed side that an earlier face has."""
    seen: Set[Tuple[int, int]] = set()
    for face, (a, b, c) in enumerate(faces):
        own = {(a, b), (b, c), (c, a)}
        if own & seen:
            return face
        seen |= own
    return None


def pairs_at(faces: List[Corners], vertex: int) -> List[Tuple[int, int]]:
    """The other two corners of each face at a vertex, in the face's cyclic order."""
    turns = [(f[i], f[(i + 1) % 3], f[(i + 2) % 3]) for f in faces for i in range(3)]
    return [(p, q) for v, p, q in turns if v == vertex]


def is_fan(pairs: List[Tuple[int, int]]) -> bool:
    """The pairs are one chain (w0, w1), (w1, w2), .. with distinct w, which is open, or closed with
    three pairs or more."""
    after = dict(pairs)
    begins = [p for p, _ in pairs if p not in after.values()]
    chain = [begins[0] if begins else pairs[0][0]]
    while chain[-1] in after and len(chain) <= len(pairs):
        chain.append(after[chain[-1]])
    if len(after) < len(pairs) or len(chain) != len(pairs) + 1:
        return False
    is_open = len(set(chain)) == len(chain)
    is_closed = chain[0] == chain[-1] and len(set(chain)) == len(pairs) >= 3
    return is_open or is_closed


def first_broken(faces: List[Corners]) -> Optional[int]:
    """The least vertex that a face uses and whose faces aren't one fan."""
    for vertex in sorted({corner for face in faces for corner in face}):
        if not is_fan(pairs_at(faces, vertex)):
            return vertex
    return None


def is_oriented_manifold(faces: List[Corners]) -> bool:
    return first_repeating(faces) is None and first_broken(faces) is None


def coordinate_text(units: int, digits: int) -> str:
    """A coordinate of so many units of 10 to the power -digits."""
    if digits == 0:
        return str(units)
    sign = "-" if units < 0 else ""
    whole, rest = divmod(abs(units), 10**digits)
    return f"{sign}{whole}.{rest:0{digits}}"


def canonical_text(mesh: Mesh, digits: int) -> bytes:
    """A line for each point and then a line for each face."""
    lines = [["v"] + [coordinate_text(c, digits) for c in point] for point in mesh.points]
    lines += [["f"] + [str(corner + 1) for corner in face] for face in mesh.faces]
    return "".join(" ".join(fields) + "\n" for fields in lines).encode()
