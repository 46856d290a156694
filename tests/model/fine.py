"""The policy of `simplify`: planes weigh by the area of their faces, planes on the border hold it,
each point of the input has three of its own, a vertex takes the planes round it when it is made,
and a fourth candidate is near where the planes of a pair have the least sum of squares."""
from math import isqrt
from typing import List, Optional, Tuple

from .mesh import GREATEST_COORDINATE, Faces, Point, cross, dot, ends, face_of, following
from .mesh import minus, normal, sides, twins
from .run import Places, Plane, Policy, midpoint, plane_through

Matrix = Tuple[Point, Point, Point]  # by rows
POINT_NORMALS: List[Point] = [(2, 0, 0), (0, 2, 0), (0, 0, 2)]
MATRIX_DIGITS, GRADIENT_DIGITS, DIVISOR_DIGITS = 33, 52, 42


def nearest(a: int, b: int) -> int:
    """The whole number nearest to a / b, and of two that are as near the greater."""
    return (2 * a + b) // (2 * b)


def scaled(n: Point, k: int, r: int) -> Point:
    """A vector times k / r, with rounded numbers."""
    return nearest(k * n[0], r), nearest(k * n[1], r), nearest(k * n[2], r)


def area_normal(n: Point) -> Point:
    """A face's normal, brought to a length whose square is 4,096 times that of the raw normal."""
    root = isqrt(isqrt(dot(n, n) << 48))
    return scaled(n, 1 << 18, root) if root else n


def border_normal(a: Point, b: Point, n: Point) -> Point:
    """The normal of the plane along a side that is square to its face, 352 times as long as the
    side."""
    length = isqrt(dot(n, n) << 24)
    return scaled(cross(minus(b, a), n), 11 << 18, 2 * length) if length else n


def halved(n: Point) -> Point:
    return scaled(n, 1, 2)


def doubled(n: Point) -> Point:
    return 2 * n[0], 2 * n[1], 2 * n[2]


def normals_at(faces: Faces, places: Places, corner: int) -> List[Point]:
    """The normals of the planes at a corner: that of its face, and those on the two sides of the
    face that meet there, where they have no twin. A corner has the number of the side from it."""
    raw = normal(*[places[vertex] for vertex in faces[face_of(corner)]])
    normals, across = [area_normal(raw)], twins(faces)
    for side in (corner, following(following(corner))):
        if side not in across:
            a, b = [places[vertex] for vertex in ends(faces, side)]
            normals.append(border_normal(a, b, raw))
    return normals


def normals_round(faces: Faces, places: Places, vertex: int) -> List[Point]:
    corners = [side for side in sides(faces) if ends(faces, side)[0] == vertex]
    return [n for corner in corners for n in normals_at(faces, places, corner)]


def brought(faces: Faces, places: Places, vertex: int) -> List[Plane]:
    """The planes round a vertex with normals of half the length, and three along the axes with
    normals of length 2, all through its place."""
    normals = [halved(n) for n in normals_round(faces, places, vertex)]
    return [plane_through(n, places[vertex]) for n in normals + POINT_NORMALS]


def taken(faces: Faces, places: Places, vertex: int) -> List[Plane]:
    """The planes round a vertex with normals of twice the length."""
    normals = normals_round(faces, places, vertex)
    return [plane_through(doubled(n), places[vertex]) for n in normals]


def drop_digits(numbers: Point, k: int) -> Point:
    """Numbers without their last k binary digits, rounded down."""
    return numbers[0] >> k, numbers[1] >> k, numbers[2] >> k


def times(a: Matrix, u: Point) -> Point:
    return dot(a[0], u), dot(a[1], u), dot(a[2], u)


def farthest(u: Point) -> int:
    """The greatest number of a vector, without signs."""
    return max(abs(u[0]), abs(u[1]), abs(u[2]))


def matrix_of(planes: List[Plane]) -> Matrix:
    """The sum of all n n^T."""
    rows = [tuple(sum(n[i] * n[j] for n, _ in planes) for j in range(3)) for i in range(3)]
    x, y, z = [(row[0], row[1], row[2]) for row in rows]
    return x, y, z


def half_gradient(planes: List[Plane], p: Point) -> Point:
    """Half the gradient of the sum of squares at a place."""
    x, y, z = [sum((dot(n, p) + d) * n[i] for n, d in planes) for i in range(3)]
    return x, y, z


def fourth_candidate(planes: List[Plane], t: Point, u: Point) -> Optional[Point]:
    """The midpoint moved by the solution of A x = - g by Cramer's rule, with numbers that are cut
    to some digits; none where the matrix has no inverse, or the place is far from both ends or out
    of range."""
    middle, a = midpoint(t, u), matrix_of(planes)
    k = max(max(a[i][i].bit_length() for i in range(3)) - MATRIX_DIGITS, 0)
    x, y, z = [drop_digits(row, k) for row in a]
    g = drop_digits(half_gradient(planes, middle), k)
    if farthest(g) >= 1 << GRADIENT_DIGITS:
        return None
    cofactors = (cross(y, z), cross(z, x), cross(x, y))
    determinant = dot(x, cofactors[0])
    moved = times(cofactors, (-g[0], -g[1], -g[2]))
    reach = 4 * max(farthest(minus(middle, t)), farthest(minus(middle, u))) + 1
    if determinant <= 0 or farthest(moved) > reach * determinant:
        return None
    k = max(determinant.bit_length() - DIVISOR_DIGITS, 0)
    way = scaled(drop_digits(moved, k), 1, determinant >> k)
    place = (middle[0] + way[0], middle[1] + way[1], middle[2] + way[2])
    return place if farthest(place) <= GREATEST_COORDINATE else None


def candidates(planes: List[Plane], t: Point, u: Point) -> List[Point]:
    fourth = fourth_candidate(planes, t, u)
    return [t, u, midpoint(t, u)] + ([] if fourth is None else [fourth])


def put(faces: Faces, places: Places, a: int, b: int, place: Point) -> Point:
    """The place moved along the sum of the normals of the faces at either end until the volume
    between these faces and it is 0, or where it is, if that is farther than twice the pair's
    length."""
    triangles = [[places[c] for c in face] for face in faces.values() if a in face or b in face]
    normals = [normal(*triangle) for triangle in triangles]
    n = sum(m[0] for m in normals), sum(m[1] for m in normals), sum(m[2] for m in normals)
    if not any(n):
        return place
    volume = sum(dot(m, minus(place, t[0])) for m, t in zip(normals, triangles))
    moved = minus(place, scaled(n, volume, dot(n, n)))
    length, way = minus(places[a], places[b]), minus(moved, place)
    near = farthest(moved) <= GREATEST_COORDINATE and dot(way, way) <= 4 * dot(length, length)
    return moved if near else place


FINE = Policy(brought, taken, candidates, put)
