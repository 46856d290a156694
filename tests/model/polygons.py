"""How `prepare` cuts polygons whose corners stand on the grid: by the fan from the first corner,
and by ears where a triangle of the fan is turned over."""
from typing import List, NamedTuple, Optional, Tuple

from .mesh import Corners, Point

MOST_EAR_CORNERS = 1024

Spot = Tuple[int, int]


class Polygon(NamedTuple):
    """A face of more than three corners: the number of its fan's first triangle, and corners."""

    first: int
    corners: List[int]


def fan(corners: List[int]) -> List[Corners]:
    """The triangles of the first corner and each two neighbours after it."""
    return [(corners[0], p, q) for p, q in zip(corners[1:], corners[2:])]


def normal(places: List[Point]) -> Point:
    """By Newell's method."""
    x = y = z = 0
    for (px, py, pz), (qx, qy, qz) in zip(places, places[1:] + places[:1]):
        x += (py - qy) * (pz + qz)
        y += (pz - qz) * (px + qx)
        z += (px - qx) * (py + qy)
    return x, y, z


def area(a: Spot, b: Spot, c: Spot) -> int:
    """Twice the signed area."""
    return (b[0] - a[0]) * (c[1] - a[1]) - (b[1] - a[1]) * (c[0] - a[0])


def along(axis: int, places: List[Point]) -> List[Spot]:
    """The places as they are seen along an axis."""
    return [(p[(axis + 1) % 3], p[(axis + 2) % 3]) for p in places]


def fan_has_area(spots: List[Spot]) -> bool:
    """Whether a triangle of the fan has an area."""
    return any(area(spots[0], p, q) for p, q in zip(spots[1:], spots[2:]))


def seen(places: List[Point]) -> List[Spot]:
    """Along the axis of the normal's greatest component, the first of equal ones, from its side;
    without a normal along the first axis on which a triangle of the fan has an area, else x."""
    n = normal(places)
    if n == (0, 0, 0):
        views = [along(axis, places) for axis in range(3)]
        return next(filter(fan_has_area, views), views[0])
    axis = max(range(3), key=lambda k: abs(n[k]))
    spots = along(axis, places)
    return [(y, x) for x, y in spots] if n[axis] < 0 else spots


def lies_in(p: Spot, t: Tuple[Spot, Spot, Spot]) -> bool:
    """Within, or on the border but at none of the three places."""
    a, b, c = t
    return p not in t and min(area(a, b, p), area(b, c, p), area(c, a, p)) >= 0


def ears(spots: List[Spot]) -> Optional[List[Corners]]:
    """Three corners in a row come off: the first that have an area above 0 and no other corner in
    them, or else the first without an area. None where neither are there."""
    left, done = list(range(len(spots))), []
    while len(left) > 2:
        rows = list(zip(left, left[1:], left[2:]))
        threes = [(spots[a], spots[b], spots[c]) for a, b, c in rows]
        areas = [area(*three) for three in threes]
        free = [not any(lies_in(spots[i], three) for i in left) for three in threes]
        found = [i for i in range(len(rows)) if areas[i] > 0 and free[i]]
        found += [i for i in range(len(rows)) if areas[i] == 0]
        if not found:
            return None
        done.append(rows[found[0]])
        del left[found[0] + 1]
    return done


class Cut(NamedTuple):
    """A polygon's triangles, and whether one of them is turned over."""

    triangles: List[Corners]
    overlaps: bool


def cut(corners: List[int], places: List[Point]) -> Cut:
    """A polygon that names a vertex twice in a triangle of its fan keeps it."""
    spots, triangles = seen(places), fan(corners)
    if all(area(spots[0], p, q) >= 0 for p, q in zip(spots[1:], spots[2:])):
        return Cut(triangles, False)
    found = None
    if len(corners) <= MOST_EAR_CORNERS and all(len(set(face)) == 3 for face in triangles):
        found = ears(spots)
    if found is None:
        return Cut(triangles, True)
    return Cut([(corners[a], corners[b], corners[c]) for a, b, c in found], False)
