"""Polygons as triangles, as `prepare` has them: by the fan from the corner that is least by x, then
y, then z; and by ears where a triangle of the fan is turned over."""
from typing import Callable, List, Optional, Sequence, Tuple

MOST_CORNERS = 1024
Place = Tuple[int, int, int]
Spot = Tuple[int, int]
Corners = Tuple[int, int, int]


def _normal(places: Sequence[Place]) -> Place:
    """By Newell's method."""
    x = y = z = 0
    for p, q in zip(places, [*places[1:], places[0]]):
        x += (p[1] - q[1]) * (p[2] + q[2])
        y += (p[2] - q[2]) * (p[0] + q[0])
        z += (p[0] - q[0]) * (p[1] + q[1])
    return x, y, z


def _area(a: Spot, b: Spot, c: Spot) -> int:
    """Twice the signed area."""
    return (b[0] - a[0]) * (c[1] - a[1]) - (b[1] - a[1]) * (c[0] - a[0])


def _along(axis: int, places: Sequence[Place]) -> List[Spot]:
    return [(p[(axis + 1) % 3], p[(axis + 2) % 3]) for p in places]


def _seen(places: Sequence[Place]) -> List[Spot]:
    """The polygon from the side and along the axis on which it is largest."""
    normal = _normal(places)
    if normal == (0, 0, 0):
        views = [_along(axis, places) for axis in range(3)]
        has_area = (v for v in views if any(_area(v[0], p, q) for p, q in zip(v[1:], v[2:])))
        return next(has_area, views[0])
    axis = max(range(3), key=lambda k: abs(normal[k]))
    spots = _along(axis, places)
    return [(y, x) for x, y in spots] if normal[axis] < 0 else spots


def _lies_in(p: Spot, three: Tuple[Spot, Spot, Spot]) -> bool:
    a, b, c = three
    return p not in three and min(_area(a, b, p), _area(b, c, p), _area(c, a, p)) >= 0


def _ears(spots: List[Spot]) -> Optional[List[Corners]]:
    """Three corners in a row come off: the first with an area and no other corner inside, else the
    first without an area; None where there is neither."""
    left, done = list(range(len(spots))), []
    while len(left) > 2:
        flat = None
        for i, row in enumerate(zip(left, left[1:], left[2:])):
            three = (spots[row[0]], spots[row[1]], spots[row[2]])
            area = _area(*three)
            if area > 0 and not any(_lies_in(spots[k], three) for k in left):
                break
            if area == 0 and flat is None:
                flat = i
        else:
            if flat is None:
                return None
            i = flat
        done.append((left[i], left[i + 1], left[i + 2]))
        del left[i + 1]
    return done


def triangles_of(named: List[int], place: Callable[[int], Place]) -> List[Corners]:
    """The triangles of a polygon whose corners stand at whole places."""
    places = [place(corner) for corner in named]
    least = min(range(len(named)), key=lambda i: places[i])
    named, places = named[least:] + named[:least], places[least:] + places[:least]
    fan = [(named[0], b, c) for b, c in zip(named[1:], named[2:])]
    spots = _seen(places)
    if all(_area(spots[0], p, q) >= 0 for p, q in zip(spots[1:], spots[2:])):
        return fan
    if len(named) > MOST_CORNERS or any(len(set(face)) < 3 for face in fan):
        return fan
    found = _ears(spots)
    return fan if found is None else [(named[a], named[b], named[c]) for a, b, c in found]
