"""The deviation of nodes: how far a node may be from the faces and the border under it. On flat
ground and at a straight border it is small where the error isn't."""
from math import isqrt
from typing import Callable, List, NamedTuple, Optional, Tuple

from .bounds import error_of, faces_under
from .hierarchy import Hierarchy
from .mesh import Point, distance_up, dot, ends, minus, normal

PARTS = 16_384
FEW_LEAVES = 64
Spread = Tuple[int, int]  # the whole numbers from one to another
X, Y, Z = (1, 0, 0), (0, 1, 0), (0, 0, 1)
AXES = [X, Y, Z, (1, 1, 0), (1, -1, 0), (1, 0, 1), (1, 0, -1), (0, 1, 1), (0, 1, -1)]
AXES += [(1, 1, 1), (1, 1, -1), (1, -1, 1), (1, -1, -1)]


class UnitBox(NamedTuple):
    """What directions have along each axis, in parts of their own lengths."""

    x: Spread
    y: Spread
    z: Spread


def ceiling(n: int, m: int) -> int:
    return -(-n // m)


def root_up(n: int) -> int:
    """The least number whose square is at least n."""
    return isqrt(n - 1) + 1 if n > 0 else 0


def part(number: int, square: int) -> Spread:
    """How many parts a number is of a length of which the square is given: between which whole
    numbers that lies."""
    low = PARTS * abs(number) // root_up(square)
    high = ceiling(PARTS * abs(number), isqrt(square))
    return (low, high) if number >= 0 else (-high, -low)


def along(box: UnitBox, way: Point) -> Spread:
    """Between which whole numbers the products of a way with the vectors of a box lie."""
    products = [(low * m, high * m) for (low, high), m in zip(box, way)]
    return sum(min(pair) for pair in products), sum(max(pair) for pair in products)


def unit_box(way: Point) -> Optional[UnitBox]:
    """A direction in parts of its own length; none where it has no length."""
    square = dot(way, way)
    if square == 0:
        return None
    return UnitBox(part(way[0], square), part(way[1], square), part(way[2], square))


def normals_under(h: Hierarchy, node: int) -> List[Point]:
    return [normal(*face) for face in faces_under(h, node)]


def border_of(h: Hierarchy) -> List[int]:
    """The sides of the leaf mesh without a twin."""
    faces, twins = h.leaf_faces(), h.leaf_twins()
    return [side for face in faces for side in range(3 * face, 3 * face + 3) if side not in twins]


def has_border(h: Hierarchy) -> bool:
    return border_of(h) != []


def border_under(h: Hierarchy, node: int) -> List[Point]:
    """The directions of the border sides that have an end under a node."""
    faces, points = h.leaf_faces(), h.leaf_points()
    sides = [ends(faces, side) for side in border_of(h)]
    under = [pair for pair in sides if any(h.nodes[node].holds(leaf) for leaf in pair)]
    return [minus(points[there], points[start]) for start, there in under]


def spread_along(ways: List[Point], axis: Point) -> Optional[Spread]:
    """What directions have along an axis, together."""
    boxes = [unit_box(way) for way in ways]
    spreads = [along(box, axis) for box in boxes if box is not None]
    if not spreads:
        return None
    return min(low for low, _ in spreads), max(high for _, high in spreads)


def box_of(ways: List[Point]) -> UnitBox:
    x, y, z = [spread_along(ways, axis) or (0, 0) for axis in (X, Y, Z)]
    return UnitBox(x, y, z)


def cosine(ways: List[Point]) -> int:
    """The least cosine, in parts, of directions with the axis, or its opposite, that they go along
    most alike; 0 where there is none that all go along."""
    found: List[int] = []
    for axis in AXES:
        spread = spread_along(ways, axis)
        if spread is None:
            return PARTS
        length = root_up(PARTS * PARTS * dot(axis, axis))
        found.append(PARTS * max(spread[0], -spread[1], 0) // length)
    return max(found)


def most_along(box: UnitBox, way: Point) -> int:
    """How far the products of a way with the vectors of a box are from 0 at most."""
    low, high = along(box, way)
    return max(abs(low), abs(high))


def across(box: UnitBox, way: Point) -> int:
    """The most that a way goes across the vectors of a box: the length of the greatest numbers that
    its cross product with one of them has."""
    x, y, z = way
    numbers = [most_along(box, turned) for turned in ((0, -z, y), (z, 0, -x), (-y, x, 0))]
    return ceiling(root_up(sum(number * number for number in numbers)), PARTS)


def way_along(box: UnitBox, p: Point, q: Point) -> int:
    """The most that the way from q to p goes along the vectors of a box, and no more than its
    length."""
    return min(distance_up(p, q), ceiling(most_along(box, minus(p, q)), PARTS))


def plane_step(h: Hierarchy, parent: int, child: int) -> int:
    """The most that the way from a child to its parent goes along the normals under the child."""
    normals = box_of(normals_under(h, child))
    return way_along(normals, h.nodes[parent].place, h.nodes[child].place)


def line_step(h: Hierarchy, parent: int, child: int) -> int:
    """The most that it goes across the border under the child, and no more than its length."""
    p, q = h.nodes[parent].place, h.nodes[child].place
    return min(distance_up(p, q), across(box_of(border_under(h, child)), minus(p, q)))


def summed(h: Hierarchy, step: Callable[[Hierarchy, int, int], int], node: int) -> int:
    """The greatest sum of steps on a way from a leaf under a node up to it."""
    if h.nodes[node].width() == 1:
        return 0
    children = h.children(h.splitters[node])
    return max(summed(h, step, child) + step(h, node, child) for child in children)


def farthest_plane(h: Hierarchy, node: int) -> int:
    """How far a node is at most from the planes of the faces under it, by the ways from their
    corners that are under it."""
    points, found = h.leaf_points(), [0]
    for a, b, c in h.faces:
        box = box_of([normal(points[a], points[b], points[c])])
        corners = [points[leaf] for leaf in (a, b, c) if h.nodes[node].holds(leaf)]
        found += [way_along(box, h.nodes[node].place, corner) for corner in corners]
    return max(found)


def plane_deviation(h: Hierarchy, node: int) -> int:
    """Of a node with few leaves the greatest of its children's and the farthest plane under it; of
    another node the greater of its children's, each with its step."""
    if h.nodes[node].width() == 1:
        return 0
    children = h.children(h.splitters[node])
    numbers = [plane_deviation(h, child) for child in children]
    if h.nodes[node].width() <= FEW_LEAVES:
        return max(*numbers, farthest_plane(h, node))
    return max(n + plane_step(h, node, child) for n, child in zip(numbers, children))


def deviation_of(h: Hierarchy, node: int) -> int:
    """How far a node may be from the faces and the border under it along one of the axes; its error
    where they look or run opposite ways, and never more than that."""
    error = error_of(h, node)
    planes, lines = cosine(normals_under(h, node)), cosine(border_under(h, node))
    if planes == 0 or lines == 0:
        return error
    from_planes = ceiling(PARTS * plane_deviation(h, node), planes)
    from_lines = ceiling(PARTS * summed(h, line_step, node), lines)
    return min(error, max(from_planes, from_lines))
