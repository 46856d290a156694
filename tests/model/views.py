"""Wanted nodes, and the target and the plan of a view."""
from typing import List, NamedTuple, Set, Tuple

from .bounds import Bounds, all_bounds
from .deviation import deviation_of, has_border
from .front import Front, needs
from .hierarchy import Hierarchy
from .mesh import Point, dot, minus


class View(NamedTuple):
    eye: Point
    focal: int
    tol: int
    sil: int
    planes: List[Tuple[Point, int]]  # (a, b, c) and d
    is_by_deviation: bool = False


def is_outside(view: View, place: Point, radius: int) -> bool:
    """The whole ball is on the negative side of a plane of the view."""
    for n, d in view.planes:
        value = dot(n, place) + d
        if value < 0 and value * value > radius * radius * dot(n, n):
            return True
    return False


def facing(view: View, place: Point, bounds: Bounds) -> Tuple[int, int]:
    """The sums, over the axes, of the least and of the greatest product of an end of the normal box
    and an end of the point box less the eye."""
    least = greatest = 0
    for axis in range(3):
        middle = place[axis] - view.eye[axis]
        near = (middle - bounds.radius, middle + bounds.radius)
        products = [n * p for n in (bounds.low[axis], bounds.high[axis]) for p in near]
        least, greatest = least + min(products), greatest + max(products)
    return least, greatest


def looks_large(view: View, size: int, radius: int, tolerance: int, squared: int) -> bool:
    """The size is larger than the tolerance, seen from so far away."""
    seen = size * view.focal + tolerance * radius
    return seen * seen > tolerance * tolerance * squared


def is_wanted(view: View, place: Point, bounds: Bounds, size: int, sees_both: bool) -> bool:
    """The node isn't outside, may be turned to the eye unless both sides count, and looks large:
    larger than the tolerance, or than that for outlines where it may be turned away too."""
    way = minus(place, view.eye)
    squared = dot(way, way)
    least, greatest = facing(view, place, bounds)
    is_large = looks_large(view, size, bounds.radius, view.tol, squared)
    is_outline = greatest >= 0 and looks_large(view, size, bounds.radius, view.sil, squared)
    may_be_seen = sees_both or least <= 0
    return not is_outside(view, place, bounds.radius) and may_be_seen and (is_large or is_outline)


def target_of(h: Hierarchy, view: View) -> Set[int]:
    """The least closed set that has each record whose node is wanted: what its records need is
    added until nothing is wanting."""
    bounds = all_bounds(h)
    sees_both = view.is_by_deviation and has_border(h)
    target = set()
    for k, record in enumerate(h.records):
        own = bounds[record.s]
        size = deviation_of(h, record.s) if view.is_by_deviation else own.error
        if is_wanted(view, h.nodes[record.s].place, own, size, sees_both):
            target.add(k)
    while True:
        needed = {other for k in target for other in needs(h, k)}
        if needed <= target:
            return target
        target |= needed


def plan(split: Front, target: Set[int]) -> List[int]:
    """The records to be split, ascending, and then those to be collapsed, descending."""
    return sorted(target - split) + sorted(split - target, reverse=True)


def after(split: Front, moves: List[int]) -> Set[int]:
    """The front after moves, each of which turns a record over."""
    return set(split).symmetric_difference(moves)
