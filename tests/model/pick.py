"""Which face of the full mesh a ray hits first."""
from fractions import Fraction
from typing import List, NamedTuple, Tuple

from .hierarchy import Hierarchy
from .mesh import Point, cross, dot, minus, normal


class Ray(NamedTuple):
    origin: Point
    way: Point


def weights(a: Point, b: Point, c: Point, met: Tuple[Fraction, ...]) -> List[Fraction]:
    """The parts of the corners in a place of the face's plane. Their sum is 1."""
    n = normal(a, b, c)
    rims = [(b, c), (c, a), (a, b)]
    # (these take fractions as they take whole numbers)
    sums = [dot(n, cross(minus(p, met), minus(q, met))) for p, q in rims]  # type: ignore[arg-type]
    return [Fraction(sum) / dot(n, n) for sum in sums]


def hits_of(h: Hierarchy, ray: Ray) -> List[Tuple[Fraction, int, int, int]]:
    """Of each face that is hit the fraction s / q of the ray's way, its number, s and q."""
    points, hits = h.leaf_points(), []
    for face, corners in enumerate(h.faces):
        a, b, c = [points[corner] for corner in corners]
        slope = dot(normal(a, b, c), ray.way)
        if slope == 0:
            continue
        height = dot(normal(a, b, c), minus(a, ray.origin))
        s, q = (height, slope) if slope > 0 else (-height, -slope)
        met = tuple(o + Fraction(s, q) * d for o, d in zip(ray.origin, ray.way))
        if s >= 0 and min(weights(a, b, c, met)) >= 0:
            hits.append((Fraction(s, q), face, s, q))
    return hits


def pick_text(h: Hierarchy, ray: Ray) -> str:
    """The hit with the least fraction, and of equal fractions the one with the least number."""
    hits = hits_of(h, ray)
    if not hits:
        return "miss\n"
    _, face, s, q = min(hits)
    return f"hit {face} {s} {q}\n"
