"""Points and directions of space, as three numbers each."""
from math import sqrt
from typing import Sequence, Tuple

Vector = Sequence[float]
Triple = Tuple[float, float, float]


def minus(p: Vector, q: Vector) -> Triple:
    return (p[0] - q[0], p[1] - q[1], p[2] - q[2])


def dot(p: Vector, q: Vector) -> float:
    return p[0] * q[0] + p[1] * q[1] + p[2] * q[2]


def cross(p: Vector, q: Vector) -> Triple:
    return (p[1] * q[2] - p[2] * q[1], p[2] * q[0] - p[0] * q[2], p[0] * q[1] - p[1] * q[0])


def unit(p: Vector) -> Triple:
    """The direction of p; p itself where it is 0."""
    size = sqrt(dot(p, p)) or 1
    return (p[0] / size, p[1] / size, p[2] / size)
