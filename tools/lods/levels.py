"""What the levels of a stream are: the fronts after so many of its records, in their order.

A record splits one vertex into two and brings in one face or two, so more records are more faces.
How far the vertices of a front are from those that they stand for at most, its error, is found as
`vdpm` finds it (docs/DEFINITIONS.md: error), only to choose how many records a level has; what is
told of a level is what `vdpm` answers.
"""
import struct
from math import isqrt
from typing import List, NamedTuple, Sequence, Tuple

_COUNTS = struct.Struct("<4I")
_ROOT = struct.Struct("<3i2I")
_HEAD = struct.Struct("<2I3iI3i2I")
_FACE, _NEW_FACE = 16, 24
_BOTH_FACES = 3
Place = Tuple[int, ...]


class Levels(NamedTuple):
    """By how many records are split, from none to all: the faces, and the error in units."""

    digits: int  # decimals of a unit
    faces: List[int]
    errors: List[int]

    def most_within(self, faces: int) -> int:
        """The most records with which at most so many faces are shown; none where the base mesh
        has more."""
        return max((k for k, count in enumerate(self.faces) if count <= faces), default=0)

    def least_within(self, error: float) -> int:
        """The fewest records with which no vertex is farther off than so many units."""
        return next(k for k, least in enumerate(self.errors) if least <= error)

    def halves(self, count: int) -> List[int]:
        """The records of so many levels, each with half of the faces of the one before, the first
        with all of them; fewer where the base mesh comes before."""
        ways = [len(self.faces) - 1]
        while len(ways) < count and ways[-1] > 0:
            ways.append(self.most_within(self.faces[ways[-1]] // 2))
        return ways


def distance_up(p: Place, q: Place) -> int:
    """How far two places are apart, rounded up."""
    square = sum((a - b) ** 2 for a, b in zip(p, q))
    root = isqrt(square)
    return root if root * root == square else root + 1


def _errors(splits: Sequence[int], places: Sequence[Place], roots: int) -> List[int]:
    """The error of each front: the greatest of its nodes', of which one that was split later has
    the greater."""
    nodes = [0] * len(places)
    greatest = [0] * (len(splits) + 1)
    for k in range(len(splits) - 1, -1, -1):
        parent, first = splits[k], roots + 2 * k
        nodes[parent] = max(
            nodes[child] + distance_up(places[parent], places[child])
            for child in (first, first + 1)
        )
        greatest[k] = max(greatest[k + 1], nodes[parent])
    return greatest


def levels_of(stream: bytes) -> Levels:
    """The levels of a stream text that `vdpm check` takes (docs/FORMATS.md). Linear in its
    length."""
    (version,) = struct.unpack_from("<I", stream, 4)
    at, digits = 8, 0
    if version == 2:
        (digits,) = struct.unpack_from("<I", stream, at)
        at = 12
    _, roots, base, records = _COUNTS.unpack_from(stream, at)
    at += _COUNTS.size
    places: List[Place] = []
    for _ in range(roots):
        places.append(_ROOT.unpack_from(stream, at)[:3])
        at += _ROOT.size
    at += _FACE * base
    splits: List[int] = []
    faces = [base]
    for _ in range(records):
        head = _HEAD.unpack_from(stream, at)
        splits.append(head[0])
        places += [head[2:5], head[6:9]]
        brought = 2 if head[10] == _BOTH_FACES else 1
        faces.append(faces[-1] + brought)
        at += _HEAD.size + _NEW_FACE * brought
    return Levels(digits, faces, _errors(splits, places, roots))
