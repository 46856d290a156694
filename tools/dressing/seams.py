"""A mesh cut open along the seams of its texture."""
from typing import Dict, List, NamedTuple, Sequence, Tuple

from .origins import Three

Key = Tuple[int, int, int]  # what a corner has: u, v and its page


class Cut(NamedTuple):
    """The vertices of the mesh before that those of the cut one were, the cut one's faces, and what
    its vertices have."""

    before: List[int]
    faces: List[Three]
    keys: List[Key]


class _Corners:
    """Corners that stay together."""

    def __init__(self, count: int) -> None:
        self.above = list(range(count))

    def first(self, corner: int) -> int:
        above = self.above
        while above[corner] != corner:
            above[corner] = above[above[corner]]
            corner = above[corner]
        return corner

    def join(self, one: int, other: int) -> None:
        self.above[self.first(one)] = self.first(other)


def _joined(faces: Sequence[Three], keys: Sequence[Key]) -> _Corners:
    """Two faces at a side are joined there where they have the same at both of its ends."""
    corners = _Corners(3 * len(faces))
    sides: Dict[Tuple[int, int], Tuple[int, int]] = {}
    for number, face in enumerate(faces):
        for i in range(3):
            j = (i + 1) % 3
            sides[face[i], face[j]] = 3 * number + i, 3 * number + j
    for (a, b), (at_a, at_b) in sides.items():
        if a < b and (b, a) in sides:
            other_b, other_a = sides[b, a]
            if keys[at_a] == keys[other_a] and keys[at_b] == keys[other_b]:
                corners.join(at_a, other_a)
                corners.join(at_b, other_b)
    return corners


def cut(count: int, faces: Sequence[Three], keys: Sequence[Key]) -> Cut:
    """`keys` has what each corner has, three for each face. The vertices keep their order."""
    joined = _joined(faces, keys)
    parts: List[List[int]] = [[] for _ in range(count)]
    for number, face in enumerate(faces):
        for i in range(3):
            corner = 3 * number + i
            if joined.first(corner) == corner:
                parts[face[i]].append(corner)
    before: List[int] = []
    found: List[Key] = []
    numbers: Dict[int, int] = {}
    for vertex, firsts in enumerate(parts):
        for corner in firsts:
            numbers[corner] = len(before)
            before.append(vertex)
            found.append(keys[corner])
        if not firsts:  # no face has it
            before.append(vertex)
            found.append((0, 0, 0))
    named = [numbers[joined.first(corner)] for corner in range(3 * len(faces))]
    threes = [(named[at], named[at + 1], named[at + 2]) for at in range(0, len(named), 3)]
    return Cut(before, threes, found)
