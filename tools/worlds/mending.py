"""Makes an oriented manifold of the faces of a tile, as `prepare` does of a whole mesh.

Vertices at one place become one; a face that became an edge, or that has the corners of an earlier
one, goes. The surface is cut open along a side at which more than two faces meet or two turn
against each other, and a vertex becomes as many as there are fans of faces at it. So a tile may
touch itself in a vertex. Places stay as they are, and so does the sum of all border sides.
"""
from collections import Counter
from itertools import chain
from typing import Dict, FrozenSet, Iterable, List, NamedTuple, Optional, Set, Tuple

from .form import Corners, Place

_NONE = -1


class Mesh(NamedTuple):
    places: List[Place]
    faces: List[Corners]


class Mended(NamedTuple):
    """A mesh, its directed sides that no face stands beside, and how much was mended."""

    mesh: Mesh
    border: List[Tuple[int, int]]  # vertices: from, to
    dropped: int  # faces
    split: int  # vertices beyond one a place


def joined(places: List[Place], faces: List[Corners]) -> Mesh:
    """One vertex a place, in the order of the places, none without a face, and no face twice."""
    first_at = dict(zip(reversed(places), range(len(places) - 1, -1, -1)))
    if len(first_at) < len(places):
        first = [first_at[place] for place in places]
        faces = [(first[a], first[b], first[c]) for a, b, c in faces]
    kept = _once(faces)
    used = set(chain.from_iterable(kept))
    if len(used) == len(places):
        return Mesh(places, kept)
    order = sorted(used)
    number_of = {old: new for new, old in enumerate(order)}
    renamed = [(number_of[a], number_of[b], number_of[c]) for a, b, c in kept]
    return Mesh([places[old] for old in order], renamed)


def _once(faces: List[Corners]) -> List[Corners]:
    """The faces with three different corners, of those with the same ones the first."""
    first: Dict[FrozenSet[int], Corners] = {}
    for key, face in zip(map(frozenset, faces), faces):
        first.setdefault(key, face)
    return [face for key, face in first.items() if len(key) == 3]


class _Sides:
    """The directed sides of some faces: side 3 f + i runs from corner i of face f to the next. Each
    is one number, made of its two ends, since lists of numbers are gone through quickly; beside it
    stands the number of a side that runs back."""

    def __init__(self, faces: List[Corners]) -> None:
        self.count = count = 1 + max(chain.from_iterable(faces), default=0)
        self.runs, self.back = [0] * (3 * len(faces)), [0] * (3 * len(faces))
        corners = list(zip(*faces)) or [(), (), ()]
        for i in range(3):
            starts, ends = corners[i], corners[(i + 1) % 3]
            self.runs[i::3] = [count * start + end for start, end in zip(starts, ends)]
            self.back[i::3] = [count * end + start for start, end in zip(starts, ends)]

    def has(self, vertex: int) -> bool:
        """Whether sides at a vertex have a number."""
        return 0 <= vertex < self.count

    def run(self, start: int, end: int) -> int:
        return self.count * start + end

    def ends(self, run: int) -> Tuple[int, int]:
        return divmod(run, self.count)


def border_sides(faces: List[Corners]) -> List[Tuple[int, int]]:
    """The directed sides that no face has the other way round."""
    sides = _Sides(faces)
    back_of = dict(zip(sides.runs, sides.back))
    return [sides.ends(run) for run, back in back_of.items() if back not in back_of]


def _twins(sides: _Sides, opened: Iterable[Tuple[int, ...]] = ()) -> List[int]:
    """For each side the one that runs back; none where another runs the same way as one of the two,
    or where the edge is opened."""
    number_of = dict(zip(sides.runs, range(len(sides.runs))))
    apart = {sides.run(a, b) for a, b in opened if sides.has(a) and sides.has(b)}
    if len(number_of) < len(sides.runs):
        apart.update(run for run, count in Counter(sides.runs).items() if count > 1)
    twins = [number_of.get(back, _NONE) for back in sides.back]
    if apart:
        for side, (run, back) in enumerate(zip(sides.runs, sides.back)):
            if run in apart or back in apart:
                twins[side] = _NONE
    return twins


def _fans(twins: List[int]) -> List[int]:
    """For each corner the first corner of its fan."""
    count = len(twins)
    # The corner after one at its vertex is beyond the side that leaves there: the side after its
    # twin begins at it. The last entry is for what has no twin.
    beyond = list(range(1, count + 1)) + [_NONE]
    beyond[2:count:3] = range(0, count, 3)
    after = [beyond[twin] for twin in twins]
    fan = [_NONE] * count
    # Open fans begin at a corner that comes after none; what is left then is closed.
    begins = sorted(set(range(count)).difference(after))
    for begin in chain(begins, range(count)):
        corner = begin
        while corner != _NONE and fan[corner] == _NONE:
            fan[corner] = begin
            corner = after[corner]
    return fan


def split(mesh: Mesh, twins: List[int]) -> Mesh:
    """The mesh with a vertex for each fan of faces. The first fan at a vertex keeps it."""
    fan = _fans(twins)
    named = list(chain.from_iterable(mesh.faces))
    if len(set(fan)) == len(set(named)):
        return mesh
    places = list(mesh.places)
    vertex_of: Dict[int, int] = {}  # by fan
    owner: List[Optional[int]] = [None] * len(places)
    for corner, vertex in enumerate(named):
        first = fan[corner]
        if owner[vertex] is None:
            owner[vertex] = first
        if owner[vertex] != first:
            if first not in vertex_of:
                vertex_of[first] = len(places)
                places.append(places[vertex])
            named[corner] = vertex_of[first]
    faces = list(zip(named[::3], named[1::3], named[2::3]))
    return Mesh(places, faces)


def first_broken(faces: List[Corners]) -> Optional[int]:
    """A vertex at which a directed side begins twice, or that has several fans of faces; None where
    the faces are an oriented manifold."""
    begun: Set[Tuple[int, int]] = set()
    for a, b, c in faces:
        for ends in ((a, b), (b, c), (c, a)):
            if ends in begun:
                return ends[0]
            begun.add(ends)
    fan_of: Dict[int, int] = {}
    fans = _fans(_twins(_Sides(faces)))
    for corner, vertex in enumerate(corner for face in faces for corner in face):
        if fan_of.setdefault(vertex, fans[corner]) != fans[corner]:
            return vertex
    return None


def _border(faces: List[Corners], twins: List[int]) -> List[Tuple[int, int]]:
    """The sides without a twin, but for both sides of an opened edge whose ends stayed one."""
    alone = []
    for side, twin in enumerate(twins):
        if twin == _NONE:
            face = faces[side // 3]
            alone.append((face[side % 3], face[(side + 1) % 3]))
    known = set(alone)
    return [(start, end) for start, end in alone if (end, start) not in known]


def cut_open(mesh: Mesh, edges: Iterable[Tuple[int, ...]] = ()) -> Mended:
    """The surface, cut open along these edges and where it isn't a manifold."""
    twins = _twins(_Sides(mesh.faces), edges)
    done = split(mesh, twins)
    return Mended(done, _border(done.faces, twins), 0, len(done.places) - len(mesh.places))


def mended(
    places: List[Place], faces: List[Corners], opened: FrozenSet[FrozenSet[Place]] = frozenset(),
    border: Optional[List[Tuple[int, int]]] = None,
) -> Mended:
    """The surface is cut open along the opened edges too. One whose border is told is a manifold
    over different places, and stays."""
    if border is not None:
        return Mended(Mesh(places, faces), border, 0, 0)
    once = joined(places, faces)
    number_at = {place: number for number, place in enumerate(once.places)} if opened else {}
    edges = (tuple(number_at.get(place, _NONE) for place in edge) for edge in opened)
    return cut_open(once, edges)._replace(dropped=len(faces) - len(once.faces))
