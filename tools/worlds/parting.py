"""Parts faces so that both halves are pieces of one manifold.

A plane leaves a ragged line. Where the faces at a vertex are in one half, then in the other, and
then in the first again, that half touches itself: one vertex of the whole would be two of the tile.
So faces are moved to the other half until there is no such vertex. And where a surface isn't a
manifold at an edge that both halves have, it is cut open there in both.
"""
from typing import Callable, Dict, FrozenSet, Iterator, List, NamedTuple, Sequence, Set, Tuple

Edge = FrozenSet[int]  # two points
_ROUNDS = 100
_BOTH = 3
_BLOCK = 1 << 14  # faces


class Parted(NamedTuple):
    """Which of some faces are in the first half, and how many vertices stayed at which a half
    touches itself."""

    sides: bytearray
    touching: int


class Bag(NamedTuple):
    """Some faces of a soup, with the corners of all faces and the count of all points. `let_go`
    frees memory, and is called now and then."""

    faces: Sequence[int]
    corners: Sequence[int]
    points: int
    let_go: Callable[[], None]

    def named(self) -> Iterator[Sequence[int]]:
        """The corners of each face."""
        corners = self.corners
        for at in range(0, len(self.faces), _BLOCK):
            for face in self.faces[at : at + _BLOCK]:
                yield corners[3 * face : 3 * face + 3]
            self.let_go()


class _Seam:
    """The faces at the vertices that both halves have. Of faces that stand twice the first counts,
    and one with two equal corners doesn't. `sides` has a 1 for each face of the first half."""

    def __init__(self, bag: Bag, sides: bytearray, opened: Set[Edge]) -> None:
        self.side: Dict[int, bool] = {}  # by face: whether it is in the first half
        self.number: Dict[int, int] = {}  # by face: which one of the bag it is
        self.twins: Dict[int, List[int]] = {}  # those that stand on a face
        self.fans: Dict[int, List[int]] = {}  # by vertex that both halves have
        self.beside: Dict[Edge, List[Tuple[int, bool]]] = {}  # faces, and which way they run
        self.corners, self.opened = bag.corners, opened
        halves = self._halves(bag, sides)
        first: Dict[FrozenSet[int], int] = {}
        for number, (a, b, c) in enumerate(bag.named()):
            if _BOTH in (halves[a], halves[b], halves[c]):
                self.number[bag.faces[number]] = number
                self._add(bag.faces[number], bool(sides[number]), halves, first)

    @staticmethod
    def _halves(bag: Bag, sides: bytearray) -> bytearray:
        """For each point 1 where the one half has it, 2 for the other, and 3 for both."""
        found = bytearray(bag.points)
        for side, (a, b, c) in zip(sides, bag.named()):
            half = 2 - side
            found[a] |= half
            found[b] |= half
            found[c] |= half
        return found

    def _add(
        self, face: int, is_one: bool, halves: bytearray, first: Dict[FrozenSet[int], int]
    ) -> None:
        a, b, c = self.corners[3 * face : 3 * face + 3]
        key = frozenset((a, b, c))
        if len(key) < 3:
            return
        known = first.setdefault(key, face)
        if known != face:
            self.twins.setdefault(known, []).append(face)
            return
        self.side[face] = is_one
        for start, end in ((a, b), (b, c), (c, a)):
            if halves[start] == _BOTH:
                self.fans.setdefault(start, []).append(face)
            if _BOTH in (halves[start], halves[end]):
                self.beside.setdefault(frozenset((start, end)), []).append((face, start < end))

    def open_edges(self) -> None:
        """Notes the edges of both halves at which there is no manifold."""
        for edge, faces in self.beside.items():
            is_manifold = len(faces) == 1 or len(faces) == 2 and faces[0][1] != faces[1][1]
            if not is_manifold and len({self.side[face] for face, _ in faces}) == 2:
                self.opened.add(edge)

    def _after(self, face: int, vertex: int) -> List[int]:
        """The faces beside a face at a vertex: beyond the side that leaves it there, and beyond the
        one that comes; -1 where there is none."""
        a, b, c = self.corners[3 * face : 3 * face + 3]
        ends = {a: (b, c), b: (c, a), c: (a, b)}[vertex]
        found = []
        for end in ends:
            edge = frozenset((vertex, end))
            faces = self.beside[edge]
            beside = [other for other, _ in faces if other != face]
            pair = len(faces) == 2 and faces[0][1] != faces[1][1] and edge not in self.opened
            found.append(beside[0] if pair else -1)
        return found

    def _chain(self, face: int, vertex: int) -> Tuple[List[int], bool]:
        """The fan of a face at a vertex, from one end to the other, and whether it is closed."""
        chain, at = [face], self._after(face, vertex)[0]
        while at not in (-1, face):
            chain.append(at)
            at = self._after(at, vertex)[0]
        if at == face:
            return chain, True
        at = self._after(face, vertex)[1]
        while at != -1:
            chain.insert(0, at)
            at = self._after(at, vertex)[1]
        return chain, False

    def _runs(self, face: int, vertex: int) -> Tuple[List[int], List[List[int]]]:
        """The fan of a face, as the runs of faces that are in one half."""
        chain, is_closed = self._chain(face, vertex)
        runs: List[List[int]] = []
        for at in chain:
            if runs and self.side[runs[-1][0]] == self.side[at]:
                runs[-1].append(at)
            else:
                runs.append([at])
        if is_closed and len(runs) > 1 and self.side[runs[0][0]] == self.side[runs[-1][0]]:
            runs[0] = runs.pop() + runs[0]
        return chain, runs

    def _faces_to_move(self, vertex: int, from_one: bool) -> List[int]:
        """What has to leave a half at a vertex, so that neither touches itself there."""
        seen: Set[int] = set()
        found: List[int] = []
        for face in self.fans[vertex]:
            if face not in seen:
                chain, runs = self._runs(face, vertex)
                seen.update(chain)
                if len(runs) > 2:
                    own = sorted((r for r in runs if self.side[r[0]] == from_one), key=len)
                    kept = 1 if len(own) > 1 else 0
                    found += [face for run in own[: len(own) - kept] for face in run]
        return found

    def moved(self, from_one: bool) -> Set[int]:
        """The faces that go to the other half; some vertices may then be new in both."""
        waiting, gone = list(self.fans), set()
        while waiting:
            for face in self._faces_to_move(waiting.pop(), from_one):
                self.side[face] = not from_one
                gone.update([face, *self.twins.get(face, [])])
                named = self.corners[3 * face : 3 * face + 3]
                waiting += [vertex for vertex in named if vertex in self.fans]
        return gone

    def touching(self) -> int:
        return sum(bool(self._faces_to_move(vertex, True)) for vertex in self.fans)


def _one_way(bag: Bag, sides: bytearray, opened: Set[Edge], from_one: bool) -> bool:
    """Moves faces from one half to the other until neither touches itself; False where that takes
    all, so that none is moved."""
    moved: List[int] = []
    for _ in range(_ROUNDS):
        seam = _Seam(bag, sides, opened)
        seam.open_edges()
        gone = [seam.number[face] for face in seam.moved(from_one)]
        for number in gone:
            sides[number] = not from_one
        moved += gone
        if from_one not in sides:
            break
        if not gone:
            return True
    for number in moved:
        sides[number] = from_one
    return False


def parted(bag: Bag, sides: bytearray, opened: Set[Edge]) -> Parted:
    """The halves after moving faces; those that were given where no way leads to others."""
    is_one_less = 2 * sides.count(1) <= len(sides)
    for from_one in (is_one_less, not is_one_less):
        if _one_way(bag, sides, opened, from_one):
            return Parted(sides, 0)
    seam = _Seam(bag, sides, opened)
    seam.open_edges()
    return Parted(sides, seam.touching())
