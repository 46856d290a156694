"""Cuts a soup by planes across its longest axis: a face goes to one side by the middle of its
corners, but for those that are moved so that no tile touches itself (parting)."""
from array import array
from itertools import chain, compress, islice, repeat
from operator import not_
from typing import (
    Callable, Container, Dict, FrozenSet, Iterable, Iterator, List, Optional, Set, Tuple,
)

from mesh_files.ears import triangles_of
from mesh_files.filed import Filed
from mesh_files.reading import polygons_of
from mesh_files.soup import Soup, blocks_of

from .cutting import Half, Piece, parts_for
from .form import Corners, Place, WorldFault, fits
from .parting import Bag, Edge, Parted, parted

_BINS = 4096
_MOST_PLACE = 1 << 29  # of a world's places, so that three of them add up within 32 bits
_SHARES = (0.0, -0.2, 0.2)  # beside the share that is wanted
_BLOCK = 1 << 14  # faces
_BUCKET = 1 << 17  # points that are joined at a time


class Rounded:
    """A soup in whole numbers of the world's unit, in files where it is long."""

    def __init__(self, points: Filed, corners: Filed) -> None:
        self._filed = points, corners
        self.points, self.corners = points.whole(), corners.whole()

    @property
    def count(self) -> int:
        return len(self.points) // 3

    def let_go(self) -> None:
        for numbers in self._filed:
            numbers.let_go()

    def place(self, point: int) -> Place:
        x, y, z = self.points[3 * point : 3 * point + 3]
        return x, y, z

    def face(self, face: int) -> Corners:
        a, b, c = self.corners[3 * face : 3 * face + 3]
        return a, b, c

    def bag(self, faces: memoryview) -> Bag:
        return Bag(faces, self.corners, self.count, self.let_go)


def rounded(soup: Soup, unit: float, origin: Tuple[float, float, float]) -> Rounded:
    points = Filed("i")
    for block in blocks_of(soup.points):
        places = array("i", bytes(4 * len(block)))
        for axis in range(3):
            start = origin[axis]
            found = [round((number - start) / unit) for number in block[axis::3]]
            if max(map(abs, found), default=0) > _MOST_PLACE:
                raise WorldFault(f"more than {_MOST_PLACE:,} units across: take a larger unit")
            places[axis::3] = array("i", found)
        points.extend(places)
    return Rounded(points, _joined(points, _cut_polygons(points, soup)))


def _joined(points: Filed, corners: Filed) -> Filed:
    """The corners with those at one place as one point. The points are parted by a sum of their
    places, and each part is joined by itself."""
    parts = [Filed("i") for _ in range(1 + len(points) // 3 // _BUCKET)]
    numbers = chain.from_iterable(points.blocks())
    for number, place in enumerate(zip(numbers, numbers, numbers)):
        parts[hash(place) % len(parts)].extend((*place, number))
    firsts = Filed("I")
    firsts.extend_by_zeros(len(points) // 3)
    first, joined = firsts.whole(), 0
    for part in parts:
        first_at: Dict[Place, int] = {}
        numbers = chain.from_iterable(part.blocks())
        for x, y, z, number in zip(numbers, numbers, numbers, numbers):
            first[number] = first_at.setdefault((x, y, z), number)
        joined += len(first_at)
        firsts.let_go()
    if joined == len(first):
        return corners
    found = Filed("I")
    for block in corners.blocks():
        found.extend([first[corner] for corner in block])
        firsts.let_go()
    return found


def _cut_polygons(points: Filed, soup: Soup) -> Filed:
    """The corners with the polygons cut as `prepare` cuts them."""
    corners = Filed("I")
    if not len(soup.polygons):
        for block in blocks_of(soup.corners):
            corners.extend(block)
        return corners
    places = points.whole()

    def place(point: int) -> Place:
        x, y, z = places[3 * point : 3 * point + 3]
        return x, y, z

    for number, named in enumerate(polygons_of(soup)):
        for face in [named] if len(named) == 3 else triangles_of(named, place):
            corners.extend(face)
        if number % _BLOCK == 0:
            points.let_go()
    return corners


def _blocks(faces: memoryview) -> Iterator[memoryview]:
    return (faces[at : at + _BLOCK] for at in range(0, len(faces), _BLOCK))


def _bag_box(soup: Rounded, faces: memoryview) -> Tuple[Place, Place]:
    """The box of all corners of some faces."""
    corners, points = soup.corners, soup.points
    lows, highs = [_MOST_PLACE] * 3, [-_MOST_PLACE] * 3
    for block in _blocks(faces):
        used = {corner for f in block for corner in corners[3 * f : 3 * f + 3]}
        for axis in range(3):
            numbers = [points[3 * corner + axis] for corner in used]
            lows[axis] = min(lows[axis], min(numbers))
            highs[axis] = max(highs[axis], max(numbers))
        soup.let_go()
    return (lows[0], lows[1], lows[2]), (highs[0], highs[1], highs[2])


def _keys(soup: Rounded, faces: memoryview, axis: int) -> Filed:
    """Three times the middle of each face."""
    corners, points = soup.corners, soup.points
    keys = Filed("i")
    for block in _blocks(faces):
        keys.extend([
            points[3 * corners[3 * f] + axis] + points[3 * corners[3 * f + 1] + axis]
            + points[3 * corners[3 * f + 2] + axis] for f in block
        ])
        soup.let_go()
    return keys


def _threshold(keys: Filed, low: int, high: int, share: float) -> int:
    """A number below which about this share of the keys lies, but neither none nor all; keys go
    from `low` to `high`, which aren't the same."""
    width = max(1, -(-(high - low + 1) // _BINS))
    counts = [0] * ((high - low) // width + 1)
    for key in chain.from_iterable(keys.blocks()):
        counts[(key - low) // width] += 1
    passed, best, found = 0, 2 * len(keys), low + 1
    for number, count in enumerate(counts[:-1]):  # the last bin has the greatest key
        passed += count
        off = abs(passed - round(share * len(keys)))
        if off < best:
            best, found = off, low + width * (number + 1)
    return found


def _ways(
    soup: Rounded, faces: memoryview, most: int, low: Place, high: Place
) -> Iterator[bytearray]:
    """Which faces are below planes that part them: across the longest axis first, where each half
    has its share."""
    parts = parts_for(len(faces), most)
    share = (parts // 2) / parts if parts > 1 else 0.5
    for axis in sorted(range(3), key=lambda axis: low[axis] - high[axis]):
        keys = _keys(soup, faces, axis)
        least, greatest = min(map(min, keys.blocks())), max(map(max, keys.blocks()))
        if least == greatest:
            continue
        for more in _SHARES:
            at = _threshold(keys, least, greatest, share + more)
            sides = bytearray()
            for block in keys.blocks():
                sides += bytes([key < at for key in block])
            yield sides


def _halved(
    soup: Rounded, faces: memoryview, most: int, box: Tuple[Place, Place], opened: Set[Edge]
) -> Optional[Parted]:
    """The faces in two halves, of which neither touches itself; as a plane parts them where there
    is no other way. None where all faces have one middle."""
    best = None
    for sides in _ways(soup, faces, most, *box):
        found = parted(soup.bag(faces), sides, opened)
        if not found.touching:
            return found
        best = best or found
    return best


def _once_each(soup: Rounded, faces: memoryview, most: int) -> memoryview:
    """Of faces that have one middle those that a tile keeps: with three different corners, and of
    those with the same ones the first. WorldFault where one tile doesn't take them."""
    first: Dict[FrozenSet[int], int] = {}
    for face in faces:
        corners = frozenset(soup.face(face))
        if len(corners) == 3 and len(first) <= most:
            first.setdefault(corners, face)
    found = _chosen(first.values(), repeat(1))
    if len(found) == 1 and not fits(*_bag_box(soup, found)):
        raise WorldFault("a face is longer than 65,534 units: take a larger unit")
    if len(found) > most or not fits(*_bag_box(soup, found)):
        raise WorldFault(
            f"{len(faces)} faces have one middle and can't be parted: take more faces a tile,"
            " or a larger unit where the faces are long"
        )
    return found


def _chosen(faces: Iterable[int], sides: Iterable[int]) -> memoryview:
    found = Filed("I")
    wanted = compress(faces, sides)
    while len(block := array("I", islice(wanted, _BLOCK))):
        found.extend(block)
    return found.whole()


def cut_soup(
    soup: Rounded, most: int, known: Container[str], say: Callable[[str], None]
) -> Iterator[Half]:
    """The tree of a soup, each node before what is under it."""
    every = range(len(soup.corners) // 3)
    waiting: List[Tuple[str, memoryview]] = [("", _chosen(every, repeat(1)))]
    opened: Set[Edge] = set()
    touching = 0
    while waiting:
        name, bag = waiting.pop()
        box, kept = _bag_box(soup, bag), bag
        if len(bag) > most or not fits(*box):
            halves = _halved(soup, bag, most, box, opened)
            if halves:
                yield Half(name)
                touching += halves.touching
                waiting.append((name + "1", _chosen(bag, map(not_, halves.sides))))
                waiting.append((name + "0", _chosen(bag, halves.sides)))
                continue
            kept = _once_each(soup, bag, most)
        piece = None if name in known else _bag_piece(soup, kept, opened)
        yield Half(name, piece, len(bag), True, len(bag) - len(kept))
    if opened:
        say(f"{len(opened)} edges between tiles are cut open in all: no manifold is there")
    if touching:
        say(f"{touching} vertices stayed at which a tile touches itself: take more faces a tile")


def _bag_piece(soup: Rounded, bag: memoryview, opened: Set[Edge]) -> Piece:
    number_of: Dict[int, int] = {}
    faces: List[Corners] = []
    for face in bag:
        a, b, c = (number_of.setdefault(point, len(number_of)) for point in soup.face(face))
        faces.append((a, b, c))
    edges = frozenset(
        frozenset(soup.place(point) for point in edge)
        for edge in opened if all(point in number_of for point in edge)
    )
    return Piece([soup.place(point) for point in number_of], faces, edges)
