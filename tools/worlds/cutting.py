"""Which tile each face belongs to: a tree of halves, whose leaves are tiles of at most so many
faces, and whose box fits into the coordinates of a stream.

A height field is halved along its rows and columns; soups cuts what is none.
"""
from dataclasses import dataclass
from itertools import chain
from math import isnan
from typing import Container, FrozenSet, Iterator, List, NamedTuple, Optional, Tuple

from .form import Corners, Place, WorldFault, box_of, fits
from .heights import Heights


class Piece(NamedTuple):
    """The faces of a tile: places of the world, faces over them, and the edges, by places, at which
    a surface that isn't a manifold is cut open in this tile and in others. The `border` is known of
    faces that are a manifold over different places, which then aren't looked through."""

    places: List[Place]
    faces: List[Corners]
    opened: FrozenSet[FrozenSet[Place]] = frozenset()
    border: Optional[List[Tuple[int, int]]] = None  # sides by their ends


@dataclass(frozen=True)
class Half:
    """A node of the tree: its name is the way from the root, a 0 or a 1 a step. The leaves have
    pieces, but for those that are known; `faces` counts those of a leaf at most, and of these
    `dropped` ones, degenerate or duplicate, aren't in its piece."""

    name: str
    piece: Optional[Piece] = None
    faces: int = 0
    is_leaf: bool = False
    dropped: int = 0


def parts_for(faces: int, most: int) -> int:
    """How many tiles so many faces take at least."""
    return max(1, -(-faces // most))


# --- height fields


class Grid(NamedTuple):
    """A height field in whole numbers of the world's unit, with `unknown` where there is none."""

    heights: Heights
    unit: float
    origin: Tuple[float, float, float]

    def places(self, row: int, west: int, east: int) -> List[Optional[Place]]:
        """The places of a row from one column to another, None where no height is known."""
        field, unit, lowest = self.heights, self.unit, self.origin[2]
        y = round(row * field.along / unit)
        return [
            None if isnan(height) else (x, y, round((height - lowest) / unit))
            for x, height in zip(self.columns(west, east), field.part(row, west, east))
        ]

    def columns(self, west: int, east: int) -> List[int]:
        step, unit = self.heights.across, self.unit
        return [round(column * step / unit) for column in range(west, east + 1)]


class Range(NamedTuple):
    """Points of a grid: rows and columns from the first to the last, both of which count."""

    name: str
    south: int
    north: int
    west: int
    east: int

    @property
    def faces(self) -> int:
        return 2 * (self.north - self.south) * (self.east - self.west)


def _halves(one: Range, most: int) -> Tuple[Range, Range]:
    """Cuts across the longer way, so that each half takes its share of the tiles that are
    needed."""
    parts = parts_for(one.faces, most)
    share = (parts // 2) / parts if parts > 1 else 0.5
    high, wide = one.north - one.south, one.east - one.west
    if high >= wide:
        at = one.south + max(1, min(high - 1, round(high * share)))
        low, up = one._replace(north=at), one._replace(south=at)
    else:
        at = one.west + max(1, min(wide - 1, round(wide * share)))
        low, up = one._replace(east=at), one._replace(west=at)
    return low._replace(name=one.name + "0"), up._replace(name=one.name + "1")


def _piece_of(grid: Grid, one: Range) -> Piece:
    """Two faces a cell, parted by the diagonal that goes north-east. A face with a corner whose
    height isn't known is left out."""
    wide = one.east - one.west + 1
    places: List[Place] = []
    known: List[bool] = []
    for row in range(one.south, one.north + 1):
        found = grid.places(row, one.west, one.east)
        known += [place is not None for place in found]
        places += [place or (0, 0, 0) for place in found]
    faces: List[Corners] = []
    for first in range(0, len(places) - wide, wide):
        for here in range(first, first + wide - 1):
            there = here + wide
            faces.append((here, here + 1, there + 1))
            faces.append((here, there + 1, there))
    if all(known):
        return Piece(places, faces, border=_around(wide, len(places)))
    return Piece(places, [(a, b, c) for a, b, c in faces if known[a] and known[b] and known[c]])


def _around(wide: int, points: int) -> List[Tuple[int, int]]:
    """The border sides of rows of points, so many in each, counterclockwise."""
    south_east, north_west = wide - 1, points - wide
    way = [*range(south_east), *range(south_east, points - 1, wide)]
    way += [*range(points - 1, north_west, -1), *range(north_west, -1, -wide)]
    return list(zip(way, way[1:]))


def cut_grid(grid: Grid, most: int, known: Container[str]) -> Iterator[Half]:
    """The tree of a height field, each node before what is under it."""
    field = grid.heights
    if field.rows < 2 or field.columns < 2:
        raise WorldFault("a height field has two rows and two columns at least")
    waiting = [Range("", 0, field.rows - 1, 0, field.columns - 1)]
    while waiting:
        one = waiting.pop()
        if one.name in known:
            yield Half(one.name, None, one.faces, True)
            continue
        piece = _piece_of(grid, one) if one.faces <= max(most, 2) else None
        if piece is not None and _fits(piece):
            yield Half(one.name, piece, one.faces, True)
        elif one.faces <= 2:
            raise WorldFault("a cell is longer than 65,534 units: take a larger unit")
        else:
            yield Half(one.name)
            waiting += reversed(_halves(one, most))


def _fits(piece: Piece) -> bool:
    used = set(chain.from_iterable(piece.faces))
    return not used or fits(*box_of(piece.places[corner] for corner in used))
