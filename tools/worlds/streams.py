"""Reads of a stream text (docs/FORMATS.md) what a world asks of it: its full mesh, which of its
vertices can never move, and how far its nodes are from what they stand for. `vdpm check` has judged
the bytes before."""
import sys
from array import array
from math import isqrt
from typing import Dict, List, NamedTuple, Set, Tuple

from .form import Corners, Place, Side, moved
from .mending import border_sides

_HEAD, _ROOT, _BASE, _RECORD, _NEW = 4, 5, 4, 11, 6  # words
_BOTH = 3


class Record(NamedTuple):
    """What it splits, the records and how many faces it brings; `needs` are records with lesser
    numbers."""

    node: int
    faces: int
    needs: Tuple[int, ...]


class Stream(NamedTuple):
    """The nodes' places and widths, and the faces over leaves, with each leaf's node. Of a leaf
    that is a root, nothing else is ever shown: it is fixed."""

    roots: int
    base: int
    records: List[Record]
    places: List[Place]
    widths: List[int]
    leaves: List[int]
    faces: List[Corners]

    def is_fixed(self, leaf: int) -> bool:
        return self.leaves[leaf] < self.roots

    def place(self, leaf: int) -> Place:
        return self.places[self.leaves[leaf]]


class _Reader:
    def __init__(self, data: bytes) -> None:
        self.words = array("i", data[4 : len(data) - len(data) % 4])
        if sys.byteorder == "big":
            self.words.byteswap()
        self.at = 2 if self.words[0] == 2 else 1
        self.places: List[Place] = []
        self.widths: List[int] = []
        self.firsts: List[int] = []
        self.makers: List[int] = []  # the record that made a node; -1 for roots
        self.faces: List[Corners] = []
        self.revealers: List[int] = []
        self.records: List[Record] = []

    def take(self, count: int) -> "array[int]":
        found = self.words[self.at : self.at + count]
        self.at += count
        return found

    def node(self, x: int, y: int, z: int, first: int, width: int, maker: int) -> None:
        self.places.append((x, y, z))
        self.firsts.append(first)
        self.widths.append(width)
        self.makers.append(maker)

    def face(self, count: int, revealer: int) -> "array[int]":
        words = self.take(count)
        self.faces.append((words[0], words[1], words[2]))
        self.revealers.append(revealer)
        return words

    def record(self, number: int) -> None:
        s, width, x, y, z, _, i, j, k, _, presence = self.take(_RECORD)
        first = self.firsts[s]
        self.node(x, y, z, first, width, number)
        self.node(i, j, k, first + width, self.widths[s] - width, number)
        count = 2 if presence == _BOTH else 1
        needs = {self.makers[s]}
        for _ in range(count):
            *_, one, other = self.face(_NEW, number)
            needs |= {self.revealers[(word - 1) // 3] for word in (one, other) if word}
        needs -= {-1, number}
        self.records.append(Record(s, count, tuple(needs)))


def read_stream(data: bytes) -> Stream:
    reader = _Reader(data)
    count, roots, base, records = reader.take(_HEAD)
    first = 0
    for _ in range(roots):
        x, y, z, width, _ = reader.take(_ROOT)
        reader.node(x, y, z, first, width, -1)
        first += width
    for _ in range(base):
        reader.face(_BASE, -1)
    for number in range(records):
        reader.record(number)
    leaves = [0] * count
    for node, width in enumerate(reader.widths):
        if width == 1:
            leaves[reader.firsts[node]] = node
    return Stream(
        roots, base, reader.records, reader.places, reader.widths, leaves, reader.faces
    )


class Border(NamedTuple):
    """The border of a stream's full mesh: its sides by leaves, the other directed sides between
    their ends, where these stand in the world, and those that could be collapsed."""

    leaves: List[Tuple[int, int]]
    chords: List[Tuple[int, int]]
    places: Dict[int, Place]
    loose: List[Place]

    @property
    def sides(self) -> List[Side]:
        """The sides by places of the world."""
        return [(self.places[start], self.places[end]) for start, end in self.leaves]


def border_of(stream: Stream, offset: Place) -> Border:
    found = border_sides(stream.faces)
    ends = {leaf for side in found for leaf in side}
    at = {leaf: moved(stream.place(leaf), offset) for leaf in ends}
    loose = [at[leaf] for leaf in sorted(ends) if not stream.is_fixed(leaf)]
    on_border = set(found)
    chords = [
        side for a, b, c in stream.faces for side in ((a, b), (b, c), (c, a))
        if side[0] in ends and side[1] in ends and side not in on_border
    ]
    return Border(found, chords, at, loose)


def distance_up(p: Place, q: Place) -> int:
    squared = sum((a - b) ** 2 for a, b in zip(p, q))
    return isqrt(squared - 1) + 1 if squared else 0


def errors_of(stream: Stream) -> List[int]:
    """The error of each node, as docs/FORMATS.md has it: how far the vertices that it stands for
    may be from its place."""
    errors = [0] * len(stream.places)
    for number in range(len(stream.records) - 1, -1, -1):
        node, t = stream.records[number].node, stream.roots + 2 * number
        errors[node] = max(
            errors[child] + distance_up(stream.places[node], stream.places[child])
            for child in (t, t + 1)
        )
    return errors


def closed(stream: Stream, wanted: Set[int]) -> Set[int]:
    """The records that are wanted, what they need, what that needs, and so on."""
    found = set(wanted)
    for number in range(len(stream.records) - 1, -1, -1):
        if number in found:
            found.update(stream.records[number].needs)
    return found


def face_count(stream: Stream, records: Set[int]) -> int:
    return stream.base + sum(stream.records[number].faces for number in records)
