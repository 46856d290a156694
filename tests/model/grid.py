"""The grid that leaves of a packed text may stand on, and the plane round a node. All is by
docs/FORMATS.md, with its words."""
from typing import List, NamedTuple, Tuple

from .coder import GREATEST

Way = Tuple[int, int, int]


class Node(NamedTuple):
    x: int = 0
    y: int = 0
    z: int = 0
    first: int = 0
    width: int = 0
    input: int = 0

    def end(self) -> int:
        return min(self.first + self.width, GREATEST)

    def has(self, leaf: int) -> bool:
        return self.first <= leaf < self.end()

    def places(self) -> Way:
        return place(self.x), place(self.y), place(self.z)


def place(word: int) -> int:
    return min((word + 32768) % 2**32, 65535)


def word_of(number: int) -> int:
    return (number - 32768) % 2**32


def up(start: int, end: int) -> int:
    return (end - start) % 2**32


class Axis:
    """The last difference of two leaves, the step, the last leaf's place, and how far the inputs of
    leaves a step apart are apart."""

    def __init__(self) -> None:
        self.last, self.step, self.place, self.input = 0, 0, 0, 0

    def take_step(self, start: int, end: int) -> None:
        far = abs(start - end)
        if far == 0:
            return
        if far == self.last:
            self.step = far
        elif self.step:
            self.step = 0
        else:
            self.last = far

    def moves(self, start: int, end: int) -> bool:
        return self.step != 0 and start != end

    def near(self, width: int, word: int) -> int:
        if width != 1 or not self.step:
            return word
        first = self.place % self.step
        above = max(place(word) + self.step // 2 - first, 0)
        return word_of(first + above - above % self.step)

    def input_along(self, number: int, before: int) -> int:
        if not self.step:
            return before
        return (before + (number // self.step - self.place // self.step) * self.input) % 2**32


class Grid:
    """The axes, and the input of the last leaf."""

    def __init__(self) -> None:
        self.axes, self.input = (Axis(), Axis(), Axis()), 0

    def known(self) -> bool:
        return any(axis.step for axis in self.axes)

    def input_of(self, node: Node) -> int:
        word = self.input
        for axis, number in zip(self.axes, node.places()):
            word = axis.input_along(number, word)
        return word

    def take_pair(self, t: Node, u: Node, first: int, second: int) -> None:
        ways = list(zip(self.axes, t.places(), u.places()))
        for axis, start, end in ways:
            axis.take_step(start, end)
        moved = [way for way in ways if way[0].moves(*way[1:])]
        if len(moved) == 1:
            axis, start, end = moved[0]
            axis.input = up(first, second) if start < end else up(second, first)

    def take_leaf(self, leaf: Node, word: int) -> None:
        self.input = word
        for axis, number in zip(self.axes, leaf.places()):
            axis.place = number


def way(start: Node, end: Node) -> Way:
    (a, b, c), (x, y, z) = start.places(), end.places()
    return x - a, y - b, z - c


def normal(ways: List[Way]) -> Way:
    """The sum of the cross products of each way and the next."""
    x, y, z = 0, 0, 0
    for (a, b, c), (d, e, f) in zip(ways, ways[1:]):
        x, y, z = x + b * f - c * e, y + c * d - a * f, z + a * e - b * d
    return x, y, z


def level(up_is: Way, node: Node, along: Way, other: int) -> int:
    """The word of z on the plane through a node at the end of a way, and another where that is
    steep."""
    x, y, z = up_is
    if z == 0 or abs(z) < abs(x) // 4 or abs(z) < abs(y) // 4:
        return other
    slope = x * along[0] + y * along[1]
    rise = min(abs(slope) // abs(z), 65535)
    number = place(node.z)
    return word_of(max(number - rise, 0) if (slope < 0) == (z < 0) else number + rise)
