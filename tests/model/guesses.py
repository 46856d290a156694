"""The words of a stream text by guesses of them: what each is guessed to be, and the choices that
tell it. All is by docs/FORMATS.md, with its words."""
from typing import List

from .coder import CUT, GREATEST, Writer
from .faults import Fault
from .grid import Node, level, normal, way
from .past import Seen, next_side
from .shares import OFF_GRID, Shares

# By field of a coordinate its axis, and 0 for t and 1 for u.
PLACES = {18: (0, 0), 19: (1, 0), 20: (2, 0), 22: (0, 1), 23: (1, 1), 24: (2, 1)}


def width_class(n: int) -> int:
    return n if n < 8 else 8 if n < 32 else 9 if n < 256 else 10 if n < 4096 else 11


class Words(Seen):
    """Makes words, one after the other, by guesses."""

    def __init__(self, coder: Writer) -> None:
        super().__init__()
        self.coder, self.shares, self.contexts = coder, Shares(), [0]

    def bit(self, set_: int, place_: int, wanted: bool) -> bool:
        return self.shares.choice(self.coder, set_, self.contexts, place_, wanted)

    def number(self, set_: int, wanted: int) -> int:
        n, top = wanted + 1, 0
        while top < 31 and self.bit(set_, top, n >> top >= 2):
            top += 1
        value, place, bound, rest = 1 << top, 32 + top, 1 << top, n - (1 << top)
        while bound > 1:
            bound //= 2
            upper = self.bit(set_ + 1, place, rest >= bound)
            place = place % (1 << 30) * 2 + upper
            if upper:
                value, rest = value + bound, rest - bound
        return value - 1

    def guessed(self, firsts: List[int], last: int, wanted: int) -> int:
        for i, guess in enumerate(firsts):
            if self.bit(3 * self.field, len(firsts) - i, wanted == guess):
                if guess in firsts[:i]:
                    raise Fault(CUT)
                return guess
        word = self.guessed_last(last, wanted)
        if word in firsts:
            raise Fault(CUT)
        return word

    def guessed_last(self, guess: int, wanted: int) -> int:
        if self.bit(3 * self.field, 0, wanted == guess):
            return guess
        up = (wanted - guess) % (1 << 32)
        n = 2 * (up - 1) if up <= 1 << 31 else 2 * ((1 << 32) - up) - 1
        n = self.number(3 * self.field + 1, n)
        return (guess + n // 2 + 1 if n % 2 == 0 else guess - n // 2 - 1) % (1 << 32)

    def word(self, wanted: int) -> int:
        detail = self.detail()
        self.contexts = [self.kind(), detail] if detail else [self.kind()]
        word = self.guessed(self.firsts(), self.guess(), wanted)
        self.take(word)
        return word

    def kind(self) -> int:
        f = self.field
        if f in PLACES:
            return self.place_kind()
        if 26 < f < 31:
            return self.corner_kind() if f < 30 else self.face_kind()
        width = width_class(self.split().width)
        return 0 if f < 17 else width if f == 17 else 16 * width + width_class(self.last[17])

    def place_kind(self) -> int:
        axis, child = PLACES[self.field]
        if not self.grid.axes[axis].step:
            return OFF_GRID
        return 1 if self.children()[child].width == 1 else 2

    def corner_kind(self) -> int:
        own, other = self.own_and_other()
        edge = self.edge()
        turns = edge % 3 * 3 + self.across(edge) % 3
        return 16 * (16 * min(own.width, 3) + min(other.width, 3)) + turns

    def face_kind(self) -> int:
        t, u = self.children()
        outer = next((i for i in (0, 1) if not self.is_inner(self.last[27 + i])), 2)
        edge = self.edge()
        turns = 36 * outer + 6 * self.turn(edge) + self.turn(self.across(edge))
        return 4 * turns + min(max(t.width, u.width), 3)

    def detail(self) -> int:
        f = self.field
        if f == 17:
            return 2048 + min(self.split().width, 255)
        if f == 26:
            return 2048 + len(self.ring)
        if not 26 < f < 31:
            return 0
        a, b = self.input(self.edge()), self.input(self.across(self.edge()))
        if f == 30:
            return 2048 + 2 * abs(a - b).bit_length() + (a < b)
        order = a % 2 + 2 * (b % 2) + 4 * (a < b) + 8 * (abs(a - b) == 1)
        return 1024 * (order + 2) + self.corner_kind()

    def turn(self, side: int) -> int:
        return side % 3 * 2 + self.input(side) % 2

    def is_inner(self, leaf: int) -> bool:
        t, u = self.children()
        return t.has(leaf) or u.has(leaf)

    def firsts(self) -> List[int]:
        f = self.field
        if f == 16:
            last = self.last[16]
            return [min(last + 2, GREATEST), max(last - 1, 0), min(last + 3, GREATEST)]
        if f == 30:
            return [self.input_after(self.across(self.edge()))]
        return self.corner_firsts() if 26 < f < 30 else []

    def corner_firsts(self) -> List[int]:
        own, other = self.own_and_other()
        edge = self.edge()
        beyond = self.across(edge)
        first = self.corner(edge) if edge else own.first
        second = self.corner(next_side(beyond)) if beyond else other.first
        outer = [self.corner(next_side(edge)), self.corner(beyond)]
        if self.field == 27:
            return [first, second] + outer
        corner = self.last[self.field - 1]
        return [second] if own.has(corner) else outer if other.has(corner) else [first]

    def guess(self) -> int:
        f, w = self.field, self.last
        if f in PLACES:
            return self.place_guess()
        if f == 11:
            return min(w[11] + 1, GREATEST) if w[10] == 1 else 0
        if f in (21, 25):
            return self.input_guess()
        if f in (16, 17):
            return len(self.nodes) if f == 16 else self.split().width
        return 3 if f == 26 else self.face_guess(f) if f > 26 else w[f]

    def place_guess(self) -> int:
        w, s = self.last, self.split()
        axis, child = PLACES[self.field]
        plain = s[axis] if child == 0 else (2 * s[axis] - w[self.field - 4]) % 2**32
        if axis == 2:
            x, y = w[self.field - 2 : self.field]
            ways = [way(s, self.node(spoke.node)) for spoke in self.ring]
            plain = level(normal(ways), s, way(s, Node(x, y)), plain)
        return self.grid.axes[axis].near(self.children()[child].width, plain)

    def input_guess(self) -> int:
        w, f = self.last, self.field
        child = self.children()[0 if f == 21 else 1]
        if child.width != 1:
            return 0
        if self.grid.known():
            return self.grid.input_of(child)
        before = w[21] if f == 25 and w[17] == 1 else self.beside(w[f])
        return min(before + 1, GREATEST)

    def beside(self, other: int) -> int:
        """The input word of the first leaf round the split node, or another one."""
        round_it = (self.node(spoke.node) for spoke in self.ring)
        return next((node.input for node in round_it if node.width == 1), other)

    def face_guess(self, f: int) -> int:
        if f == 27:
            return self.split().first
        if f < 30:
            own, other = self.own_and_other()
            corner = self.last[f - 1]
            node = other if own.has(corner) else self.split() if other.has(corner) else own
            return node.first
        if f == 30:
            return self.input_after(self.edge())
        if f == 31:
            return self.across(self.edge())
        return self.across(self.last[31]) if self.last[31] else self.edge()
