"""What is known of a stream text before each of its words: nodes, faces, the ring of the node that
a record splits, and the grid of leaves. All is by docs/FORMATS.md, with its words."""
from typing import List, NamedTuple, Tuple

from .coder import GREATEST
from .grid import Grid, Node

RING = 12


class Spoke(NamedTuple):
    """A side, the corner that it starts at, and the node that it leads to."""

    side: int
    leaf: int
    node: int


def at(numbers: List[int], i: int) -> int:
    return numbers[i] if 0 <= i < len(numbers) else 0


def put(numbers: List[int], i: int, n: int) -> None:
    if i in range(len(numbers)):
        numbers[i] = n


def next_side(side: int) -> int:
    return max(side - 1, 0) // 3 * 3 + side % 3 + 1


def previous_side(side: int) -> int:
    return max(side - 1, 0) // 3 * 3 + (side + 1) % 3 + 1


class Seen:
    """What the words so far tell."""

    def __init__(self) -> None:
        self.field, self.roots, self.bases, self.new_faces = 0, 0, 0, 0
        self.last = [0] * 33
        self.nodes: List[Node] = []
        # By side its corner, the node over that and the side beyond it, by face its input, by node
        # a side from it, and the sides round the split node.
        self.corners: List[int] = []
        self.owners: List[int] = []
        self.beyond: List[int] = []
        self.inputs: List[int] = []
        self.starts: List[int] = []
        self.ring: List[Spoke] = []
        self.inner = 0
        self.grid = Grid()

    def node(self, i: int) -> Node:
        return self.nodes[i] if 0 <= i < len(self.nodes) else Node()

    def split(self) -> Node:
        return self.node(self.last[16])

    def children(self) -> Tuple[Node, Node]:
        w, s = self.last, self.split()
        t = Node(w[18], w[19], w[20], s.first, w[17], w[21])
        return t, Node(w[22], w[23], w[24], t.end(), max(s.width - w[17], 0), w[25])

    def is_left(self) -> bool:
        return self.last[26] != 2 and self.inner == 0

    def own_and_other(self) -> Tuple[Node, Node]:
        t, u = self.children()
        return (t, u) if self.is_left() else (u, t)

    def across(self, side: int) -> int:
        return at(self.beyond, side - 1)

    def corner(self, side: int) -> int:
        return at(self.corners, side - 1)

    def far(self, side: int) -> int:
        return at(self.owners, next_side(side) - 1)

    def input(self, side: int) -> int:
        return at(self.inputs, (side - 1) // 3) if side else 0

    def input_after(self, side: int) -> int:
        return min(self.input(side) + 1, GREATEST)

    def walk(self, start: int) -> List[Spoke]:
        ring: List[Spoke] = []
        side = start = self.first_side(start)
        while side and len(ring) < RING:
            ring.append(Spoke(side, self.corner(side), self.far(side)))
            side = self.across(previous_side(side))
            side = 0 if side == start else side
        return ring

    def first_side(self, start: int) -> int:
        """Back round the node up to the border, or to the side after `start`."""
        side = start
        for _ in range(RING):
            beyond = self.across(side)
            before = next_side(beyond) if beyond else 0
            if before in (0, start):
                break
            side = before
        return side

    def edge(self) -> int:
        """The side of the ring where the faces under the one child and the other part."""
        own, other = self.own_and_other()
        for spoke in self.ring:
            beyond = self.across(spoke.side)
            parts = not beyond or other.has(self.corner(next_side(beyond)))
            if own.has(spoke.leaf) and parts:
                return spoke.side
        return 0

    def take(self, word: int) -> None:
        f, w = self.field, self.last
        w[f] = word
        self.roots, self.bases = word if f == 4 else self.roots, word if f == 5 else self.bases
        self.new_faces = (2 if word == 3 else 1) if f == 26 else self.new_faces
        ends = {11: self.end_root, 15: self.end_base, 26: self.end_head, 32: self.end_face}
        if f == 16:
            self.ring = self.walk(at(self.starts, word))
        if f in ends:
            ends[f]()
        if f == 6 or f in ends:
            self.next_unit()
        else:
            self.field = 3 if f == 1 and word != 2 else f + 1

    def next_unit(self) -> None:
        if self.roots:
            self.field, self.roots = 7, self.roots - 1
        elif self.bases:
            self.field, self.bases = 12, self.bases - 1
        elif self.new_faces:
            self.field, self.new_faces = 27, self.new_faces - 1
        else:
            self.field = 16

    def end_root(self) -> None:
        w, before = self.last, self.node(len(self.nodes) - 1)
        self.nodes.append(Node(w[7], w[8], w[9], before.end(), w[10], w[11]))
        self.starts.append(0)

    def end_base(self) -> None:
        self.add_face(self.last[12:16], [0, 0, 0])

    def add_face(self, words: List[int], owners: List[int]) -> None:
        self.corners += words[:3]
        self.owners += owners
        self.beyond += [0, 0, 0]
        self.inputs.append(words[3])

    def end_head(self) -> None:
        t, u = self.children()
        self.take_leaves(t, u)
        for spoke in self.ring:
            number = len(self.nodes) + (0 if spoke.leaf < t.end() else 1)
            put(self.owners, spoke.side - 1, number)
        self.inner = 0
        self.nodes += [t, u]
        self.starts += [0, 0]

    def take_leaves(self, t: Node, u: Node) -> None:
        w = self.last
        if t.width == 1 and u.width == 1:
            self.grid.take_pair(t, u, w[21], w[25])
        if u.width == 1:
            self.grid.take_leaf(u, w[25])
        elif t.width == 1:
            self.grid.take_leaf(t, w[21])

    def over(self, leaf: int) -> int:
        t, u = self.children()
        count = len(self.nodes)
        return count - 2 if t.has(leaf) else count - 1 if u.has(leaf) else self.far(self.edge())

    def link(self, side: int, other: int) -> None:
        put(self.beyond, side - 1, other)
        put(self.beyond, other - 1, side)

    def end_face(self) -> None:
        own, _ = self.own_and_other()
        corner = next((i for i in range(3) if own.has(self.last[27 + i])), 0)
        inner = len(self.corners) + corner + 1
        own_place = len(self.nodes) - (2 if self.is_left() else 1)
        put(self.starts, own_place, inner)
        put(self.starts, 2 * len(self.nodes) - 3 - own_place, next_side(inner))
        self.add_face(self.last[27:31], [self.over(leaf) for leaf in self.last[27:30]])
        self.link(next_side(inner), self.last[31])
        self.link(previous_side(inner), self.last[32])
        self.link(inner, self.inner)
        self.inner = inner
