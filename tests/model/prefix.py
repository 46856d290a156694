"""The first records of a hierarchy as a hierarchy of its own: its leaves are the nodes that are
active once these are split. All is by docs/FORMATS.md."""
from typing import List, Optional

from .front import active_nodes
from .hierarchy import BaseFace, Child, Hierarchy, NewFace, Node, Record, Root
from .mesh import Corners


class Merging:
    """The leaves of a hierarchy, those under one active node merged to one."""

    def __init__(self, h: Hierarchy, n: int) -> None:
        self.h = h
        active = [h.nodes[node] for node in active_nodes(h, set(range(n)))]
        self.leaves = sorted(active, key=lambda node: node.first)

    def leaf(self, leaf: int) -> int:
        """The number of a leaf's ancestor in the order of leaves."""
        [number] = [i for i, node in enumerate(self.leaves) if node.holds(leaf)]
        return number

    def corners(self, corners: Corners) -> Corners:
        a, b, c = corners
        return self.leaf(a), self.leaf(b), self.leaf(c)

    def under(self, node: Node) -> List[int]:
        return [i for i, leaf in enumerate(self.leaves) if node.holds(leaf.first)]

    def input(self, node: Node) -> int:
        """The vertices of the input are the leaves in their order."""
        leaves = self.under(node)
        return leaves[0] + 1 if len(leaves) == 1 else 0

    def root(self, v: int) -> Root:
        node = self.h.nodes[v]
        return Root(node.place, len(self.under(node)), self.input(node))

    def base(self, f: int) -> BaseFace:
        return BaseFace(self.corners(self.h.bases[f].corners), f + 1)

    def new_face(self, face: Optional[NewFace], f: int) -> Optional[NewFace]:
        if face is None:
            return None
        return face._replace(corners=self.corners(face.corners), input=f + 1)

    def record(self, k: int) -> Record:
        record = self.h.records[k]
        t, u = [self.h.nodes[child] for child in self.h.children(k)]
        faces = self.h.faces_of(k)
        return Record(
            record.s,
            len(self.under(t)),
            Child(t.place, self.input(t)),
            Child(u.place, self.input(u)),
            self.new_face(record.left, faces[0]),
            self.new_face(record.right, faces[-1]),
        )


def first_records(h: Hierarchy, n: int) -> Hierarchy:
    """The first n records of a hierarchy, of which later records needn't be there."""
    merging, first = Merging(h, n), Hierarchy()
    for v in range(len(h.roots)):
        first.add_root(merging.root(v))
    for f in range(len(h.bases)):
        first.add_base(merging.base(f))
    for k in range(n):
        first.add_record(merging.record(k))
    return first
