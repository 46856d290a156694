"""Fronts as sets of split records: ancestors, kept faces, what stands beyond a side, legal moves,
and valid hierarchies."""
from typing import AbstractSet, List, Optional, Set, Tuple

from .faults import Fault
from .hierarchy import Hierarchy
from .mesh import ends, face_of, first_repeating, following
from .obj import EDGE_TWICE

BAD_NEIGHBOUR = 28
Front = AbstractSet[int]  # the records that are split


def is_active(h: Hierarchy, split: Front, node: int) -> bool:
    """A root or a child of a split record, which no split record splits."""
    maker = h.nodes[node].maker
    return (maker is None or maker in split) and h.splitters.get(node) not in split


def active_nodes(h: Hierarchy, split: Front) -> List[int]:
    return [node for node in range(len(h.nodes)) if is_active(h, split, node)]


def ancestor(h: Hierarchy, split: Front, node: int) -> int:
    """The active node that is met on the way up from a leaf's node."""
    while not is_active(h, split, node):
        node = h.parent(node)
    return node


class Shown:
    """The mesh that a front shows: the active nodes, and all faces with the ancestors of their
    corners, of which those with three different ones are kept."""

    def __init__(self, h: Hierarchy, split: Front) -> None:
        self.nodes = active_nodes(h, split)
        above = [ancestor(h, split, leaf) for leaf in h.leaf_nodes()]
        self.faces = {f: (above[a], above[b], above[c]) for f, (a, b, c) in enumerate(h.faces)}
        self.kept = [f for f, corners in self.faces.items() if len(set(corners)) == 3]
        self.twins = h.leaf_twins()

    def is_kept(self, face: int) -> bool:
        return face in self.kept

    def ends(self, side: int) -> Tuple[int, int]:
        """The ancestors of the two leaves that a side joins."""
        return ends(self.faces, side)

    def way_out(self, side: int) -> int:
        """The other side of a dropped face whose two ends have different ancestors."""
        p, q = following(side), following(following(side))
        return p if len(set(self.ends(p))) == 2 else q

    def beyond(self, side: int) -> Optional[int]:
        """From a kept face's side to its twin, and out of each dropped face by its other side, up
        to a kept face or a side without twin."""
        twin = self.twins.get(side)
        while twin is not None and not self.is_kept(face_of(twin)):
            twin = self.twins.get(self.way_out(twin))
        return twin


def inner_side(h: Hierarchy, k: int, face: int) -> int:
    """The side of a record's face that joins its t corner and its u corner."""
    s = h.nodes[h.records[k].s]
    [inner] = [
        side
        for side in (3 * face, 3 * face + 1, 3 * face + 2)
        if all(s.holds(leaf) for leaf in ends(h.leaf_faces(), side))
    ]
    return inner


def told(h: Hierarchy, k: int) -> List[Tuple[int, Optional[int]]]:
    """The outer sides of a record's faces in order, each with what is recorded beyond it."""
    pairs = []
    for number, face in zip(h.faces_of(k), h.records[k].new_faces()):
        first = following(inner_side(h, k, number))
        pairs += [(first, face.first), (following(first), face.second)]
    return pairs


def told_inside(h: Hierarchy, k: int) -> List[Tuple[int, Optional[int]]]:
    """The inner sides, each with that of the other face, or none where there is one face."""
    inner = [inner_side(h, k, face) for face in h.faces_of(k)]
    return list(zip(inner, inner[::-1])) if len(inner) == 2 else [(inner[0], None)]


def needs(h: Hierarchy, k: int) -> Set[int]:
    """The record that made the node which k splits, and those that bring in its recorded
    neighbours."""
    found = [h.nodes[h.records[k].s].maker]
    found += [h.revealers[face_of(side)] for _, side in told(h, k) if side is not None]
    return {record for record in found if record is not None}


def split_reply(h: Hierarchy, split: Front, k: int) -> str:
    """A split needs an active node, and that all recorded neighbours are kept."""
    if k in split or not is_active(h, split, h.records[k].s):
        return "not active"
    shown = Shown(h, split)
    for _, side in told(h, k):
        if side is not None and not shown.is_kept(face_of(side)):
            return f"blocked {face_of(side)}"
    return "ok"


def collapse_reply(h: Hierarchy, split: Front, k: int) -> str:
    """A collapse needs both children active, and beyond each outer side what is recorded there."""
    if k not in split or not all(is_active(h, split, node) for node in h.children(k)):
        return "not active"
    shown = Shown(h, split)
    for side, neighbour in told(h, k):
        other = shown.beyond(side)
        if other != neighbour:
            assert other is not None, "in a valid hierarchy a face stands beyond"
            return f"blocked {face_of(other)}"
    return "ok"


def is_as_told(h: Hierarchy, k: int) -> bool:
    """In the front of the records up to k, what is recorded stands beyond the sides of k's faces,
    and the inner sides stand beyond each other."""
    shown = Shown(h, set(range(k + 1)))
    return all(shown.beyond(side) == other for side, other in told(h, k) + told_inside(h, k))


def judge_hierarchy(h: Hierarchy) -> None:
    """No directed side of the leaf mesh stands twice, and each record is as told."""
    face = first_repeating(h.faces)
    if face is not None:
        raise Fault(EDGE_TWICE, f"face {face}")
    for k in reversed(range(len(h.records))):
        if not is_as_told(h, k):
            raise Fault(BAD_NEIGHBOUR, f"record {k}")
