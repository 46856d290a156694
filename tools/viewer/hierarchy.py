"""Reads of a stream text (docs/FORMATS.md) what a film tells of its nodes: how deep each lies, and
the mean colour of the vertices that it stands for. `vdpm check` has judged the bytes before."""
import struct
from array import array
from typing import List, NamedTuple, Optional, Tuple

NO_PARENT = -1
DEEPEST = 255
_COUNTS = struct.Struct("<4I")
_FACE, _NEW_FACE = 16, 24
_HEAD = struct.Struct("<11I")
Colour = Tuple[int, int, int]


class Nodes(NamedTuple):
    """All nodes of a hierarchy: the parent of each, its depth, and the vertex of the input that it
    is, from 1; 0 where it stands for several."""

    parents: "array[int]"
    depths: "array[int]"
    vertices: "array[int]"


def nodes_of(stream: bytes) -> Nodes:
    (version,) = struct.unpack_from("<I", stream, 4)
    at = 12 if version == 2 else 8
    _, roots, base, records = _COUNTS.unpack_from(stream, at)
    at += _COUNTS.size
    count = roots + 2 * records
    nodes = Nodes(array("i", [NO_PARENT]) * count, array("B", [0]) * count, array("I", [0]) * count)
    for root in range(roots):
        (nodes.vertices[root],) = struct.unpack_from("<I", stream, at + 16)
        at += 20
    at += _FACE * base
    for record in range(records):
        head = _HEAD.unpack_from(stream, at)
        node, parent = roots + 2 * record, head[0]
        nodes.parents[node] = nodes.parents[node + 1] = parent
        nodes.depths[node] = nodes.depths[node + 1] = min(DEEPEST, nodes.depths[parent] + 1)
        nodes.vertices[node], nodes.vertices[node + 1] = head[5], head[9]
        at += _HEAD.size + _NEW_FACE * (2 if head[10] == 3 else 1)
    return nodes


def mean_colours(nodes: Nodes, colours: Optional[bytes]) -> Optional[List[Colour]]:
    """The mean colour of the vertices that each node stands for. Children have greater numbers than
    parents."""
    if colours is None:
        return None
    sums = [[0, 0, 0, 0] for _ in nodes.parents]
    for node in range(len(sums) - 1, -1, -1):
        total, vertex, parent = sums[node], nodes.vertices[node], nodes.parents[node]
        if vertex:
            total[:] = [*colours[3 * vertex - 3:3 * vertex], 1]
        if parent != NO_PARENT:
            sums[parent] = [a + b for a, b in zip(sums[parent], total)]
    return [(nearest(r, count), nearest(g, count), nearest(b, count)) for r, g, b, count in sums]


def nearest(total: int, count: int) -> int:
    """The mean as a whole number, halves up, as the page and `vdpm_means` have it."""
    return (2 * total + count) // (2 * count)
