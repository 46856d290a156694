"""The bounds of nodes: errors, radii and boxes of normals."""
from typing import List, NamedTuple, Tuple

from .hierarchy import Hierarchy
from .mesh import Point, distance_up, normal


class Bounds(NamedTuple):
    error: int
    radius: int
    low: Point  # of the normal box
    high: Point


def faces_under(h: Hierarchy, node: int) -> List[Tuple[Point, Point, Point]]:
    """The places of the corners of each input face that has a corner under the node."""
    points = h.leaf_points()
    held = [face for face in h.faces if any(h.nodes[node].holds(leaf) for leaf in face)]
    return [(points[a], points[b], points[c]) for a, b, c in held]


def grown(h: Hierarchy, node: int, at_leaf: List[int]) -> int:
    """A number of a node: that of its leaf, or the greater, over its two children, of the child's
    number and its distance."""
    if h.nodes[node].width() == 1:
        return at_leaf[h.nodes[node].first]
    place, children = h.nodes[node].place, h.children(h.splitters[node])
    return max(
        grown(h, child, at_leaf) + distance_up(place, h.nodes[child].place) for child in children
    )


def error_of(h: Hierarchy, node: int) -> int:
    """0 at a leaf, and grown from there."""
    return grown(h, node, [0] * len(h.leaf_nodes()))


def leaf_radius(h: Hierarchy, node: int) -> int:
    """How far the farthest corner of a face at a leaf is from it."""
    place = h.nodes[node].place
    reaches = [distance_up(place, corner) for face in faces_under(h, node) for corner in face]
    return max(reaches, default=0)


def all_bounds(h: Hierarchy) -> List[Bounds]:
    """The bounds of each node. A box is 0 to 0 on each axis where no face is under the node."""
    radii = [leaf_radius(h, node) for node in h.leaf_nodes()]
    bounds = []
    for node in range(len(h.nodes)):
        normals = [normal(*face) for face in faces_under(h, node)] or [(0, 0, 0)]
        x, y, z = zip(*normals)
        low, high = (min(x), min(y), min(z)), (max(x), max(y), max(z))
        bounds.append(Bounds(error_of(h, node), grown(h, node, radii), low, high))
    return bounds
