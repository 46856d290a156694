"""What a session answers."""
from typing import TYPE_CHECKING, Iterable, NamedTuple, Tuple

if TYPE_CHECKING:
    from numpy import int32, uint32
    from numpy.typing import NDArray

Place = Tuple[int, int, int]
Strips = Tuple[Tuple[int, ...], ...]


def counted(name: str, counts: Iterable[Tuple[int, str]]) -> str:
    """What an answer is in short."""
    return f"{name}({', '.join(f'{count} {what}' for count, what in counts)})"


class Sizes(NamedTuple):
    """How large the mesh shown and the hierarchy are.

    shown_nodes, shown_faces: vertices and faces of the mesh shown. nodes: of the hierarchy, in all.
    leaves: vertices of the complete mesh. records: vertex splits. digits: decimals of a coordinate,
    so that a unit is 10 to the power of -digits.
    """

    shown_nodes: int
    shown_faces: int
    nodes: int
    leaves: int
    records: int
    digits: int


class Frame(NamedTuple):
    """The mesh that is shown: V vertices and F faces.

    The shapes are numpy's; without numpy each field is a flat `array.array` of the same numbers.

    nodes: uint32, shape (V,), the numbers of the active nodes, ascending.
    places: int32, shape (V, 3), their coordinates, in units.
    faces: uint32, shape (F,), the numbers of the kept faces, ascending.
    corners: uint32, shape (F, 3), the corners of each face as positions in `nodes` and `places`,
        which is an index buffer.
    corner_nodes: uint32, shape (F, 3), the same corners as numbers of nodes.
    """

    nodes: "NDArray[uint32]"
    places: "NDArray[int32]"
    faces: "NDArray[uint32]"
    corners: "NDArray[uint32]"
    corner_nodes: "NDArray[uint32]"

    def __repr__(self) -> str:
        return counted("Frame", ((len(self.nodes), "vertices"), (len(self.faces), "faces")))


class Inputs(NamedTuple):
    """Which vertices and faces of the text that a stream was made of its N nodes and F faces are,
    counted from 0 in its order.

    by_node: uint32, shape (N,), the vertex that a node of one leaf is, and `vdpm.NO_VERTEX` for
        another node.
    by_face: uint32, shape (F,), the face that a face is.
    """

    by_node: "NDArray[uint32]"
    by_face: "NDArray[uint32]"

    def __repr__(self) -> str:
        return counted("Inputs", ((len(self.by_node), "nodes"), (len(self.by_face), "faces")))


class Change(NamedTuple):
    """What changed since the marked front, each list ascending.

    The shapes are numpy's; without numpy each field is a flat `array.array` of the same numbers.

    gone_faces: uint32, shape (A,), faces that were shown and aren't.
    gone_nodes: uint32, shape (B,), nodes that were active and aren't.
    new_nodes: uint32, shape (C,), nodes that are active and weren't.
    new_places: int32, shape (C, 3), their coordinates, in units.
    put_faces: uint32, shape (D,), faces that weren't shown, or were with another corner.
    put_corners: uint32, shape (D, 3), the corners of each as numbers of nodes.
    """

    gone_faces: "NDArray[uint32]"
    gone_nodes: "NDArray[uint32]"
    new_nodes: "NDArray[uint32]"
    new_places: "NDArray[int32]"
    put_faces: "NDArray[uint32]"
    put_corners: "NDArray[uint32]"

    def __repr__(self) -> str:
        return counted("Change", (
            (len(self.gone_faces), "faces gone"), (len(self.gone_nodes), "nodes gone"),
            (len(self.new_nodes), "nodes new"), (len(self.put_faces), "faces put")))


class Moved(NamedTuple):
    """How many splits and collapses a view made, and how many are left to its target, which are 0
    but where the budget was spent."""

    moves: int
    left: int


class Hit(NamedTuple):
    """The face that a ray meets first, at its origin plus `s / q` of its way."""

    face: int
    s: int
    q: int


class Shape(NamedTuple):
    """The mesh shown, counted: loops are those of its border, euler is vertices less edges plus
    faces."""

    vertices: int
    edges: int
    faces: int
    loops: int
    euler: int


class Level(NamedTuple):
    """The level of detail: vertices and faces shown, how many records are split, and the greatest
    error and deviation of an active node, in units (docs/FORMATS.md)."""

    nodes: int
    faces: int
    split: int
    error: int
    deviation: int


class Bounds(NamedTuple):
    """The box of the complete mesh: the least and the greatest of each coordinate, in units."""

    least: Place
    greatest: Place
