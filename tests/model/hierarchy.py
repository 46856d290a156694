"""A hierarchy: roots, base faces, and records that split nodes. And that of a builder's run.

Nodes are intervals of leaves. Roots take consecutive intervals; record k splits node s into node
R + 2k, called t, with the first leaves of s, and node R + 2k + 1, called u, with the rest.
"""
from typing import Dict, List, NamedTuple, Optional

from .mesh import Corners, Faces, Mesh, Point, face_of, numbered, twins
from .run import Collapse, Gone


class Root(NamedTuple):
    place: Point
    width: int
    input: int


class BaseFace(NamedTuple):
    corners: Corners
    input: int


class Child(NamedTuple):
    place: Point
    input: int


class NewFace(NamedTuple):
    """A face of a record, with the sides recorded beyond its first and its second outer side."""

    corners: Corners
    input: int
    first: Optional[int]
    second: Optional[int]


class Record(NamedTuple):
    s: int
    width: int  # of t
    t: Child
    u: Child
    left: Optional[NewFace]
    right: Optional[NewFace]

    def new_faces(self) -> List[NewFace]:
        return [face for face in (self.left, self.right) if face is not None]


class Node(NamedTuple):
    """The leaves from `first` on and before `after`; the record that made it, if it is no root."""

    first: int
    after: int
    place: Point
    input: int
    maker: Optional[int]

    def width(self) -> int:
        return self.after - self.first

    def holds(self, leaf: int) -> bool:
        return self.first <= leaf < self.after


class Hierarchy:
    """What a stream holds, which grows unit by unit; the other lists are found from the units."""

    def __init__(self) -> None:
        self.roots: List[Root] = []
        self.bases: List[BaseFace] = []
        self.records: List[Record] = []
        self.nodes: List[Node] = []
        self.splitters: Dict[int, int] = {}  # the record that splits a node
        self.faces: List[Corners] = []
        self.face_inputs: List[int] = []
        self.revealers: List[Optional[int]] = []  # the record that brings a face in

    def add_root(self, root: Root) -> None:
        first = self.nodes[-1].after if self.nodes else 0
        self.nodes.append(Node(first, first + root.width, root.place, root.input, None))
        self.roots.append(root)

    def add_base(self, base: BaseFace) -> None:
        self.bases.append(base)
        self._add_face(base.corners, base.input, None)

    def add_record(self, record: Record) -> None:
        k = len(self.records)
        s = self.nodes[record.s]
        middle = s.first + record.width
        self.nodes.append(Node(s.first, middle, record.t.place, record.t.input, k))
        self.nodes.append(Node(middle, s.after, record.u.place, record.u.input, k))
        self.splitters[record.s] = k
        self.records.append(record)
        for face in record.new_faces():
            self._add_face(face.corners, face.input, k)

    def _add_face(self, corners: Corners, number: int, revealer: Optional[int]) -> None:
        self.faces.append(corners)
        self.face_inputs.append(number)
        self.revealers.append(revealer)

    def children(self, k: int) -> List[int]:
        """The nodes t and u of record k."""
        return [len(self.roots) + 2 * k, len(self.roots) + 2 * k + 1]

    def parent(self, node: int) -> int:
        """The node that was split to make this one, which isn't a root."""
        maker = self.nodes[node].maker
        assert maker is not None, "a root is above all"
        return self.records[maker].s

    def faces_of(self, k: int) -> List[int]:
        """The numbers of the faces that record k brings in, the left one first."""
        return [face for face, revealer in enumerate(self.revealers) if revealer == k]

    def leaf_nodes(self) -> List[int]:
        """The node of each leaf."""
        return sorted(
            (number for number, node in enumerate(self.nodes) if node.width() == 1),
            key=lambda number: self.nodes[number].first,
        )

    def leaf_faces(self) -> Faces:
        return numbered(self.faces)

    def leaf_twins(self) -> Dict[int, int]:
        return twins(self.leaf_faces())

    def leaf_points(self) -> List[Point]:
        return [self.nodes[node].place for node in self.leaf_nodes()]


def input_mesh(h: Hierarchy) -> Mesh:
    """Vertices and faces in the order of their input numbers."""
    leaves = [h.nodes[node] for node in h.leaf_nodes()]
    vertex_of = [leaf.input - 1 for leaf in leaves]
    points = [leaf.place for leaf in sorted(leaves, key=lambda leaf: leaf.input)]
    faces = sorted(zip(h.face_inputs, h.faces))
    return Mesh(points, [(vertex_of[a], vertex_of[b], vertex_of[c]) for _, (a, b, c) in faces])


class Numbering:
    """The new numbers of the vertices, faces and sides of a run."""

    def __init__(self, mesh: Mesh, log: List[Collapse]) -> None:
        self.mesh = mesh
        self.by_vertex = {entry.s: entry for entry in log}
        gone = [g for entry in reversed(log) for g in (entry.left, entry.right) if g is not None]
        taken = {vertex for entry in log for vertex in (entry.t, entry.u)}
        made = list(range(len(mesh.points))) + [entry.s for entry in log]
        self.roots = [vertex for vertex in made if vertex not in taken]
        dropped = [g.face for g in gone]
        self.bases = [face for face in range(len(mesh.faces)) if face not in dropped]
        self.new_face = {face: i for i, face in enumerate(self.bases + dropped)}
        below = [leaf for root in self.roots for leaf in self.leaves_below(root)]
        self.leaf = {vertex: i for i, vertex in enumerate(below)}
        pairs = [v for entry in reversed(log) for v in (entry.t, entry.u)]
        self.node = {vertex: i for i, vertex in enumerate(self.roots + pairs)}

    def leaves_below(self, vertex: int) -> List[int]:
        """The input vertices under a vertex, through t and then u."""
        leaves, waiting = [], [vertex]
        while waiting:
            v = waiting.pop()
            if v in self.by_vertex:
                waiting += [self.by_vertex[v].u, self.by_vertex[v].t]
            else:
                leaves.append(v)
        return leaves

    def place(self, vertex: int) -> Point:
        entry = self.by_vertex.get(vertex)
        return self.mesh.points[vertex] if entry is None else entry.place

    def input(self, vertex: int) -> int:
        return 0 if vertex in self.by_vertex else vertex + 1

    def corners(self, face: int) -> Corners:
        a, b, c = self.mesh.faces[face]
        return self.leaf[a], self.leaf[b], self.leaf[c]

    def side(self, side: Optional[int]) -> Optional[int]:
        return None if side is None else 3 * self.new_face[face_of(side)] + side % 3

    def face(self, gone: Optional[Gone]) -> Optional[NewFace]:
        if gone is None:
            return None
        first, second = self.side(gone.first), self.side(gone.second)
        return NewFace(self.corners(gone.face), gone.face + 1, first, second)


def hierarchy_of_run(mesh: Mesh, log: List[Collapse]) -> Hierarchy:
    """The vertices that are left are the roots, ascending; the records are the collapses in reverse
    order; the base faces are those that are left, ascending."""
    n = Numbering(mesh, log)
    h = Hierarchy()
    for v in n.roots:
        h.add_root(Root(n.place(v), len(n.leaves_below(v)), n.input(v)))
    for face in n.bases:
        h.add_base(BaseFace(n.corners(face), face + 1))
    for entry in reversed(log):
        t, u = [Child(n.place(v), n.input(v)) for v in (entry.t, entry.u)]
        width = len(n.leaves_below(entry.t))
        h.add_record(
            Record(n.node[entry.s], width, t, u, n.face(entry.left), n.face(entry.right))
        )
    return h
