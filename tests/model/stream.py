"""The stream text of a hierarchy: how it is written, and what bytes that should begin with one
have for a fault. Each unit is judged by those before it, once its last byte is there."""
import struct
from typing import List, NamedTuple, Optional, Tuple

from .faults import Fault
from .hierarchy import BaseFace, Child, Hierarchy, NewFace, Record, Root
from .mesh import GREATEST_COORDINATE, MOST_FACES, MOST_VERTICES, Corners, Point

MAGIC = b"VDPM"
BAD_MAGIC, BAD_VERSION, TRUNCATED, BAD_COUNT, BAD_ROOT = 20, 21, 22, 23, 24
BAD_FACE, BAD_RECORD, BAD_INPUT, BAD_DIGITS = 25, 26, 27, 33
MOST_DIGITS = 4


def side_word(side: Optional[int]) -> int:
    return 0 if side is None else side + 1


def side_of_word(word: int) -> Optional[int]:
    return word - 1 if word else None


def record_words(record: Record) -> List[int]:
    presence = (record.left is not None) + 2 * (record.right is not None)
    words = [record.s, record.width, *record.t.place, record.t.input]
    words += [*record.u.place, record.u.input, presence]
    for face in record.new_faces():
        words += [*face.corners, face.input, side_word(face.first), side_word(face.second)]
    return words


def stream_text(h: Hierarchy, digits: int) -> bytes:
    leaves = sum(root.width for root in h.roots)
    words = [2, digits] if digits else [1]
    words += [leaves, len(h.roots), len(h.bases), len(h.records)]
    for root in h.roots:
        words += [*root.place, root.width, root.input]
    for base in h.bases:
        words += [*base.corners, base.input]
    for record in h.records:
        words += record_words(record)
    return MAGIC + b"".join(struct.pack("<I", word % 2**32) for word in words)


class Counts(NamedTuple):
    leaves: int
    roots: int
    bases: int
    records: int


class Reader:
    """Reads unit by unit. `inputs` counts the input words read so far."""

    def __init__(self, data: bytes) -> None:
        self.data = data
        self.taken = 0
        self.hierarchy = Hierarchy()
        self.inputs = 0
        self.vertex_inputs: List[int] = []
        self.face_inputs: List[Tuple[int, int]] = []  # with the number of the input word

    def words(self, count: int) -> List[int]:
        """The next words, which have to be there."""
        end = self.taken + 4 * count
        if end > len(self.data):
            raise Fault(TRUNCATED, f"byte {len(self.data)}")
        words = struct.unpack(f"<{count}I", self.data[self.taken : end])
        self.taken = end
        return list(words)

    def vertex_input(self, number: int, width: int) -> None:
        """A leaf has a number from 1 to L that no earlier node has, another node has 0."""
        is_right = number == 0
        if width == 1:
            is_right = 1 <= number <= self.counts.leaves and number not in self.vertex_inputs
            self.vertex_inputs.append(number)
        if not is_right:
            raise Fault(BAD_INPUT, f"input {self.inputs}")
        self.inputs += 1

    def face_input(self, number: int) -> None:
        """A face has a number that no earlier face has."""
        if not 1 <= number <= MOST_FACES or number in [given for given, _ in self.face_inputs]:
            raise Fault(BAD_INPUT, f"input {self.inputs}")
        self.face_inputs.append((number, self.inputs))
        self.inputs += 1

    def read_header(self) -> None:
        magic = self.data[:4]
        if magic != MAGIC[: len(magic)]:
            raise Fault(BAD_MAGIC)
        self.words(1)
        [version] = self.words(1)
        if version not in (1, 2):
            raise Fault(BAD_VERSION, f"version {version}")
        self.digits = self.words(1)[0] if version == 2 else 0
        if version == 2 and not 1 <= self.digits <= MOST_DIGITS:
            raise Fault(BAD_DIGITS, f"digits {self.digits}")
        self.counts = Counts(*self.words(4))
        leaves, roots, bases, records = self.counts
        if leaves > MOST_VERTICES or bases > MOST_FACES or roots > leaves:
            raise Fault(BAD_COUNT)
        if (roots == 0 and leaves != 0) or records != leaves - roots:
            raise Fault(BAD_COUNT)

    def read_root(self, i: int) -> None:
        x, y, z, width, number = self.words(5)
        place = signed_place([x, y, z])
        passed = sum(root.width for root in self.hierarchy.roots) + width
        to_come = self.counts.roots - 1 - i
        is_last_short = to_come == 0 and passed != self.counts.leaves
        if place is None or width == 0 or passed + to_come > self.counts.leaves or is_last_short:
            raise Fault(BAD_ROOT, f"root {i}")
        self.vertex_input(number, width)
        self.hierarchy.add_root(Root(place, width, number))

    def read_base(self, i: int) -> None:
        a, b, c, number = self.words(4)
        nodes = self.hierarchy.nodes
        above = {number for number, root in enumerate(nodes) if any(map(root.holds, (a, b, c)))}
        if len(above) < 3:
            raise Fault(BAD_FACE, f"face {i}")
        self.face_input(number)
        self.hierarchy.add_base(BaseFace((a, b, c), number))

    def read_record(self, k: int) -> None:
        s, width, tx, ty, tz, t_input, ux, uy, uz, u_input, presence = self.words(11)
        t, u = signed_place([tx, ty, tz]), signed_place([ux, uy, uz])
        nodes = self.hierarchy.nodes
        is_node = s < len(nodes) and s not in self.hierarchy.splitters and nodes[s].width() > 1
        if not is_node or not 1 <= width < nodes[s].width():
            raise Fault(BAD_RECORD, f"record {k}")
        if t is None or u is None or presence not in (1, 2, 3):
            raise Fault(BAD_RECORD, f"record {k}")
        self.vertex_input(t_input, width)
        self.vertex_input(u_input, nodes[s].width() - width)
        record = Record(s, width, Child(t, t_input), Child(u, u_input), None, None)
        if presence != 2:
            record = record._replace(left=self.read_new_face(k, record, True))
        if presence != 1:
            record = record._replace(right=self.read_new_face(k, record, False))
        self.hierarchy.add_record(record)

    def read_new_face(self, k: int, record: Record, is_left: bool) -> NewFace:
        """A face of a record of which the head, and a left face before a right one, is read."""
        a, b, c, number, first, second = self.words(6)
        before = len(self.hierarchy.faces)
        is_many = before + len(record.new_faces()) >= MOST_FACES
        fits = is_face_between(self.hierarchy, record, (a, b, c), is_left)
        if not fits or max(first, second) > 3 * before or is_many:
            raise Fault(BAD_RECORD, f"record {k}")
        self.face_input(number)
        return NewFace((a, b, c), number, side_of_word(first), side_of_word(second))

    def read_base_mesh(self) -> None:
        self.read_header()
        for i in range(self.counts.roots):
            self.read_root(i)
        for i in range(self.counts.bases):
            self.read_base(i)

    def read_records(self, most: int) -> None:
        """So many records after the base mesh, or all where there are no more."""
        for k in range(min(most, self.counts.records)):
            self.read_record(k)
        if most >= self.counts.records:
            self.judge_faces()

    def judge_faces(self) -> None:
        """After the last unit no face has a number above the number of faces."""
        for number, word in self.face_inputs:
            if number > len(self.face_inputs):
                raise Fault(BAD_INPUT, f"input {word}")

    def read_all(self) -> None:
        self.read_base_mesh()
        self.read_records(self.counts.records)


def signed_place(words: List[int]) -> Optional[Point]:
    """The place of three words in two's complement, if its coordinates are in range."""
    x, y, z = [word - 2**32 if word >= 2**31 else word for word in words]
    return (x, y, z) if max(abs(x), abs(y), abs(z)) <= GREATEST_COORDINATE else None


def kind_of(h: Hierarchy, record: Record, leaf: int) -> str:
    """Where a leaf lies: under t, under u, outside s, or nowhere."""
    s = h.nodes[record.s]
    if s.holds(leaf):
        return "t" if leaf < s.first + record.width else "u"
    return "outside" if leaf < h.nodes[len(h.roots) - 1].after else "nowhere"


def is_face_between(h: Hierarchy, record: Record, corners: Corners, is_left: bool) -> bool:
    """One corner is under t, one under u and one outside s: in the left face u follows t, in the
    right face t follows u."""
    kinds = [kind_of(h, record, leaf) for leaf in corners]
    order = ["t", "u", "outside"] if is_left else ["u", "t", "outside"]
    return any(kinds[i:] + kinds[:i] == order for i in range(3))


class Stream(NamedTuple):
    hierarchy: Hierarchy
    digits: int
    rest: bytes  # what follows the text


def read_stream(data: bytes) -> Stream:
    """What bytes begin with, or the first fault of the first unit that has one."""
    reader = Reader(data)
    reader.read_all()
    return Stream(reader.hierarchy, reader.digits, data[reader.taken :])
