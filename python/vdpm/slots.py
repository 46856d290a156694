"""The buffers of a renderer, which follow a session."""
import ctypes
from typing import TYPE_CHECKING, Any, Iterable, Iterator, NamedTuple, Optional, Tuple

from .faults import NotOpen
from .library import NONE, Handle, check
from .rooms import first, grown, in_rows, joined, pointer_to, put_at, room_for, seen
from .shapes import Change, counted

if TYPE_CHECKING:
    from numpy import int32, uint32
    from numpy.typing import NDArray

    from .session import Session


class Written(NamedTuple):
    """What an update wrote: A slots of `Slots.vertices` and B of `Slots.triangles`, each once.

    The shapes are numpy's; without numpy each field is a flat `array.array` of the same numbers.

    vertex_slots: uint32, shape (A,). places: int32, shape (A, 3), what they have now, in units.
    triangle_slots: uint32, shape (B,). corners: uint32, shape (B, 3), what they have now.
    """

    vertex_slots: "NDArray[uint32]"
    places: "NDArray[int32]"
    triangle_slots: "NDArray[uint32]"
    corners: "NDArray[uint32]"

    def __repr__(self) -> str:
        return counted("Written", ((len(self.vertex_slots), "vertices"),
                                   (len(self.triangle_slots), "triangles")))


def ranges(slots: Iterable[int], apart: int = 1) -> Iterator[Tuple[int, int]]:
    """The slots as ranges, each from its first slot to that after its last, ascending.

    apart: a slot goes with the one before where it is at most so many further; with more than 1
        there are fewer ranges, and slots in them that weren't told.
    """
    ordered = sorted(map(int, slots))
    begin = 0
    for at, slot in enumerate(ordered):
        if at + 1 == len(ordered) or ordered[at + 1] - slot > apart:
            yield ordered[begin], slot + 1
            begin = at + 1


class Buffer:
    """Three numbers for each slot, and the item that stands in it."""

    def __init__(self, library: ctypes.CDLL, kind: str) -> None:
        self.library = library
        self.handle, self.length = Handle(None, 0), 0
        self.threes, self.items = room_for(kind, 0)[0], room_for("I", 0)[0]

    def begin(self, items: int) -> None:
        """Shows nothing, of so many items."""
        self.close()
        check(self.library.vdpm_slots_open(items, self.handle))

    def change(self, gone: Any, put: Any) -> Any:
        """Lets items go and come, and answers the slots to write: first those of the items that
        are put, in their order, then those that are left empty."""
        most, sizes = len(gone) + len(put), (ctypes.c_uint32 * 2)()
        slots, at_slots = room_for("I", most)
        check(self.library.vdpm_slots_change(
            self.handle, pointer_to("I", gone), len(gone), pointer_to("I", put), len(put),
            at_slots, most, sizes))
        written, self.length = sizes
        self.threes = grown(self.threes, 3 * self.length)
        self.items = grown(self.items, self.length)
        slots = first(slots, written)
        put_at(self.items, slots, joined(put, written - len(put), NONE), 1)
        return slots

    def slots_of(self, items: Any) -> Any:
        """The slot of each of these items, in a row."""
        flat = items.reshape(-1) if hasattr(items, "reshape") else items
        slots, at_slots = room_for("I", len(flat))
        check(self.library.vdpm_slots_of(self.handle, pointer_to("I", flat), len(flat), at_slots,
                                         len(flat)))
        return slots

    def close(self) -> None:
        self.library.vdpm_slots_close(self.handle)
        self.length = 0


class Slots:
    """Two buffers of a renderer that follow a session, as a context manager, which closes them.

    A vertex and a triangle keep their slot while they are shown, so that after each view few slots
    are to be copied to where they are drawn from, and no placing would have fewer:

        with vdpm.Session(stream) as session, session.slots() as slots:
            while True:
                session.view(**look()._asdict(), tolerance=1)
                written = slots.update()
                for begin, end in vdpm.ranges(written.vertex_slots):
                    vertex_buffer.write(slots.vertices[begin:end], 12 * begin)
                for begin, end in vdpm.ranges(written.triangle_slots):
                    index_buffer.write(slots.triangles[begin:end], 12 * begin)
                draw(3 * len(slots.triangles))

    The buffers get longer where more is shown than ever before; then a renderer makes its own
    longer too. They are views, which can't be written and go on to be true until the next update;
    without numpy they are flat `memoryview`s of the same numbers.
    """

    def __init__(self, session: "Session") -> None:
        library = session._library
        self._session, self._open = session, True
        # (the session's mark that the buffers stand at; none before the first update)
        self._mark: Optional[int] = None
        self._vertices, self._triangles = Buffer(library, "i"), Buffer(library, "I")

    def __enter__(self) -> "Slots":
        return self

    def __exit__(self, *raised: object) -> None:
        self.close()

    def __del__(self) -> None:
        if hasattr(self, "_triangles"):
            self.close()

    def __repr__(self) -> str:
        if not self._open:
            return "<vdpm.Slots, closed>"
        return (f"<vdpm.Slots, {self._vertices.length} of vertices, "
                f"{self._triangles.length} of triangles>")

    def close(self) -> None:
        """Gives the library's memory back. The buffers are empty then, and `update` raises."""
        with self._session._lock:
            self._open = False
            self._vertices.close()
            self._triangles.close()

    @property
    def vertices(self) -> "NDArray[int32]":
        """int32, shape (V, 3): the coordinates in each slot, in units. A slot whose vertex is gone
        has its coordinates still, and no triangle has it as a corner."""
        vertices: "NDArray[int32]" = seen(self._vertices.threes, self._vertices.length, 3)
        return vertices

    @property
    def nodes(self) -> "NDArray[uint32]":
        """uint32, shape (V,): the node in each slot of `vertices`, and `vdpm.NO_VERTEX` where none
        is: `colours[slots.nodes[written.vertex_slots]]` are the colours that go with `places`."""
        nodes: "NDArray[uint32]" = seen(self._vertices.items, self._vertices.length, 1)
        return nodes

    @property
    def triangles(self) -> "NDArray[uint32]":
        """uint32, shape (T, 3): the corners of the triangle in each slot, as slots of `vertices`,
        which is an index buffer. A slot without a triangle has 0, 0, 0, which draws nothing."""
        triangles: "NDArray[uint32]" = seen(self._triangles.threes, self._triangles.length, 3)
        return triangles

    @property
    def faces(self) -> "NDArray[uint32]":
        """uint32, shape (T,): the face in each slot of `triangles`, and `vdpm.NO_VERTEX` where none
        is."""
        faces: "NDArray[uint32]" = seen(self._triangles.items, self._triangles.length, 1)
        return faces

    def update(self) -> Written:
        """Brings the buffers to what the session shows, and answers what was written.

        It takes the session's change and marks its front, as `Session.change` does. At first, and
        where the front was marked otherwise since, each slot of what is shown is written anew.
        """
        session = self._session
        with session._lock:
            if not self._open:
                raise NotOpen("the slots are closed")
            mark, self._mark = self._mark, None
            change = session.change() if mark == session._marks else self._begun()
            written = self._taken(change)
            self._mark = session._marks
        return written

    def _begun(self) -> Change:
        """All that is shown, as the change of empty buffers."""
        session = self._session
        session.mark()
        frame, none = session.frame(), room_for("I", 0)[0]
        self._vertices.begin(session.sizes().nodes)
        self._triangles.begin(session._faces_in_all())
        return Change(none, none, frame.nodes, frame.places, frame.faces, frame.corner_nodes)

    def _taken(self, change: Change) -> Written:
        """Writes a change into the buffers."""
        slots = self._vertices.change(change.gone_nodes, change.new_nodes)
        slots = first(slots, len(change.new_nodes))
        put_at(self._vertices.threes, slots, change.new_places, 3)
        filled = self._triangles.change(change.gone_faces, change.put_faces)
        empty = 3 * (len(filled) - len(change.put_faces))
        corners = in_rows(joined(self._vertices.slots_of(change.put_corners), empty), 3)
        put_at(self._triangles.threes, filled, corners, 3)
        return Written(slots, change.new_places, filled, corners)
