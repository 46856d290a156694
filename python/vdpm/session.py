"""A hierarchy that is being shown."""
import ctypes
import threading
from typing import Any, List, Optional, Sequence

from .fields import MOST_OF_EYE, MOST_WAY, Number, pixels, planes_of, whole
from .library import (BY_DEVIATION, BY_ERROR, MOST_NUMBER, NO_ROOM, NONE, Fineness, Handle, Look,
                      Moves, Text, bytes_of, check, load, number_to)
from .making import unpack
from .rooms import copied, in_threes, room_for, rooms_for_change
from .shapes import Bounds, Change, Frame, Hit, Level, Moved, Place, Shape, Sizes, Strips
from .slots import Slots
from .tables import Tables

# How packed texts begin.
PACKED = b"VDPK"


class Session(Tables):
    """A hierarchy that is being shown, as a context manager, which closes it at its end.

    Any thread may call it; a call waits until that of another thread is done. What a call answers
    is the caller's own. Coordinates are whole numbers of units.
    """

    def __init__(self, stream: bytes, budget: int = MOST_NUMBER,
                 library: Optional[str] = None) -> None:
        """Opens a stream, the bytes that `build` and `simplify` make, or a packed one, those that
        `pack` makes, and shows its base mesh.

        budget: how many moves, which are splits and collapses, a view makes at most.

        Raises StreamFault where `vdpm check` or `unpack` refuses the bytes, and MemoryError.
        """
        self._lock = threading.RLock()
        self._viewer = Handle(None, 0)
        data = bytes_of(stream, "a stream")
        budget = number_to(MOST_NUMBER, budget, "budget")
        if data.startswith(PACKED):
            data = unpack(data, library)
        self._library = load(library)
        # (how often the front was marked)
        self._marks = 0
        # (a change is written into these, which grow where one has more)
        self._rooms = rooms_for_change((256, 256, 256, 256))
        place = ctypes.c_uint64()
        status = self._library.vdpm_open(data, len(data), budget, self._viewer, place)
        check(status, place.value)

    def __enter__(self) -> "Session":
        return self

    def __exit__(self, *raised: object) -> None:
        self.close()

    def __del__(self) -> None:
        # (an unfinished __init__ leaves no library)
        if hasattr(self, "_library"):
            self.close()

    def __repr__(self) -> str:
        with self._lock:
            if not self._viewer.open:
                return "<vdpm.Session, closed>"
            it = self.sizes()
        return (f"<vdpm.Session, showing {it.shown_nodes} of {it.leaves} vertices, "
                f"{it.shown_faces} faces>")

    def close(self) -> None:
        """Gives the memory back. A closed session stays so, and its methods raise NotOpen."""
        with self._lock:
            self._library.vdpm_close(self._viewer)

    def line(self, text: Text) -> bytes:
        """Does one script line of `vdpm live` (docs/FORMATS.md), given without its LF, and answers
        its reply.

        Raises LineFault with number 30 where it is none of the forms, and 31 where it names no
        record.
        """
        data = bytes_of(text)
        with self._lock:
            self._marks += data in (b"k", b"d")
            check(self._library.vdpm_line(self._viewer, data, len(data)))
            return self._reply()

    def _reply(self) -> bytes:
        length = ctypes.c_size_t()
        check(self._library.vdpm_reply_length(self._viewer, length))
        out = (ctypes.c_uint8 * max(length.value, 1))()
        check(self._library.vdpm_reply(self._viewer, out, length.value))
        return bytes(out)[: length.value]

    def _words(self, word: str, numbers: Sequence[int] = ()) -> List[bytes]:
        """The words of the reply to a line with these numbers."""
        return self.line(" ".join([word, *map(str, numbers)])).split()

    def view(self, eye: Sequence[Number], focal: Number, tolerance: Number,
             planes: Sequence[Sequence[Number]] = (), outline: Optional[Number] = None,
             by_deviation: bool = False) -> Moved:
        """Adapts the mesh shown to a view.

        eye: the place that is looked from, in whole units.
        focal: the focal length, in pixels.
        tolerance: how far off a surface may look (its screen-space error), in pixels.
        planes: up to six groups a, b, c, o; what has a x + b y + c z + o below 0 isn't refined.
        outline: a tolerance for silhouettes, in pixels, at most the other.
        by_deviation: judges nodes by how far their faces are from the surface, and not vertices.

        Fractions are told exactly: a float is the decimal that it prints as, and a view asks for
        the proportion of focal length and tolerances. Raises ValueError where that takes numbers
        above 65,535, where the eye isn't on whole units, and where a number is out of its range.
        `camera` gives eye, focal length and planes of a picture.
        """
        place = whole(eye, 3, MOST_OF_EYE, "eye")
        length, size, *more = pixels(focal, tolerance, outline)
        measure = BY_DEVIATION if by_deviation else BY_ERROR
        look = Look(tuple(place), length, size, *(more or [size]), measure)
        numbers = planes_of(planes)
        told, moved = (ctypes.c_int64 * len(numbers))(*numbers), Moves()
        with self._lock:
            check(self._library.vdpm_view(self._viewer, look, told, len(numbers), moved))
        return Moved(moved.moves, moved.left)

    def split(self, record: int) -> str:
        """Splits a record: "ok", or "not active" or "blocked F" where that is not legal."""
        return self._moved("s", record)

    def collapse(self, record: int) -> str:
        """Collapses a record: "ok", or "not active" or "blocked F" where that is not legal."""
        return self._moved("c", record)

    def _moved(self, word: str, record: int) -> str:
        number_to(MOST_NUMBER, record, "record")
        return self.line(f"{word} {int(record)}").decode().rstrip("\n")

    def budget(self, moves: int) -> None:
        """A view makes at most so many moves from here on."""
        self._words("b", [number_to(MOST_NUMBER, moves, "moves")])

    def measure(self) -> Shape:
        """Counts the mesh shown: vertices, edges, faces, border loops, Euler characteristic."""
        words = self._words("m")
        return Shape(*(int(words[at]) for at in (1, 2, 3, 5, 7)))

    def level(self) -> Level:
        """The level of detail of the mesh shown."""
        told = Fineness()
        with self._lock:
            sizes = self.sizes()
            check(self._library.vdpm_level(self._viewer, told))
        return Level(sizes.shown_nodes, sizes.shown_faces, told.split, told.error, told.deviation)

    def mark(self) -> None:
        """Marks the front, from which `glide` and `change` go."""
        self._words("k")

    def glide(self, part: int, parts: int) -> bytes:
        """The text of the mesh at part/parts of the way from the marked front, or `not finer K`."""
        return self.line(f"g {int(part)} {int(parts)}")

    def change(self) -> Change:
        """What changed since the marked front, as arrays; the front is marked then.

        Who has the mesh of the marked front takes out what is gone, and puts the rest in by number.
        `line("d")` answers the same as text.
        """
        sizes = (ctypes.c_uint32 * 4)()
        with self._lock:
            status = self._fetch_change(sizes)
            if status == NO_ROOM:
                rooms = [len(self._rooms[i][0]) for i in (0, 1, 2, 4)]
                wanted = [max(it, 2 * size) for it, size in zip(rooms, sizes)]
                self._rooms = rooms_for_change(wanted)
                status = self._fetch_change(sizes)
            check(status)
            self._marks += 1
            gone_faces, gone_nodes, new_nodes, put_faces = sizes
            counts = (gone_faces, gone_nodes, new_nodes, 3 * new_nodes, put_faces, 3 * put_faces)
            arrays = [copied(room, count) for (room, _), count in zip(self._rooms, counts)]
        return Change(*in_threes(arrays, (3, 5)))

    def slots(self) -> Slots:
        """Buffers of a renderer that follow what is shown: of vertices, and of triangles as three
        slots of vertices each. They are empty until their first `update`."""
        return Slots(self)

    def _fetch_change(self, sizes: Any) -> int:
        pairs = [it for (room, at) in self._rooms for it in (at, len(room))]
        return int(self._library.vdpm_change(self._viewer, *pairs, sizes))

    def pick(self, origin: Sequence[Number], direction: Sequence[Number]) -> Optional[Hit]:
        """The face of the complete mesh that a ray meets first; None where it meets none.

        origin: in whole units. direction: whole numbers, at most 32,767 away from 0, not all 0.
        """
        way = whole(direction, 3, MOST_WAY, "direction")
        if not any(way):
            raise ValueError("direction is 0, so that it tells no way")
        words = self._words("p", whole(origin, 3, MOST_OF_EYE, "origin") + way)
        return None if words[0] == b"miss" else Hit(*map(int, words[1:]))

    def strips(self) -> Strips:
        """The mesh shown as triangle strips, each by its nodes."""
        lines = self.line("t").splitlines()[:-1]
        return tuple(tuple(map(int, line.split()[1:])) for line in lines)

    def sizes(self) -> Sizes:
        """How large the mesh shown and the hierarchy are."""
        told = (ctypes.c_uint32 * len(Sizes._fields))()
        with self._lock:
            check(self._library.vdpm_counts(self._viewer, told))
        return Sizes(*told)

    def frame(self) -> Frame:
        """The mesh that is shown, in arrays that the library writes into: nothing is copied."""
        with self._lock:
            sizes = self.sizes()
            v, f = sizes.shown_nodes, sizes.shown_faces
            kinds = (("I", v), ("i", 3 * v), ("I", f), ("I", 3 * f), ("I", 3 * f))
            rooms = [room_for(kind, count) for kind, count in kinds]
            pairs = [it for (room, at) in rooms for it in (at, len(room))]
            check(self._library.vdpm_frame(self._viewer, *pairs))
        return Frame(*in_threes([room for room, _ in rooms], (1, 3, 4)))

    def bounds(self) -> Bounds:
        """The box of the complete mesh, whatever is shown. Raises ValueError where there are no
        vertices."""
        box = (ctypes.c_int32 * 6)()
        with self._lock:
            if not self.sizes().leaves:
                raise ValueError("there are no vertices, so there is no box")
            check(self._library.vdpm_extent(self._viewer, box))
        return Bounds((box[0], box[1], box[2]), (box[3], box[4], box[5]))

    def splitter(self, node: int) -> Optional[int]:
        """The record that splits a node; None for a node of one leaf. IndexError: no such node."""
        return self._told(self._library.vdpm_splitter, node)

    def maker(self, node: int) -> Optional[int]:
        """The record that made a node; None for a root. IndexError: no such node."""
        return self._told(self._library.vdpm_maker, node)

    def ancestor(self, leaf: int) -> int:
        """The active node that has a leaf below it. IndexError: no such leaf."""
        found = ctypes.c_uint32()
        number_to(MOST_NUMBER, leaf, "leaf")
        with self._lock:
            check(self._library.vdpm_ancestor(self._viewer, leaf, found))
        return found.value

    def place(self, node: int) -> Place:
        """The coordinates of a node, in units. IndexError: no such node."""
        out = (ctypes.c_int32 * 3)()
        number_to(MOST_NUMBER, node, "node")
        with self._lock:
            check(self._library.vdpm_place(self._viewer, node, out, 3))
        return out[0], out[1], out[2]

    def _told(self, function: Any, node: int) -> Optional[int]:
        number = ctypes.c_uint32()
        number_to(MOST_NUMBER, node, "node")
        with self._lock:
            check(function(self._viewer, node, number))
        return None if number.value == NONE else number.value
