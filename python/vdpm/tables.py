"""What nodes and faces have of a table beside the mesh."""
import ctypes
import threading
from typing import TYPE_CHECKING, Any

from .library import MOST_NUMBER, NO_ROOM, Handle, check, number_to
from .rooms import Room, in_rows, numbers_in_room, room_for, values_in_room
from .shapes import Inputs, Sizes

if TYPE_CHECKING:
    from numpy import int32, uint16
    from numpy.typing import NDArray


class Tables:
    """The part of a session that tells what nodes and faces have of tables by vertex and face."""

    _library: ctypes.CDLL
    _lock: "threading.RLock"
    _viewer: Handle

    def sizes(self) -> Sizes:
        raise NotImplementedError

    def means(self, values: Any, channels: int = 1) -> "NDArray[uint16]":
        """What each node has, by number, of what the vertices of the complete mesh have: the
        rounded mean over the leaves under it, in each channel. It is the same whatever is shown:
        `means(colours, 3)[frame.nodes]` are the colours of a frame's vertices.

        values: so many whole numbers from 0 to 65,535 as channels for each vertex of the mesh that
        the stream was made of, in its order; in numpy of shape (L, channels) or flat.

        Answers uint16 of shape (N, channels) for the N nodes, (N,) for one channel; without numpy a
        flat `array.array`. Raises ValueError where the values don't fit.
        """
        number_to(MOST_NUMBER, channels, "channels")
        count, by_vertex = values_in_room(values)
        with self._lock:
            room, by_node = self._room_by_node("H", channels, count)
            check(self._library.vdpm_means(self._viewer, channels, by_vertex, count, by_node,
                                           len(room)))
        answer: "NDArray[uint16]" = in_rows(room, channels) if channels > 1 else room
        return answer

    def fits(self, values: Any, channels: int = 1) -> "NDArray[int32]":
        """What each node has, by number, of numbers of the vertices that go with positions, as u
        and v of a texture: in each channel that of the linear map which fits the numbers of the
        vertices under the node best (least squares), at the node's own position, and between the
        least and the greatest of them. It is the same whatever is shown: `fits(uv, 2)[frame.nodes]`
        are the u and v of a frame's vertices.

        values: so many whole numbers from -2,097,152 to 2,097,152 as channels for each vertex of
        the mesh that the stream was made of, in its order, as 65,536 times u and v; in numpy of
        shape (L, channels) or flat.

        Answers int32 of shape (N, channels) for the N nodes, (N,) for one channel; without numpy a
        flat `array.array`. Raises ValueError where the values don't fit.
        """
        number_to(MOST_NUMBER, channels, "channels")
        count, by_vertex = numbers_in_room(values)
        with self._lock:
            room, by_node = self._room_by_node("i", channels, count)
            check(self._library.vdpm_fits(self._viewer, channels, by_vertex, count, by_node,
                                          len(room)))
        answer: "NDArray[int32]" = in_rows(room, channels) if channels > 1 else room
        return answer

    def inputs(self) -> Inputs:
        """Which vertices and faces of the text that the stream was made of nodes and faces are. It
        is the same whatever is shown: `names[session.inputs().by_face[frame.faces]]` are the names
        of a frame's faces, where `names` has one for each face of the text."""
        with self._lock:
            nodes, by_node = room_for("I", self.sizes().nodes)
            faces, by_face = room_for("I", self._faces_in_all())
            check(self._library.vdpm_inputs(self._viewer, by_node, len(nodes), by_face, len(faces),
                                            ctypes.c_uint32()))
        return Inputs(nodes, faces)

    def _faces_in_all(self) -> int:
        """How many faces the complete mesh has."""
        count = ctypes.c_uint32()
        status = self._library.vdpm_inputs(self._viewer, None, 0, None, 0, count)
        if status != NO_ROOM:
            check(status)
        return count.value

    def _room_by_node(self, kind: str, channels: int, count: int) -> Room:
        """Room for what nodes have, where so many numbers are given for the vertices."""
        sizes = self.sizes()
        if count != channels * sizes.leaves:
            raise ValueError(f"{count} values, and not {channels} for each of {sizes.leaves} "
                             "vertices")
        return room_for(kind, channels * sizes.nodes)
