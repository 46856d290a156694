"""Arrays that the library writes into: numpy's where it is there, else `array.array`s."""
import array
import ctypes
from typing import Any, Dict, List, Sequence, Tuple

try:
    import numpy as found
except ImportError:
    numpy: Any = None
else:
    numpy = found

from .library import NUMBERS, SHORT, SIGNED, number_from

MOST_VALUE, MOST_FITTED = 65535, 1 << 21
# By kind: what points at such numbers, their name in numpy, and their bytes.
KINDS: Dict[str, Tuple[Any, str, int]] = {
    "I": (NUMBERS, "uint32", 4), "i": (SIGNED, "int32", 4), "H": (SHORT, "uint16", 2),
}  # fmt: skip
# An array, and a pointer to its first number.
Room = Tuple[Any, Any]


def pointer_to(kind: str, room: Any) -> Any:
    """A pointer to the first number of an array; None where it has none."""
    pointed, _, size = KINDS[kind]
    if len(room) == 0:
        return None
    if numpy is not None:
        return room.ctypes.data_as(pointed)
    return ctypes.cast((ctypes.c_uint8 * (size * len(room))).from_buffer(room), pointed)


def room_for(kind: str, count: int) -> Room:
    """Room for so many numbers, and a pointer to it."""
    _, name, size = KINDS[kind]
    plain = numpy is None
    room = array.array(kind, bytes(size * count)) if plain else numpy.empty(count, dtype=name)
    return room, pointer_to(kind, room)


def _in_room(kind: str, given: Any, least: int, most: int) -> Tuple[int, Any]:
    """How many numbers there are, each from `least` to `most`, and a pointer to them in a row."""
    numbers = list(given) if numpy is None else numpy.asarray(given).ravel()
    if len(numbers) > 0:
        if numpy is not None and numbers.dtype.kind not in "ui":
            raise TypeError("values aren't whole numbers")
        ends = (min(numbers), max(numbers)) if numpy is None else (numbers.min(), numbers.max())
        for end in ends:
            number_from(least, most, end, "a value")
    room, at = room_for(kind, len(numbers))
    room[:] = numbers if numpy is not None else array.array(kind, numbers)
    return len(room), at


def values_in_room(given: Any) -> Tuple[int, Any]:
    """How many numbers there are, each from 0 to 65,535, and a pointer to them in a row."""
    return _in_room("H", given, 0, MOST_VALUE)


def numbers_in_room(given: Any) -> Tuple[int, Any]:
    """The same of numbers from -2,097,152 to 2,097,152."""
    return _in_room("i", given, -MOST_FITTED, MOST_FITTED)


def rooms_for_change(sizes: Sequence[int]) -> List[Room]:
    """Room for a change with lists of these lengths."""
    gone_faces, gone_nodes, new_nodes, put_faces = sizes
    kinds = (("I", gone_faces), ("I", gone_nodes), ("I", new_nodes), ("i", 3 * new_nodes),
             ("I", put_faces), ("I", 3 * put_faces))
    return [room_for(kind, count) for kind, count in kinds]


def in_rows(numbers: Any, width: int) -> Any:
    """The numbers, with a row for each `width` of them where numpy is there."""
    return numbers if numpy is None else numbers.reshape(-1, width)


def in_threes(arrays: List[Any], places: Sequence[int]) -> List[Any]:
    """The arrays, those at these places in rows of three."""
    return [in_rows(it, 3) if at in places else it for at, it in enumerate(arrays)]


def copied(room: Any, count: int) -> Any:
    """A copy of the first numbers."""
    return room[:count].copy() if numpy is not None else room[:count]


def first(room: Any, count: int) -> Any:
    """The first numbers, or the whole where it has no more."""
    return room if len(room) == count else room[:count]


def joined(numbers: Any, count: int, number: int = 0) -> Any:
    """The numbers, and another one so many times after them."""
    if count == 0:
        return numbers
    if numpy is not None:
        return numpy.append(numbers, numpy.full(count, number, dtype=numbers.dtype))
    return numbers + array.array(numbers.typecode, [number]) * count


def grown(room: Any, count: int) -> Any:
    """A room of at least so many numbers, with those of another at its front."""
    more = 0 if count <= len(room) else max(count, 2 * len(room)) - len(room)
    return joined(room, more)


def put_at(room: Any, rows: Any, values: Any, width: int) -> None:
    """Puts the next `width` of the values into each of these rows of a room."""
    if numpy is not None:
        room.reshape(-1, width)[rows] = values.reshape(-1, width)
        return
    for at, row in enumerate(rows):
        room[width * row : width * (row + 1)] = values[width * at : width * (at + 1)]


def seen(room: Any, rows: int, width: int) -> Any:
    """A view of the first rows of so many numbers, which can't be written: a flat `memoryview`
    where numpy isn't there."""
    if numpy is None:
        return memoryview(room)[: rows * width].toreadonly()
    view = room[: rows * width]
    view.flags.writeable = False
    return view if width == 1 else view.reshape(-1, width)
