"""Making a text fit, making a stream of it, and packing that."""
import ctypes
import os
import re
from fractions import Fraction
from typing import Any, Callable, NamedTuple, Optional, Tuple, TypeVar

from .faults import OF_ANY_TEXT, OF_PACKED, OF_STREAM, OF_TEXT, NotMesh, Table, TextFault
from .library import (MOST_NUMBER, Handle, Text, Told, bytes_of, check, check_made, check_packed,
                      load, number_to)

Made = TypeVar("Made")
MOST_DIGITS, MOST_SIZE = 4, 32767
PLACED = re.compile(r"coordinate = (\S+) / (\d+) \* place \+ \((\S+) (\S+) (\S+)\)")
FACE = re.compile(rb"^[ \t]*f[ \t]", re.MULTILINE)
SUFFIX = re.compile(r"\.[A-Za-z]\w{0,7}\Z")
# How files of other kinds begin.
KINDS = (
    (rb"ply\r?\n", "a PLY"), (rb"glTF", "a GLB"), (rb"VDP[MK]", "a stream, which is made already"),
    (rb"solid\b[^\n]*\n\s*(?:facet|endsolid)\b", "an STL"), (rb"OFF\s", "an OFF"),
    (rb"PK\x03\x04", "a zip"), (rb"\x1f\x8b", "a gzip"), (rb"Kaydara FBX", "an FBX"),
    (rb"\s*[{\[]", "JSON"), (rb"\s*<", "XML"),
)  # fmt: skip


# Those that `prepare` reads.
READ = ("a PLY", "an STL")


class Prepared(NamedTuple):
    """An OBJ text that is fit for `build` and `simplify`, and what was done.

    text: the text, whose places are whole numbers but where coordinates stood as they stood.
    notes: a line each of what was done (docs/commands/prepare.md).
    """

    text: bytes
    notes: Tuple[str, ...]

    def __repr__(self) -> str:
        return f"Prepared({len(self.text)} bytes, {len(self.notes)} notes)"

    @property
    def scale(self) -> Fraction:
        """By what a number of the text is multiplied, before `middle` is added, to be the
        coordinate that it was; 1 where coordinates stand as they stood."""
        found = self._placed()
        return Fraction(found[1]) / int(found[2]) if found else Fraction(1)

    @property
    def middle(self) -> Tuple[Fraction, Fraction, Fraction]:
        """What is added to x, y and z after that: coordinate = scale * number + middle."""
        found = self._placed()
        x, y, z = (Fraction(found[at]) if found else Fraction(0) for at in (3, 4, 5))
        return x, y, z

    def _placed(self) -> Optional["re.Match[str]"]:
        return next(filter(None, map(PLACED.search, self.notes)), None)


def _is_binary_stl(data: bytes) -> bool:
    return len(data) >= 84 and len(data) == 84 + 50 * int.from_bytes(data[80:84], "little")


def _what_it_is(data: bytes, table: Table) -> Optional[str]:
    """What is told of bytes that are known to be no file that is read."""
    kinds = [kind for begins, kind in KINDS if re.match(begins, data)]
    kinds += ["an STL"] if _is_binary_stl(data) else []
    if kinds:
        return None if table is OF_ANY_TEXT and kinds[0] in READ else f"it is {kinds[0]}"
    name = data.decode(errors="replace")
    if len(data) < 4096 and "\n" not in name and (SUFFIX.search(name) or _is_file(name)):
        return f"it is {name!r}, the path of a text: open(path, 'rb').read() is one"
    return None


def _is_file(name: str) -> bool:
    return bool(name) and "\0" not in name and os.path.exists(name)


def text_of(given: Text) -> bytes:
    if isinstance(given, os.PathLike):
        raise TypeError(f"{given!r} is a path, and not a text: open(path, 'rb').read() is")
    return bytes_of(given)


def _made(library: ctypes.CDLL, check_status: Callable[[int, Told, Table], None], table: Table,
          function: Any, *asked: Any) -> Tuple[bytes, bytes]:
    """The bytes that a function makes of what it is asked, and the lines that it says of them."""
    made, fault = Handle(None, 0), Told()
    check_status(function(*asked, made, fault), fault, table)
    return taken_out(library, made)


def taken_out(library: ctypes.CDLL, made: Handle) -> Tuple[bytes, bytes]:
    """The bytes that were made, and the lines that are said of them. The handle is closed."""
    try:
        lengths = ctypes.c_size_t(), ctypes.c_size_t()
        check(library.vdpm_made_length(made, *lengths))
        rooms = [(ctypes.c_uint8 * max(it.value, 1))() for it in lengths]
        check(library.vdpm_made_bytes(made, rooms[0], lengths[0].value))
        check(library.vdpm_made_notes(made, rooms[1], lengths[1].value))
        return bytes(rooms[0])[: lengths[0].value], bytes(rooms[1])[: lengths[1].value]
    finally:
        library.vdpm_made_close(made)


def of_text(table: Table, allow_empty: bool, data: bytes, make: Callable[[], Made]) -> Made:
    """What is made of a text. Where it is known to be none, what it is is told."""
    try:
        made = make()
    except TextFault as fault:
        told = _what_it_is(data, table)
        if told is None:
            raise
        raise NotMesh(told, fault.number, fault.place) from fault
    if not allow_empty and not FACE.search(data):
        told = (f"no line begins with f in its {len(data)} bytes, which begin with {data[:32]!r}; "
                "allow_empty=True makes a stream of it")
        raise NotMesh(_what_it_is(data, table) or told)
    return made


def _of_text(library: ctypes.CDLL, table: Table, function: Any, allow_empty: bool, data: bytes,
             *asked: int) -> Tuple[bytes, bytes]:
    return of_text(table, allow_empty, data, lambda: _made(library, check_made, table, function,
                                                           data, len(data), *asked))


def build(text: Text, faces: int = 0, digits: int = 0, library: Optional[str] = None, *,
          allow_empty: bool = False) -> bytes:
    """Makes the stream of an OBJ text, as `vdpm build FACES --digits DIGITS` does.

    text: the text itself, not its path, as bytes or str.
    faces: how many faces the base mesh is simplified to; 0: as far as that goes.
    digits: decimals of a coordinate, from 0 to 4. A unit is 10 to the power of -digits.
    allow_empty: makes the stream of a text without a face too.

    Raises TextFault where the program refuses the text, with the line, or the face or vertex of its
    mesh, as its place; NotMesh, which is one, where it is no OBJ text with a face; ValueError where
    a number is out of its range; and MemoryError.
    """
    data, loaded = text_of(text), load(library)
    faces = number_to(MOST_NUMBER, faces, "faces")
    digits = number_to(MOST_DIGITS, digits, "digits")
    return _of_text(loaded, OF_TEXT, loaded.vdpm_build, allow_empty, data, faces, digits)[0]


def simplify(text: Text, faces: int = 0, digits: int = 0, keep_border: bool = False,
             library: Optional[str] = None, *, allow_empty: bool = False) -> bytes:
    """Makes the stream of an OBJ text, as `simplify FACES --digits DIGITS` does: by finer costs.

    keep_border: each frame of the stream shows the border of the mesh. Else it is as `build`.
    """
    data, loaded = text_of(text), load(library)
    faces = number_to(MOST_NUMBER, faces, "faces")
    digits = number_to(MOST_DIGITS, digits, "digits")
    return _of_text(loaded, OF_TEXT, loaded.vdpm_simplify, allow_empty, data, faces, digits,
                    bool(keep_border))[0]


def prepare(text: Text, size: Optional[int] = None, library: Optional[str] = None) -> Prepared:
    """Makes any OBJ, PLY or STL file fit for `build` and `simplify`, as the program `prepare` does.

    text: the file's bytes, not its path; an OBJ text may be a str.
    size: None, and places that fit the grid stand as they are; or from 1 to 32,767: the longest
    axis of the box goes from -size to size.

    Raises TextFault, with the line if one has the fault, where the program refuses the file;
    NotMesh, which is one, where it is of another kind; ValueError; and MemoryError.
    """
    data, loaded = text_of(text), load(library)
    if size is not None and number_to(MOST_SIZE, size, "size") == 0:
        raise ValueError(f"size is {size}, and not from 1 to {MOST_SIZE:,}")
    made, notes = _of_text(loaded, OF_ANY_TEXT, loaded.vdpm_prepare, True, data, size or 0)
    return Prepared(made, tuple(notes.decode().splitlines()))


def pack(stream: bytes, library: Optional[str] = None) -> bytes:
    """Packs a stream, as the program `pack` does, to about a sixth of its bytes.

    Raises StreamFault where the program refuses the bytes, and MemoryError.
    """
    data, loaded = bytes_of(stream, "a stream"), load(library)
    return _made(loaded, check_packed, OF_STREAM, loaded.vdpm_pack, data, len(data))[0]


def unpack(packed: bytes, library: Optional[str] = None, *,
           records: Optional[int] = None) -> bytes:
    """The stream that was packed, byte for byte, as `pack --unpack` writes it.

    records: the stream of so many of its first records, a model of its own; `packed` may be cut off
    anywhere after the base mesh, and what it tells is taken. Where the text has no more records and
    its bytes are all there it is the stream that was packed.

    Raises StreamFault where the program refuses the bytes, ValueError, and MemoryError.
    """
    data, loaded = bytes_of(packed, "a packed text"), load(library)
    if records is not None:
        records = number_to(MOST_NUMBER, records, "records")
        return _made(loaded, check_packed, OF_PACKED, loaded.vdpm_unpack_first, data, len(data),
                     records)[0]
    return _made(loaded, check_packed, OF_PACKED, loaded.vdpm_unpack, data, len(data))[0]
