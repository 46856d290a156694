"""Finding and loading the library."""
import ctypes
import hashlib
import os
from fractions import Fraction
from pathlib import Path
from typing import Any, Dict, NamedTuple, Optional, Union

from .faults import LineFault, NotOpen, StreamFault, Table, TextFault
from .fields import exact

# What is taken for a text or a line.
Text = Union[str, bytes, bytearray, memoryview]
FAULTY, OUT_OF_RANGE = 1, 2
DONE, NO_MEMORY, NOT_SO, NO_ROOM, NO_SUCH, QUIT = 0, 5, 6, 7, 8, 9
BAD_LINE, NO_RECORD = 30, 31
BY_ERROR, BY_DEVIATION = 0, 1
NONE = MOST_NUMBER = 0xFFFFFFFF
BYTES = ctypes.POINTER(ctypes.c_uint8)
NUMBERS = ctypes.POINTER(ctypes.c_uint32)
SIGNED = ctypes.POINTER(ctypes.c_int32)
SHORT = ctypes.POINTER(ctypes.c_uint16)
LONG = ctypes.POINTER(ctypes.c_int64)


class Handle(ctypes.Structure):
    """A viewer, or what was made. Its fields are the library's own."""

    _fields_ = [("at", ctypes.c_void_p), ("open", ctypes.c_uint32)]


class Told(ctypes.Structure):
    """The fault of a text."""

    _fields_ = [("number", ctypes.c_uint32), ("place", ctypes.c_uint64)]


class Fineness(ctypes.Structure):
    """How fine the mesh that is shown is, as the library tells it."""

    error: int
    deviation: int
    split: int
    _fields_ = [("error", ctypes.c_uint64), ("deviation", ctypes.c_uint64),
                ("split", ctypes.c_uint32)]


class Look(ctypes.Structure):
    """A view, but for its planes."""

    _fields_ = [("eye", ctypes.c_int32 * 3), ("focal", ctypes.c_uint32),
                ("tolerance", ctypes.c_uint32), ("silhouette", ctypes.c_uint32),
                ("measure", ctypes.c_uint32)]


class Moves(ctypes.Structure):
    """What a view came to."""

    _fields_ = [("moves", ctypes.c_uint32), ("left", ctypes.c_uint32)]


class Decimal(ctypes.Structure):
    """A number with decimals, as the library tells it."""

    whole: int
    part: int
    negative: int
    _fields_ = [("whole", ctypes.c_uint64), ("part", ctypes.c_uint64),
                ("negative", ctypes.c_uint32)]

    def value(self, digits: int) -> Fraction:
        """What it is, its part in units of 10 to the power -digits."""
        number = self.whole + Fraction(self.part, 10**digits)
        return -number if self.negative else number


class Scale(ctypes.Structure):
    """How the positions of a prepared text lead back to coordinates, as the library tells it."""

    extent: Decimal
    steps: int
    _fields_ = [("extent", Decimal), ("middle", Decimal * 3), ("steps", ctypes.c_uint32)]


class Progress(ctypes.Structure):
    """How far a run is, as the library tells it."""

    faces: int
    faces_left: int
    collapses: int
    ended: int
    _fields_ = [("faces", ctypes.c_uint64), ("faces_left", ctypes.c_uint64),
                ("collapses", ctypes.c_uint64), ("ended", ctypes.c_uint32)]


class Version(NamedTuple):
    """Which file the library is, and what the record beside it tells, as `./prove --status` does.

    Where the file has no record, or is another than was built, all but its path is None.
    """

    path: str
    proved: Optional[bool]
    commit: Optional[str]
    built: Optional[str]
    kit: Optional[str]
    sources: Optional[str]


def path_of_library() -> str:
    """Where the library is."""
    told = os.environ.get("VDPM_LIBRARY")
    if told:
        return told
    here = Path(__file__).resolve().parent
    top = here.parent.parent
    for folder in (here, top / "proved", top / "unproved"):
        if (folder / "libvdpm.so").exists():
            return str(folder / "libvdpm.so")
    raise FileNotFoundError("libvdpm.so isn't built: ./prove libvdpm proves and builds it, "
                            "python3 tools/library.py builds it without a proof")


def _record_of(path: Path) -> Path:
    """The record beside a library, or beside the file that a link leads to."""
    beside = path.with_name(f"{path.name}.record")
    return beside if beside.exists() else path.resolve().with_name(f"{path.resolve().name}.record")


def version(library: Optional[str] = None) -> Version:
    """Tells which library is loaded by default, or that one: whether it was proved, and of which
    sources it was built, by a sum of them. It isn't looked whether those still stand."""
    path = library or path_of_library()
    unknown = Version(path, None, None, None, None, None)
    try:
        lines = _record_of(Path(path)).read_text(encoding="utf-8").splitlines()
        found = hashlib.sha256(Path(path).read_bytes()).hexdigest()
    except (OSError, ValueError):
        return unknown
    said: Dict[str, str] = dict(line.partition(" ")[::2] for line in lines)
    if said.get("sum") != found:
        return unknown
    return Version(path, said.get("proved") == "yes", said.get("commit"), said.get("built"),
                   said.get("kit"), said.get("sources"))


def load(path: Optional[str] = None) -> ctypes.CDLL:
    """The library, with the types of its functions."""
    library = ctypes.CDLL(path or path_of_library())
    handle, size, number = ctypes.POINTER(Handle), ctypes.c_size_t, ctypes.c_uint32
    text, told, count = ctypes.c_char_p, ctypes.POINTER(Told), ctypes.POINTER(ctypes.c_size_t)
    types = {
        "open": [text, size, number, handle, ctypes.POINTER(ctypes.c_uint64)],
        "line": [handle, text, size],
        "reply_length": [handle, count],
        "reply": [handle, BYTES, size],
        "view": [handle, ctypes.POINTER(Look), LONG, size, ctypes.POINTER(Moves)],
        "counts": [handle, NUMBERS],
        "frame": [handle, NUMBERS, size, SIGNED, size, NUMBERS, size, NUMBERS, size, NUMBERS, size],
        "change": [handle, NUMBERS, size, NUMBERS, size, NUMBERS, size, SIGNED, size, NUMBERS, size,
                   NUMBERS, size, NUMBERS],
        "splitter": [handle, number, NUMBERS],
        "maker": [handle, number, NUMBERS],
        "ancestor": [handle, number, NUMBERS],
        "place": [handle, number, SIGNED, size],
        "means": [handle, number, SHORT, size, SHORT, size],
        "fits": [handle, number, SIGNED, size, SIGNED, size],
        "inputs": [handle, NUMBERS, size, NUMBERS, size, NUMBERS],
        "extent": [handle, SIGNED],
        "level": [handle, ctypes.POINTER(Fineness)],
        "version": [],
        "close": [handle],
        "build": [text, size, number, number, handle, told],
        "simplify": [text, size, number, number, number, handle, told],
        "simplify_begin": [text, size, number, number, number, handle, told],
        "simplify_more": [handle, number, ctypes.POINTER(Progress)],
        "simplify_end": [handle, handle],
        "simplify_close": [handle],
        "prepare": [text, size, number, handle, told],
        "pack": [text, size, handle, told],
        "unpack": [text, size, handle, told],
        "unpack_first": [text, size, number, handle, told],
        "made_length": [handle, count, count],
        "made_bytes": [handle, BYTES, size],
        "made_notes": [handle, BYTES, size],
        "made_scale": [handle, ctypes.POINTER(Scale)],
        "made_close": [handle],
        "slots_open": [number, handle],
        "slots_change": [handle, NUMBERS, size, NUMBERS, size, NUMBERS, size, NUMBERS],
        "slots_of": [handle, NUMBERS, size, NUMBERS, size],
        "slots_close": [handle],
    }
    for name, arguments in types.items():
        function = getattr(library, f"vdpm_{name}")
        function.argtypes, function.restype = arguments, number
    for name in ("close", "made_close", "simplify_close", "slots_close"):
        getattr(library, f"vdpm_{name}").restype = None
    return library


def check(status: int, place: Optional[int] = None) -> None:
    """Raises what a status says."""
    if status in (DONE, QUIT):
        return
    if status == NO_MEMORY:
        raise MemoryError("libvdpm: out of memory")
    if status == NOT_SO:
        raise NotOpen("the session is closed")
    if status == NO_SUCH:
        raise IndexError("there is no node or leaf with this number")
    if status == NO_ROOM:
        raise ValueError("an array has too little room")
    if status == OUT_OF_RANGE:
        raise ValueError("a number is out of its range")
    raise (LineFault if status in (BAD_LINE, NO_RECORD) else StreamFault)(status, place)


def check_made(status: int, told: Told, table: Table) -> None:
    """Raises what a status says of a text."""
    if status == FAULTY:
        raise TextFault(told.number, told.place or None, table)
    check(status)


def check_packed(status: int, told: Told, table: Table) -> None:
    """Raises what a status says of a stream, whose units are counted from 0."""
    if status == FAULTY:
        raise StreamFault(told.number, told.place, table)
    check(status)


def number_from(least: int, most: int, number: Any, name: str) -> int:
    """A whole number from `least` to `most`: ctypes would cut off what doesn't fit."""
    it = Fraction(0) if type(number) is int else exact(number, name)
    if it.denominator != 1 or not least <= number <= most:
        raise ValueError(f"{name} is {number}, and not a whole number from {least:,} to {most:,}")
    return int(number)


def number_to(most: int, number: Any, name: str) -> int:
    """A whole number from 0 to `most`."""
    return number_from(0, most, number, name)


def bytes_of(given: Any, what: str = "a text") -> bytes:
    """What was given as bytes. A str is a text, and never the bytes of something."""
    if isinstance(given, str) and what == "a text":
        return given.encode()
    if isinstance(given, (bytes, bytearray, memoryview)):
        return bytes(given)
    raise TypeError(f"{what} is asked for as bytes, and {given!r:.80} is of type "
                    f"{type(given).__name__}: a file's bytes are open(path, 'rb').read()")
