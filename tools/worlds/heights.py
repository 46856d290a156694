"""Reads height fields: ESRI ASCII grids, and binary PGM files of 8 or 16 bits.

A field stays in a file, and is read by parts of its rows, so its size takes no memory: a grid in a
file of eight bytes a point without a name, which is gone with the program, a picture in its own.
Other forms become an ASCII grid by GDAL (rasters).
"""
import os
import sys
import tempfile
from array import array
from dataclasses import dataclass
from math import inf, isfinite, isnan, nan
from pathlib import Path
from typing import BinaryIO, Callable, Dict, Iterator, NamedTuple, Tuple

from mesh_files.obj import BYTE_ORDER_MARK

from .form import WorldFault

FIELDS = (".asc", ".pgm")
_WORDS = {
    "ncols", "nrows", "xllcorner", "yllcorner", "xllcenter", "yllcenter", "cellsize", "dx", "dy",
    "nodata_value",
}
_BLOCK = 1 << 20  # bytes
_MOST_DIGITS = 9  # of a number in a picture's head


class Rows(NamedTuple):
    """The rows of a file from its byte `start` on, the northernmost first. A height is `rise` times
    a number."""

    file: BinaryIO
    start: int
    letter: str  # of a number, as `array` has it
    columns: int
    rows: int
    rise: float = 1.0

    @property
    def size(self) -> int:
        """How many bytes a number has."""
        return array(self.letter).itemsize

    def part(self, row: int, first: int, last: int) -> "array[float]":
        """The heights of a row, counted from the south, from one column to another."""
        numbers = array(self.letter)
        place = (self.rows - 1 - row) * self.columns + first
        self.file.seek(self.start + numbers.itemsize * place)
        numbers.frombytes(self.file.read(numbers.itemsize * (last + 1 - first)))
        if self.letter == "d":
            return numbers
        if self.letter == "H" and sys.byteorder == "little":
            numbers.byteswap()
        return array("d", (self.rise * grey for grey in numbers))


@dataclass(frozen=True)
class Heights:
    """A grid of points. Row 0 is the southernmost, and column 0 the westernmost; `west` and `south`
    are where the first point stands. A height that isn't known is no number; `low` and `high` are
    the least and the greatest of the others."""

    columns: int
    rows: int
    west: float
    south: float
    across: float  # between two columns
    along: float  # between two rows
    low: float
    high: float
    heights: Rows

    def part(self, row: int, first: int, last: int) -> "array[float]":
        return self.heights.part(row, first, last)

    def at(self, row: int, column: int) -> float:
        return self.part(row, column, column)[0]


def read_heights(
    path: Path, spacing: float, rise: float, watch: Callable[[BinaryIO], None] = lambda _: None
) -> Heights:
    """A height field of a file whose name ends in .asc or .pgm. `spacing` is how far the points of
    a PGM file are apart, and `rise` how high a step of its grey is; `watch` is given the open
    file."""
    file = path.open("rb")
    watch(file)
    try:
        if path.suffix.lower() == ".pgm":
            return _read_pgm(file, spacing, rise)
        with file:
            return _read_grid(file)
    except WorldFault as fault:
        file.close()
        raise WorldFault(f"{path}: {fault}") from None


def size_of(path: Path) -> Tuple[int, int]:
    """How many columns and rows the head of such a file tells."""
    with path.open("rb") as file:
        if path.suffix.lower() == ".pgm":
            return _pgm_head(file)[:2]
        head = _head_of(_head_lines(file)[0])
        return head.columns, head.rows


class _Range:
    """The least and the greatest height that is known."""

    def __init__(self) -> None:
        self.low, self.high = inf, -inf

    def add(self, heights: "array[float]") -> None:
        known = [h for h in heights if not isnan(h)] if isnan(sum(heights)) else heights
        if known:
            self.low, self.high = min(self.low, min(known)), max(self.high, max(known))

    def told(self) -> Tuple[float, float]:
        if self.low > self.high:
            raise WorldFault("no point of the height field has a height")
        return self.low, self.high


# --- ESRI ASCII grids


class _Head(NamedTuple):
    columns: int
    rows: int
    across: float
    along: float
    west: float
    south: float
    unknown: float


def _head_lines(file: BinaryIO) -> Tuple[Dict[str, float], int, bytes]:
    """What the head's lines tell; the number of the line after it, and its beginning."""
    told: Dict[str, float] = {}
    number = 1
    while True:
        line = file.readline(_BLOCK)
        if number == 1 and line.startswith(BYTE_ORDER_MARK):
            line = line[len(BYTE_ORDER_MARK) :]
        word, *rest = line.split()[:3] or [b""]
        name = word.decode("latin-1").lower()
        if name not in _WORDS:
            return told, number, line
        try:
            (value,) = map(float, rest)
        except ValueError:
            raise WorldFault(f"line {number}: `{name}` tells one number") from None
        if name in told:
            raise WorldFault(f"line {number}: `{name}` is there twice")
        told[name] = value
        number += 1


def _head_of(told: Dict[str, float]) -> _Head:
    def needed(name: str, other: str = "") -> float:
        found = told.get(name, told.get(other))
        if found is None:
            raise WorldFault(f"the grid's head doesn't tell `{name}`")
        return found

    columns, rows = needed("ncols"), needed("nrows")
    across, along = needed("dx", "cellsize"), needed("dy", "cellsize")
    if not all(n >= 1 and n == int(n) for n in (columns, rows) if isfinite(n)):
        raise WorldFault("`ncols` and `nrows` are whole numbers above 0")
    if not all(isfinite(n) and n > 0 for n in (columns, rows, across, along)):
        raise WorldFault("`ncols`, `nrows` and `cellsize` are numbers above 0")
    west = told.get("xllcenter", told.get("xllcorner", 0.0) + across / 2)
    south = told.get("yllcenter", told.get("yllcorner", 0.0) + along / 2)
    if not (isfinite(west) and isfinite(south)):
        raise WorldFault("the grid's corner is no place")
    unknown = told.get("nodata_value", -9999.0)
    return _Head(int(columns), int(rows), across, along, west, south, unknown)


def _texts(file: BinaryIO, begun: bytes, line: int) -> Iterator[Tuple[int, bytes]]:
    """The file in parts that cut no number, each with the number of its first line."""
    while True:
        block = file.read(_BLOCK)
        text = begun + block
        end = max(text.rfind(blank) for blank in (b"\n", b" ", b"\t")) + 1 if block else len(text)
        if not end and len(text) > _BLOCK:
            raise WorldFault(f"line {line}: no blank in {_BLOCK:,} bytes: this is no grid")
        yield line, text[:end]
        if not block:
            return
        line += text.count(b"\n", 0, end)
        begun = text[end:]


def _is_height(number: float, unknown: float) -> bool:
    return isfinite(number) or isnan(number) and isnan(unknown)


def _first_fault(line: int, text: bytes, unknown: float) -> WorldFault:
    for number, part in enumerate(text.split(b"\n"), line):
        for field in part.split():
            try:
                if b"_" not in field and _is_height(float(field), unknown):
                    continue
            except ValueError:
                pass
            told = field[:20].decode("latin-1")
            return WorldFault(f"line {number}: {told!r} is no height")
    return WorldFault(f"line {line}: the heights are too great")


def _heights_in(line: int, text: bytes, unknown: float) -> "array[float]":
    try:
        found = array("d", map(float, text.split()))
    except ValueError:
        raise _first_fault(line, text, unknown) from None
    if b"_" in text or not isfinite(sum(found)):
        if b"_" in text or not all(_is_height(h, unknown) for h in found):
            raise _first_fault(line, text, unknown)
    if unknown in found:
        return array("d", (nan if h == unknown else h for h in found))
    return found


def _read_grid(file: BinaryIO) -> Heights:
    told, line, begun = _head_lines(file)
    head = _head_of(told)
    out = tempfile.TemporaryFile(dir=os.environ.get("TMPDIR", "/var/tmp"))
    count, wanted, known = 0, head.rows * head.columns, _Range()
    for number, text in _texts(file, begun, line):
        heights = _heights_in(number, text, head.unknown)
        count += len(heights)
        if count > wanted:
            break
        known.add(heights)
        heights.tofile(out)
    if count != wanted:
        has = "more" if count > wanted else f"{count:,}"
        raise WorldFault(
            f"{head.rows:,} rows of {head.columns:,} heights are {wanted:,}, and the grid has {has}"
        )
    out.flush()
    low, high = known.told()
    rows = Rows(out, 0, "d", head.columns, head.rows)
    size = (head.columns, head.rows, head.west, head.south, head.across, head.along)
    return Heights(*size, low, high, rows)


# --- pictures


def _pgm_number(file: BinaryIO) -> int:
    """The next number of the head, with the blank after it: comments go from `#` to the end of
    their line."""
    text = b""
    while True:
        byte = file.read(1)
        if byte == b"#":
            file.readline()
        elif byte.isdigit() and len(text) < _MOST_DIGITS:
            text += byte
        elif text and byte.isspace():
            return int(text)
        elif not byte.isspace():
            raise WorldFault(f"line {_line_of(file)}: the head of a picture has three numbers")


def _line_of(file: BinaryIO) -> int:
    """The line of the byte that was read last."""
    end = file.tell()
    file.seek(0)
    return 1 + file.read(max(0, end - 1)).count(b"\n")


def _pgm_head(file: BinaryIO) -> Tuple[int, int, int]:
    """Columns, rows and the greatest grey."""
    if file.read(2) != b"P5":
        raise WorldFault("the file is no binary PGM (`P5`)")
    columns, rows, greatest = (_pgm_number(file) for _ in range(3))
    if not (columns and rows and 0 < greatest < 65_536):
        raise WorldFault(f"the head tells {columns} by {rows} points of at most {greatest}")
    return columns, rows, greatest


def _read_pgm(file: BinaryIO, spacing: float, rise: float) -> Heights:
    columns, rows, greatest = _pgm_head(file)
    found = Rows(file, file.tell(), "H" if greatest > 255 else "B", columns, rows, rise)
    whole = (os.fstat(file.fileno()).st_size - found.start) // (found.size * columns)
    if whole < rows:
        raise WorldFault(f"the picture is cut off after {whole:,} of {rows:,} rows")
    known = _Range()
    for row in reversed(range(rows)):
        known.add(found.part(row, 0, columns - 1))
    low, high = known.told()
    return Heights(columns, rows, 0.0, 0.0, spacing, spacing, low, high, found)
