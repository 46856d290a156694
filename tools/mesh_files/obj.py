"""Reads OBJ texts as `prepare` does: blanks and tabs before and between fields, CR LF, comments, a
byte order mark, lines that are continued by a backslash, exponents, and polygons."""
import re
from typing import BinaryIO, Iterable, Iterator, List, Optional, Tuple

from .soup import MeshFault, Soup, finite

BYTE_ORDER_MARK = b"\xef\xbb\xbf"
_LONGEST = 65_536
_COMMON = (b"v", b"vt", b"vn", b"f")
_NOT_LETTERS = re.compile(rb"[^A-Za-z]")
_SCALED = re.compile(rb"# coordinate = (\S+) / (\d+) \* place \+ \((\S+) (\S+) (\S+)\)")
_FACE_LINE = re.compile(rb"^[ \t]*f[ \t]", re.MULTILINE)
_KINDS = {
    "texture coordinates": b"vt",
    "normals": b"vn",
    "group lines": b"g o s mg",
    "material lines": b"usemtl mtllib",
    "lines and points": b"l p",
}
_KIND_OF = {word: kind for kind, words in _KINDS.items() for word in words.split()}

Line = Tuple[int, List[bytes]]


def scale_of(line: bytes) -> Optional[Tuple[float, Tuple[float, float, float]]]:
    """What the first line of a text that `prepare` scaled tells: a coordinate is the step times the
    place plus the middle."""
    found = _SCALED.match(line)
    if found is None:
        return None
    extent, steps, x, y, z = map(float, found.groups())
    return extent / steps, (x, y, z)


def face_count(text: bytes) -> int:
    """How many lines of a text are faces."""
    return len(_FACE_LINE.findall(text))


def without_mark(text: bytes) -> bytes:
    return text[len(BYTE_ORDER_MARK) :] if text.startswith(BYTE_ORDER_MARK) else text


def _content(number: int, line: bytes) -> bytes:
    """What is read of a line."""
    if number == 1:
        if line[:2] in (b"\xff\xfe", b"\xfe\xff"):
            raise MeshFault("line 1: the text has 16 bits a letter: write it anew as UTF-8")
        line = without_mark(line)
    if len(line) > _LONGEST + 2:
        raise MeshFault(f"line {number}: more than {_LONGEST:,} bytes: this is no OBJ text")
    text = line.rstrip(b"\n")
    text = text[:-1] if text.endswith(b"\r") else text
    if b"\r" in text:
        raise MeshFault(f"line {number}: a CR stands inside the line: end lines with LF")
    return text.partition(b"#")[0]


def fields_of(lines: Iterable[bytes]) -> Iterator[Line]:
    """The fields of each line that has some, with its number from 1. Of lines that go together the
    first is named."""
    begun, first = b"", 0
    number = 0
    for number, line in enumerate(lines, 1):
        text = _content(number, line)
        first = first or number
        if text.endswith(b"\\"):
            begun += text[:-1] + b" "
            continue
        fields = (begun + text).split()
        if fields:
            yield first, fields
        begun, first = b"", 0
    if first:
        raise MeshFault(f"line {first}: the text ends where a backslash says that it goes on")


def _point(fields: List[bytes]) -> List[float]:
    if len(fields) < 4:
        raise MeshFault("a vertex has three coordinates")
    try:
        if any(b"_" in field for field in fields[1:4]):
            raise ValueError
        return finite(map(float, fields[1:4]))
    except ValueError:
        raise MeshFault("a coordinate is no number") from None


def _corner(field: bytes, count: int) -> int:
    """The point that a corner names, as `3`, `3/1/2` or `-1`, after so many points."""
    index = field.partition(b"/")[0]
    if not index.lstrip(b"-").isdigit():
        raise MeshFault(f"{index.decode('ascii', 'replace')!r} names no vertex")
    number = int(index)
    corner = number - 1 if number > 0 else count + number
    if number == 0 or not 0 <= corner < count:
        raise MeshFault(f"vertex {number} is named, and {count} are read so far, counted from 1")
    return corner


def _pass_over(soup: Soup, word: bytes) -> None:
    if word not in _COMMON and _NOT_LETTERS.sub(b"", word) in _COMMON:
        raise MeshFault(f"{word!r} has bytes that are no letters: take them out")
    soup.pass_over(_KIND_OF.get(word, "unknown lines"))


def _take(soup: Soup, fields: List[bytes]) -> None:
    word = fields[0]
    if word == b"v":
        soup.points.extend(_point(fields))
        soup.pass_over("vertex colours", len(fields) > 6)
    elif word == b"f":
        if len(fields) < 4:
            raise MeshFault("a face has three corners or more")
        count = soup.count
        soup.add_polygon([_corner(field, count) for field in fields[1:]])
    else:
        _pass_over(soup, word)


def read_lines(lines: Iterable[bytes], soup: Optional[Soup] = None) -> Soup:
    soup = soup or Soup()
    for number, fields in fields_of(lines):
        try:
            _take(soup, fields)
        except MeshFault as fault:
            raise MeshFault(f"line {number}: {fault}") from None
    return soup


def read(file: BinaryIO, _: int, soup: Soup) -> None:
    read_lines(file, soup)
