"""What a file of any format spells for `prepare`, as its first bytes tell the format."""
import re
from typing import Optional

from .faults import Fault
from .ply import soup_of_ply
from .scan import Soup, soup_of_text
from .stl import HEAD, begins_solid, soup_of_stl

OTHER_KIND = 14
OTHERS = (
    (b"glTF", "a glTF file, which isn't read"), (b"OFF", "an OFF file, which isn't read"),
    (b"Kaydara", "an FBX file, which isn't read"), (b"PK\x03\x04", "a ZIP archive: unpack it"),
    (b"\x1f\x8b", "a gzip file: unpack it by gunzip"),
    (b"%PDF", "a PDF document, no mesh"), (b"\x89PNG", "a PNG picture, no mesh"),
    (b"\xff\xd8\xff", "a JPEG picture, no mesh"), (b"GIF8", "a GIF picture, no mesh"),
    (b"II*\0", "a TIFF picture, no mesh"), (b"MM\0*", "a TIFF picture, no mesh"),
    (b"MM", "a 3DS file, which isn't read"),
)  # fmt: skip
OBJECT = re.compile(rb'[ \t\n\f\r]*\{[ \t\n\f\r]*"')


def other_kind(data: bytes) -> Optional[str]:
    """What is said of a file of a kind that is known and not read."""
    return next((what for begin, what in OTHERS if data.startswith(begin)), None)


def soup_of_file(data: bytes) -> Soup:
    """Its points and triangles, or its first fault."""
    if data.startswith((b"#", b"\xff\xfe", b"\xfe\xff")):
        return soup_of_text(data)
    if data.startswith((b"ply\n", b"ply\r")):
        return soup_of_ply(data)
    what = other_kind(data)
    if what is not None:
        raise Fault(OTHER_KIND, reason=what)
    if begins_solid(data) or data[HEAD - 1 : HEAD] == b"\0":
        return soup_of_stl(data)
    if OBJECT.match(data[:HEAD]):
        raise Fault(OTHER_KIND, reason="JSON, perhaps glTF, which isn't read")
    return soup_of_text(data)
