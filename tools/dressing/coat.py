"""The coat of a mesh (docs/FORMATS.md), and what `paint` tells of it."""
import struct
from array import array
from typing import NamedTuple, Sequence, Tuple

from .seams import Key

WIDTH = 65_536           # of a picture
FARTHEST = 32 * WIDTH    # that a coat tells
_SPOTS, _PAGES = 2, 4


class Painted(NamedTuple):
    """u and v of each node, in 65,536ths, v from below; and the page of each face."""

    spots: bytes
    pages: bytes


def within(spot: Tuple[float, float]) -> Tuple[int, int]:
    """Texture coordinates in whole numbers; one beyond what a coat tells comes to its border."""
    u, v = (max(-FARTHEST, min(FARTHEST, round(c * WIDTH))) for c in spot)
    return u, v


def coat_of(keys: Sequence[Key], pages: Sequence[int]) -> bytes:
    head = b"COAT" + struct.pack("<4I", 1, len(keys), len(pages), _SPOTS | _PAGES)
    spots = struct.pack(f"<{2 * len(keys)}i", *(part for key in keys for part in key[:2]))
    return head + spots + bytes(pages) + bytes(-len(pages) % 4)


def painted(lines: bytes) -> Painted:
    """What the lines of `paint` tell, which come by node and by face."""
    spots, pages = array("i"), bytearray()
    for line in lines.splitlines():
        fields = line.split()
        if fields[0] == b"t":
            spots.extend((int(fields[2]), int(fields[3])))
        elif fields[0] == b"p":
            pages.append(int(fields[2]))
    if struct.pack("=H", 1) != struct.pack("<H", 1):
        spots.byteswap()
    return Painted(spots.tobytes(), bytes(pages))
