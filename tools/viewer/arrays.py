"""What a frame or a change tells, as arrays of numbers in place of lines.

In a script whose first line is `arrays`, one `w` or `d` may be answered so, where the program below
can (the library can, where it has `change`): in the text of the replies it has its first line
alone, `frame V F` or `change V F`, and its numbers stand behind the text. There, from the next byte
on whose place is a multiple of four, stand as unsigned numbers of 32 bits, the low byte first: how
many faces and nodes are gone, how many nodes come and how many faces are put; then the numbers of
each, and three nodes for each face that is put. The places of nodes are in the stream, and aren't
sent again. A frame is told as a change from nothing.
"""
import struct
from typing import Any, NamedTuple, Tuple

FIRST_LINE = "arrays\n"
_ALIGNED = 4


class Arrays(NamedTuple):
    """The numbers of a change, each of 32 bits, the low byte first."""

    gone_faces: bytes
    gone_nodes: bytes
    new_nodes: bytes
    put_faces: bytes
    put_corners: bytes


def parted(script: str) -> Tuple[bool, str]:
    """Whether a script asks for arrays, and its lines."""
    if script.startswith(FIRST_LINE):
        return True, script[len(FIRST_LINE):]
    return False, script


def can_tell(package: Any) -> bool:
    """Whether python/vdpm tells changes as arrays: an older one has them as text alone."""
    return hasattr(package, "Change")


def change_of(session: Any) -> Tuple[bytes, Arrays]:
    """What changed since the marked front, which is then marked: the first line, and the rest."""
    change = session.change()
    lists = (
        change.gone_faces, change.gone_nodes, change.new_nodes, change.put_faces, change.put_corners
    )
    arrays = Arrays(*(numbers.tobytes() for numbers in lists))
    return _first_line("change", session), arrays


def frame_of(session: Any) -> Tuple[bytes, Arrays]:
    """The mesh that is shown: the first line, and the rest."""
    frame = session.frame()
    come = (numbers.tobytes() for numbers in (frame.nodes, frame.faces, frame.corner_nodes))
    return _first_line("frame", session), Arrays(b"", b"", *come)


def _first_line(word: str, session: Any) -> bytes:
    sizes = session.sizes()
    return f"{word} {sizes.shown_nodes} {sizes.shown_faces}\n".encode("ascii")


def packed(text: bytes, arrays: Arrays) -> bytes:
    """A text of replies, which begins at a multiple of four, and what stands behind it."""
    counts = struct.pack("<4I", *(len(numbers) // 4 for numbers in arrays[:4]))
    return b"".join((text, bytes(-len(text) % _ALIGNED), counts, *arrays))
