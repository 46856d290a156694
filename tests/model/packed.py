"""Packed texts: how the words of a stream text are packed, how they are read back, and what `pack`
answers. All is by docs/FORMATS.md, with its words."""
import struct
from typing import Dict, List, Optional

from .coder import CUT, Decoder, Writer
from .commands import number_of_word
from .faults import Answer, Fault, not_understood
from .guesses import Words
from .prefix import first_records
from .stream import Reader, read_stream, stream_text

HEAD = b"VDPK\1"
TRAILING, NOT_PACKED, PACKED_TRAILING = 29, 34, 36
REASONS: Dict[int, str] = {
    20: "it begins otherwise than a stream",
    21: "unknown",
    22: "cut off",
    23: "the counts break their rule",
    24: "not in its place",
    25: "not between three roots",
    26: "it doesn't fit those before it",
    27: "a wrong number",
    33: "not 1 to 4",
    TRAILING: "bytes follow the stream",
    NOT_PACKED: "it begins otherwise than a packed text",
    CUT: "the packed text is cut off or damaged",
    PACKED_TRAILING: "bytes follow the packed text",
}


class Unpacking(Reader):
    """Reads a stream text whose words come as they are wanted."""

    def __init__(self, code: bytes) -> None:
        super().__init__(b"")
        self.coder = Decoder(code)
        self.coming = Words(self.coder)
        self.words(1)
        self.taken = 0

    def words(self, count: int) -> List[int]:
        while len(self.data) < self.taken + 4 * count:
            self.data += struct.pack("<I", self.coming.word(0))
        return super().words(count)


def packed_words(text: bytes) -> bytes:
    """The head, and code bytes that say these words, whether they are a stream text or not."""
    coder = Writer()
    words = Words(coder)
    for (word,) in struct.iter_unpack("<I", text):
        words.word(word)
    return HEAD + coder.end()


def packed(text: bytes) -> bytes:
    """The packed text of a stream text."""
    if read_stream(text).rest:
        raise Fault(TRAILING)
    return packed_words(text)


def unpacking(text: bytes) -> Unpacking:
    """What reads the words of a packed text."""
    if not text.startswith(HEAD):
        raise Fault(NOT_PACKED)
    return Unpacking(text[len(HEAD) :])


def ended(reader: Unpacking) -> bytes:
    """The stream text that was read, which no byte may follow."""
    if reader.coder.rest:
        raise Fault(PACKED_TRAILING)
    return reader.data


def unpacked(text: bytes) -> bytes:
    """The stream text of a packed text."""
    reader = unpacking(text)
    reader.read_all()
    return ended(reader)


def first_unpacked(text: bytes, n: int) -> bytes:
    """The stream text of the first n records of a packed text that may be cut off after its base
    mesh: of those that are told, where they are fewer; and all of it, where that has no more."""
    reader = unpacking(text)
    reader.read_base_mesh()
    try:
        reader.read_records(n)
    except Fault as fault:
        if fault.number != CUT:
            raise
    else:
        if n >= reader.counts.records:
            return ended(reader)
    h = reader.hierarchy
    return stream_text(first_records(h, min(n, len(h.records))), reader.digits)


def asked(words: List[str], data: bytes) -> Optional[Answer]:
    if words == []:
        return Answer(0, packed(data), "")
    if words[:2] == ["--unpack", "--records"] and len(words) == 3:
        n = number_of_word(words[2])
        return None if n is None else Answer(0, first_unpacked(data, n), "")
    return Answer(0, unpacked(data), "") if words == ["--unpack"] else None


def answer(words: List[str], data: bytes) -> Answer:
    """The answer of `pack`, or that its words aren't understood."""
    try:
        return asked(words, data) or not_understood("pack")
    except Fault as fault:
        return Answer(1, b"", f"pack: fault {fault} ({REASONS[fault.number]})\n")
