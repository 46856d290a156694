"""The server's end of a WebSocket (RFC 6455), as far as the window needs it: texts come, texts and
bytes go. A message costs a tenth of what a request by `fetch` costs."""
import base64
import hashlib
import struct
from typing import BinaryIO, Optional

_MAGIC = "258EAFA5-E914-47DA-95CA-C5AB0DC85B11"
_REST, _TEXT, _BYTES, _PING, _PONG = 0, 1, 2, 9, 10
_LAST, _MASKED = 128, 128
LONGEST = 1 << 16


def accepted(key: str) -> str:
    """What answers the key of a handshake."""
    return base64.b64encode(hashlib.sha1((key + _MAGIC).encode("latin-1")).digest()).decode("ascii")


def head_of(kind: int, size: int) -> bytes:
    """What stands before a message of the server."""
    if size < 126:
        return bytes([_LAST | kind, size])
    if size < 1 << 16:
        return struct.pack(">BBH", _LAST | kind, 126, size)
    return struct.pack(">BBQ", _LAST | kind, 127, size)


class WebSocket:
    """An open line. Where the other end doesn't keep to the rules, it counts as closed. The writer
    has to keep nothing back, so that nothing is left to be written once the line has failed."""

    def __init__(self, reader: BinaryIO, writer: BinaryIO) -> None:
        self._reader, self._writer = reader, writer

    def receive(self) -> Optional[str]:
        """The next text; None where the line is closed."""
        text = b""
        while True:
            head = self._reader.read(2)
            if len(head) < 2 or not head[1] & _MASKED:
                return None
            kind, size = head[0] & 15, self._size(head[1] & 127)
            if size is None or len(text) + size > LONGEST:
                return None
            body = self._unmasked(size)
            if kind == _PING:
                self._send(_PONG, body)
            elif kind in (_TEXT, _REST):
                text += body
                if head[0] & _LAST:
                    return text.decode("latin-1")
            elif kind != _PONG:
                return None

    def _size(self, told: int) -> Optional[int]:
        """The size of a message; None where it is told in eight bytes, and so is too long."""
        if told == 126:
            return int(struct.unpack(">H", self._reader.read(2))[0])
        return told if told < 126 else None

    def _unmasked(self, size: int) -> bytes:
        mask = self._reader.read(4)
        return bytes(byte ^ mask[place % 4] for place, byte in enumerate(self._reader.read(size)))

    def send_text(self, text: str) -> None:
        self._send(_TEXT, text.encode())

    def send_bytes(self, head: bytes, text: bytes) -> None:
        """Sends two parts as one message; the second may be long, and isn't copied."""
        self._writer.write(head_of(_BYTES, len(head) + len(text)) + head)
        self._writer.write(text)

    def _send(self, kind: int, text: bytes) -> None:
        self._writer.write(head_of(kind, len(text)) + text)
