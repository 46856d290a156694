"""Choices as code bytes: how they are written, and how they are read back. All is by
docs/FORMATS.md, with its words."""
from .faults import Fault

GREATEST = 2**32 - 1
CUT = 35


class Writer:
    """Writes choices as code bytes."""

    def __init__(self) -> None:
        self.low, self.high = 0, GREATEST
        self.code = bytearray()

    def answer(self, mid: int, wanted: bool) -> bool:
        return wanted

    def shift(self) -> None:
        self.code.append(self.high >> 24)

    def choice(self, share: int, wanted: bool) -> bool:
        """A choice with this share of 1 in 65,536ths."""
        mid = self.low + (self.high - self.low) * share // 65536
        answer = self.answer(mid, wanted)
        if answer:
            self.high = mid
        else:
            self.low = mid + 1
        for _ in range(4):
            if self.low >> 24 != self.high >> 24:
                break
            self.shift()
            self.low, self.high = 256 * self.low % 2**32, (256 * self.high + 255) % 2**32
        return answer

    def end(self) -> bytes:
        return bytes(self.code) + self.low.to_bytes(4, "big")


class Decoder(Writer):
    """Reads the choices that code bytes say."""

    def __init__(self, code: bytes) -> None:
        super().__init__()
        if len(code) < 4:
            raise Fault(CUT)
        self.x, self.rest = int.from_bytes(code[:4], "big"), list(code[4:])

    def answer(self, mid: int, wanted: bool) -> bool:
        return self.x <= mid

    def shift(self) -> None:
        if not self.rest:
            raise Fault(CUT)
        self.x = (256 * self.x + self.rest.pop(0)) % 2**32
