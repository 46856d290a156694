"""How far long work is, with the time that is left: one line that is written over on a terminal,
and a line now and then in a pipe."""
import sys
import threading
import time
from typing import BinaryIO, Callable, Optional, TextIO

Say = Callable[[str], None]
_BETWEEN_LINES, _BETWEEN_LOOKS = 10.0, 0.5  # seconds


def left_of(seconds: float) -> str:
    whole = round(seconds)
    if whole < 90:
        return f"{whole} s left"
    return f"{whole // 60} min left" if whole < 5400 else f"{whole / 3600:.1f} h left"


class Work:
    """What is being done, and how much of it. Used as a context, it is shown while that lasts."""

    def __init__(self, say: Say, out: Optional[TextIO] = None) -> None:
        self.say, self.out = say, out or sys.stderr
        self.doing, self.whole, self.done, self.there = "", 0.0, 0.0, 0.0
        self.begun = self.told = time.monotonic()
        self._file: Optional[BinaryIO] = None
        self._over = threading.Event()
        self._thread = threading.Thread(target=self._look, daemon=True)

    def begin(self, doing: str, whole: float) -> None:
        self._file = None
        self.doing, self.whole, self.done, self.there = doing, whole, 0.0, 0.0
        self.begun = self.told = time.monotonic()

    def skip(self, part: float) -> None:
        """So much was there already, and took no time."""
        self.done, self.there = self.done + part, self.there + part

    def read(self, name: str, size: int) -> Callable[[BinaryIO], None]:
        """Begins the reading of a file of so many bytes, which is told to what comes back."""
        self.begin(f"reads {name}", size)

        def watch(file: BinaryIO) -> None:
            self._file = file

        return watch

    def line(self) -> str:
        if self._file is not None and not self._file.closed:
            self.done = float(self._file.tell())
        made, wanted = self.done - self.there, self.whole - self.there
        if made <= 0 or wanted <= 0:
            return self.doing
        left = (time.monotonic() - self.begun) * max(0.0, wanted / made - 1)
        return f"{self.doing}: {100 * min(1.0, self.done / self.whole):.0f} %, {left_of(left)}"

    def _look(self) -> None:
        is_terminal = self.out.isatty()
        while not self._over.wait(_BETWEEN_LOOKS):
            if not self.doing:
                continue
            if is_terminal:
                self.out.write(f"\r\x1b[K{self.line()}")
                self.out.flush()
            elif time.monotonic() - self.told >= _BETWEEN_LINES:
                self.told = time.monotonic()
                self.say(self.line())

    def __enter__(self) -> "Work":
        self._thread.start()
        return self

    def __exit__(self, *_: object) -> None:
        self._over.set()
        self._thread.join()
        if self.out.isatty():
            self.out.write("\r\x1b[K")
            self.out.flush()
