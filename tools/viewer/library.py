"""The same as `vdpm live` beneath the window, by the library (docs/LIBRARY.md) in this process: no
other process runs, and no reply goes through a pipe."""
import sys
import threading
import time
from concurrent.futures import ThreadPoolExecutor
from pathlib import Path
from typing import List, Optional, Tuple

from quick_start.record import is_current
from quick_start.sources import LIBRARY, SHARED
from quick_start.sources import Program as Sources

from . import manual
from .arrays import Arrays, can_tell, change_of, frame_of
from .program import GOING_ON, MARKING, Answer, ProgramEnded, marks, script_lines

TOP = Path(__file__).resolve().parent.parent.parent
NOT_BUILT = "the library isn't built of these sources"
TO_BUILD = "./prove libvdpm proves and builds it, python3 tools/library.py builds it unproved"


def built_library() -> Optional[Path]:
    """The proved library of these sources, or else the one that isn't proved."""
    sources = Sources(TOP, LIBRARY)
    for folder in ("proved", "unproved"):
        path = TOP / folder / SHARED
        if is_current(sources, path):
            return path
    return None


def is_proved(library: Path) -> bool:
    return library.parent.name == "proved"


class LibraryProgram:
    """A session of the library. Its calls may come from several threads; all are done on one, which
    opened the session."""

    def __init__(self, library: Path, stream: bytes, budget: int) -> None:
        sys.path.insert(0, str(TOP / "python"))
        try:
            import vdpm
        finally:
            sys.path.pop(0)
        self._vdpm, self._lock, self._closed = vdpm, threading.Lock(), False
        self._thread = ThreadPoolExecutor(1)
        self._lines, self._mark = 0, next(marks)
        begun = time.perf_counter()
        try:
            opened = self._thread.submit(vdpm.Session, stream, budget, str(library))
            self._session = opened.result()
        except (OSError, MemoryError, ValueError) as fault:
            self._thread.shutdown()
            raise ProgramEnded(f"{library}: {fault}") from fault
        self.opening = 1000 * (time.perf_counter() - begun)

    def ask(self, text: str, arrays: bool = False) -> Answer:
        """The replies to the lines of a script; with `arrays`, its frame or change as arrays where
        it has just one, and the library can."""
        lines = script_lines(text)
        asked = arrays and can_tell(self._vdpm) and sum(line in GOING_ON for line in lines) == 1
        with self._lock:
            if self._closed:
                raise ProgramEnded("the session was closed")
            return self._thread.submit(self._done, lines, asked).result()

    def _done(self, lines: List[str], asked: bool) -> Answer:
        begun, first, replies = time.perf_counter(), None, []
        arrays: Optional[Arrays] = None
        for line in lines:
            self._lines += 1
            try:
                if asked and line in GOING_ON:
                    reply, arrays = self._told(line)
                else:
                    reply = self._session.line(line)
                replies.append(reply)
            except self._vdpm.Fault as fault:
                said = f"fault {fault.number} line {self._lines}"
                raise ProgramEnded(said, manual.cure_of(said, manual.SCRIPT)) from fault
            except MemoryError as fault:
                raise ProgramEnded("out of memory", manual.cure_of("", "", 5)) from fault
            first = first or time.perf_counter()
        end, before = time.perf_counter(), self._mark
        if any(line in MARKING for line in lines):
            self._mark = next(marks)
        first = first or end
        times = 1000 * (first - begun), 1000 * (end - first)
        return Answer(b"".join(replies), *times, before, self._mark, arrays)

    def _told(self, line: str) -> Tuple[bytes, Arrays]:
        return change_of(self._session) if line == "d" else frame_of(self._session)

    def close(self) -> None:
        with self._lock:
            if not self._closed:
                self._closed = True
                self._thread.submit(self._session.close).result()
                self._thread.shutdown()
