"""The child `vdpm live BUDGET` over pipes: scripts go in, the texts of replies come out.

The program reads the stream, then does each script line as soon as its LF has come, and writes one
reply for it. So whoever writes some lines knows how many replies come, and where the last one ends.

A reply to `d` tells what changed since the marked front. Who follows it has to have the mesh of
that front and no other, so each marking has a number, which no other one of any program has, and
an answer tells which front was marked before it and which is now.
"""
import itertools
import os
import re
import subprocess
import tempfile
import threading
import time
from pathlib import Path
from subprocess import PIPE
from typing import IO, Iterator, List, NamedTuple, Optional, Sequence

from . import manual
from .arrays import Arrays

try:
    import fcntl
except ImportError:  # not on every system; pipes keep their size there
    fcntl = None  # type: ignore[assignment]

TOP = Path(__file__).resolve().parent.parent.parent
ALL_MOVES = (1 << 32) - 1
# What notices say: that a program was built without its proof, and those that come while it is.
UNPROVED = ": not proved on this machine"
_BUILDING = (": building", ": it is being built already")
PIPE_BYTES = 1 << 20
PIECE = 1 << 20
LINES_AT_ONCE = 64

_COUNT = r"(?:0|[1-9][0-9]{0,12})"
_SIGNED = rf"(?:{_COUNT}|-[1-9][0-9]{{0,12}})"
_PLANES = rf"(?:(?: {_SIGNED}){{4}}){{0,6}}"
# The lines that a page may send: those that look, and those that tell or set how one looks
# (docs/FORMATS.md). The program judges the numbers themselves; a wrong one ends it with fault 30,
# and the page says so.
_LINE = re.compile(
    rf"vd?(?: {_SIGNED}){{5}}{_PLANES}|vd?s(?: {_SIGNED}){{6}}{_PLANES}|p(?: {_SIGNED}){{6}}"
    rf"|b {_COUNT}|[wmdkl]"
)
MARKING = ("d", "k")  # lines after which the front is marked
GOING_ON = ("d", "w")  # lines whose reply goes on to a line `end`
marks = itertools.count(1)


class ProgramEnded(Exception):
    """The program has ended or couldn't be started: why, in its own words where it had any, and
    what to do."""

    def __init__(self, reason: str, cure: str = "") -> None:
        super().__init__(f"{reason}: {cure}" if cure else reason)
        self.reason, self.cure = reason, cure


class BadScript(Exception):
    """A script that isn't sent on; the text names the line."""


class Answer(NamedTuple):
    """The replies to a script, and where the time went, in milliseconds."""

    text: bytes
    first: float  # until the first reply began: of a view mostly its moves
    rest: float  # until all was read: mostly the text of a frame or of what changed
    before: int = 0  # the marked front when the script came
    after: int = 0  # the marked front now
    arrays: Optional[Arrays] = None  # what the text then has of a frame or a change no longer


def script_lines(text: str) -> List[str]:
    """The lines of a script that may be sent on."""
    lines = text.split("\n")
    if lines.pop() != "" or not lines:
        raise BadScript("a script has lines, each ended by LF")
    if len(lines) > LINES_AT_ONCE:
        raise BadScript(f"more than {LINES_AT_ONCE} lines at once")
    for number, line in enumerate(lines, 1):
        if _LINE.fullmatch(line) is None:
            raise BadScript(f"line {number} is none that a page may send: {line[:60]}")
    return lines


def is_notice(line: str) -> bool:
    """Whether a line on standard error is about building the program, and not from the program."""
    return " fault " not in line and any(told in line for told in (UNPROVED, *_BUILDING))


def said_last(text: bytes) -> str:
    """The last line of standard error, but for notices."""
    lines = text.decode("utf-8", "replace").strip().splitlines()
    return next((line for line in reversed(lines) if not is_notice(line)), "")


def end_of(said: str, status: int, heading: str) -> ProgramEnded:
    """How a program ended, by its last line, and its status where that names no fault."""
    if said:
        cure = manual.cure_of(said, heading, status)
        ended = "" if " fault " in said else f"the program ended with status {status}: "
        return ProgramEnded(f"{ended}{said}", cure)
    if status < 0:
        return ProgramEnded(f"the program was ended by signal {-status}")
    return ProgramEnded(f"the program ended with status {status} and said nothing")


def replies_to(
    path: Path, stream: bytes, script: bytes, budget: int = ALL_MOVES, command: str = "view"
) -> bytes:
    """All replies to a whole script, by a program of its own."""
    try:
        words = [str(path), command, str(budget)]
        done = subprocess.run(words, input=stream + script, capture_output=True, check=False)
    except OSError as fault:
        raise ProgramEnded(f"{path} can't be started: {fault.strerror}") from fault
    if done.returncode != 0:
        raise end_of(said_last(done.stderr), done.returncode, manual.SCRIPT)
    return done.stdout


def reply_lines(
    path: Path, stream: bytes, script: bytes, budget: int, command: str
) -> Iterator[str]:
    """The same, line by line as they come, however many there are."""
    words = [str(path), command, str(budget)]
    with tempfile.TemporaryFile() as said:
        try:
            child = subprocess.Popen(words, stdin=PIPE, stdout=PIPE, stderr=said)
        except OSError as fault:
            raise ProgramEnded(f"{path} can't be started: {fault.strerror}") from fault
        assert child.stdin is not None and child.stdout is not None
        threading.Thread(target=feed, args=(child.stdin, stream + script), daemon=True).start()
        try:
            with child.stdout:
                for line in child.stdout:
                    yield line.decode("ascii").rstrip("\n")
        finally:
            status = child.wait()
        if status != 0:
            said.seek(0)
            raise end_of(said_last(said.read()), status, manual.SCRIPT)


def feed(end: IO[bytes], text: bytes) -> None:
    """Writes a text to a program's input, and ends it."""
    try:
        with end:
            end.write(text)
    except BrokenPipeError:  # it ended before it had read all, and says why
        pass


def beside(vdpm: Path, name: str) -> Path:
    """Another program of this project: the one beside vdpm, or else at the top of the
    repository."""
    other = vdpm.resolve().parent / name
    return other if other.is_file() else TOP / name


class _Awaited:
    """Finds the ends of replies in bytes that come piece by piece. Each reply is a line, but for a
    frame and a change, which go on to their line `end`."""

    def __init__(self, lines: Sequence[str]) -> None:
        self.marks = [b"\nend\n" if line in GOING_ON else b"\n" for line in lines]
        self.done = 0
        self.searched = 0

    def all_in(self, text: bytearray) -> bool:
        while self.done < len(self.marks):
            mark = self.marks[self.done]
            found = text.find(mark, self.searched)
            if found < 0:
                # The next piece may bring the rest of a mark that has begun.
                self.searched = max(self.searched, len(text) - len(mark) + 1)
                return False
            self.done += 1
            self.searched = found + len(mark)
        return True


class Program:
    """One running `vdpm live`. Its calls may come from several threads; they are done one by
    one."""

    def __init__(self, path: Path, stream: bytes, budget: int) -> None:
        self._lock = threading.Lock()
        self._closed = False
        self._said: IO[bytes] = tempfile.TemporaryFile()
        try:
            self._child = subprocess.Popen(
                [str(path), "live", str(budget)],
                stdin=PIPE, stdout=PIPE, stderr=self._said, bufsize=0,
            )
        except OSError as fault:
            self._said.close()
            raise ProgramEnded(f"{path} can't be started: {fault.strerror}") from fault
        assert self._child.stdin is not None and self._child.stdout is not None
        self._in, self._out = self._child.stdin.fileno(), self._child.stdout.fileno()
        _widen(self._in)
        _widen(self._out)
        self._mark = next(marks)
        begun = time.perf_counter()
        try:
            # The stream has no reply of its own: that to `m` shows that it was taken.
            self._asked(stream + b"m\n", ["m"])
        except ProgramEnded:
            self.close()
            raise
        self.opening = 1000 * (time.perf_counter() - begun)

    @property
    def number(self) -> int:
        """The child's number at the system."""
        return self._child.pid

    def ask(self, text: str, arrays: bool = False) -> Answer:
        """The replies to the lines of a script: a text, whether arrays are asked for or not."""
        lines = script_lines(text)
        with self._lock:
            if self._closed:
                raise ProgramEnded("the program was started anew")
            return self._asked(text.encode("ascii"), lines)

    def _asked(self, text: bytes, lines: Sequence[str]) -> Answer:
        awaited, got = _Awaited(lines), bytearray()
        begun = first = time.perf_counter()
        try:
            _write(self._in, text)
        except OSError:
            raise self._ended() from None
        while not awaited.all_in(got):
            piece = os.read(self._out, PIECE)
            if not piece:
                raise self._ended()
            if not got:
                first = time.perf_counter()
            got += piece
        end, before = time.perf_counter(), self._mark
        if any(line in MARKING for line in lines):
            self._mark = next(marks)
        return Answer(
            bytes(got), 1000 * (first - begun), 1000 * (end - first), before, self._mark
        )

    def _ended(self) -> ProgramEnded:
        status = self._child.wait()
        self._said.seek(0)
        return end_of(said_last(self._said.read()), status, manual.SCRIPT)

    def close(self) -> None:
        """Ends the program: it reads the end of its input, and has no more to do."""
        with self._lock:
            if self._closed:
                return
            self._closed = True
            assert self._child.stdin is not None and self._child.stdout is not None
            self._child.stdin.close()
            self._child.stdout.close()
            try:
                self._child.wait(timeout=5)
            except subprocess.TimeoutExpired:
                self._child.kill()
                self._child.wait()
            self._said.close()


def _widen(end: int) -> None:
    """Lets a pipe hold a whole frame, where the system allows it, so that the program needn't
    wait."""
    size: Optional[int] = getattr(fcntl, "F_SETPIPE_SZ", None)
    if size is not None:
        try:
            fcntl.fcntl(end, size, PIPE_BYTES)
        except OSError:
            pass


def _write(end: int, text: bytes) -> None:
    rest = memoryview(text)
    while rest:
        rest = rest[os.write(end, rest):]
