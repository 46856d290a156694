"""Long lists of numbers in files without a name, which are gone with the program: so that an
input's size takes no memory."""
import mmap
import os
import tempfile
from array import array
from itertools import chain
from typing import BinaryIO, Iterable, Iterator, List, Optional

BLOCK = 3 << 14  # numbers that are in memory at a time; whole places and faces


def nameless() -> BinaryIO:
    """A file without a name; in /var/tmp, since /tmp may be memory."""
    return tempfile.TemporaryFile(dir=os.environ.get("TMPDIR", "/var/tmp"))


class Filed:
    """A list of numbers, which grows at its end. What is short never leaves memory."""

    def __init__(self, letter: str) -> None:
        self.letter = letter  # of a number, as `array` has it
        self._last = array(letter)
        self._file: Optional[BinaryIO] = None
        self._before = 0  # numbers that are in the file
        self._mapped: List[mmap.mmap] = []

    def __len__(self) -> int:
        return self._before + len(self._last)

    def __iter__(self) -> Iterator[float]:
        return chain.from_iterable(self.blocks())

    def extend(self, numbers: Iterable[float]) -> None:
        self._last.extend(numbers)
        if len(self._last) >= BLOCK:
            self._put()

    def extend_by_zeros(self, count: int) -> None:
        while count:
            part = min(count, BLOCK)
            self.extend(array(self.letter, bytes(self._last.itemsize * part)))
            count -= part

    def _put(self) -> None:
        self._file = self._file or nameless()
        self._before += len(self._last)
        self._last.tofile(self._file)
        del self._last[:]

    def blocks(self, most: int = BLOCK) -> "Iterator[array[float]]":
        """All numbers in their order, at most so many at a time."""
        if self._file is None:
            yield from (self._last[at : at + most] for at in range(0, len(self._last), most))
            return
        self._put()
        self._file.flush()
        size, place = self._last.itemsize, 0
        while place < size * self._before:
            block = array(self.letter)
            block.frombytes(os.pread(self._file.fileno(), size * most, place))
            place += size * len(block)
            yield block

    def whole(self) -> memoryview:
        """All numbers by their places; of a long list the file is mapped, and is read again where
        the system has let it go. Nothing is added any more."""
        if self._file is None:
            return memoryview(self._last)
        self._put()
        self._file.flush()
        self._mapped.append(mmap.mmap(self._file.fileno(), 0))
        return memoryview(self._mapped[-1]).cast(self.letter)

    def let_go(self) -> None:
        """Takes what is mapped out of this program's memory, until it is asked for again."""
        for one in self._mapped:
            if hasattr(mmap, "MADV_DONTNEED"):
                one.madvise(mmap.MADV_DONTNEED)
