"""Runs a program as a case says, and answers what came of it."""
import os
import select
import subprocess
import time
from typing import Iterator, List, NamedTuple, Optional, Tuple

import builders
from builders import Data
from case_files import Case
from devices import Streams, interrupt, number_of, state_of
from programs import unread, without_notice

BLOCK = 65536
# How long, in seconds, nothing is looked at while something is waited for that no pipe tells.
NAP = 0.0005


class Send(NamedTuple):
    """Bytes that are written once so many bytes of output have come."""

    data: Data
    after: int


class Ended(NamedTuple):
    """What came of a run. The status is none where it had to be stopped."""

    status: Optional[int]
    output: bytes
    errors: bytes


class Talk:
    """Writes what a program reads, and gathers what it writes, at the same time."""

    def __init__(self, case: Case, streams: Streams, sends: List[Send]) -> None:
        self.streams = streams
        self.size = case.pieces
        self.leaves = number_of(case, "stdout", "leaves")
        self.output, self.errors = bytearray(), bytearray()
        self.blocks = self.all_blocks(sends)
        self.block, self.after = b"", 0

    def all_blocks(self, sends: List[Send]) -> Iterator[Tuple[bytes, int]]:
        for send in sends:
            for block in builders.blocks(send.data, self.size or BLOCK):
                yield block, send.after
        if self.streams.farewell:
            yield self.streams.farewell, 0

    def next_block(self) -> None:
        """Takes the next block where the one before is written; ends the input after the last."""
        if not self.block:
            self.block, self.after = next(self.blocks, (b"", 0))
        if not self.block and self.streams.farewell is None and self.streams.all_arrived():
            self.streams.stop_writing()

    def may_write(self) -> bool:
        """Whether the block's time has come, and the piece before it is taken."""
        writing = self.streams.writing
        if writing is None or not self.block or len(self.output) < self.after:
            return False
        return self.size is None or not unread(writing)

    def write(self, writing: int) -> None:
        try:
            self.block = self.block[os.write(writing, self.block) :]
        except BlockingIOError:
            pass
        except OSError:
            # The program has ended, or reads no more.
            self.streams.stop_writing()

    def read_output(self, reading: int) -> None:
        """Takes what has come, and no more than its reader stays for."""
        room = BLOCK if self.leaves is None else min(BLOCK, self.leaves - len(self.output))
        some = os.read(reading, room) if room else b""
        self.output += some
        if not some or len(self.output) == self.leaves:
            self.streams.stop_reading()

    def read_errors(self, errors: int) -> None:
        some = os.read(errors, BLOCK)
        self.errors += some
        if not some:
            self.streams.stop_errors()

    def step(self) -> None:
        """Waits until something can be read or written, and does it."""
        self.next_block()
        writing, reading, errors = self.streams.writing, self.streams.reading, self.streams.errors
        reads = [end for end in (reading, errors) if end is not None]
        writes = [writing] if writing is not None and self.may_write() else []
        waits = writing is not None and not writes
        nap = NAP if waits or not reads else 0.1
        can_read, can_write, _ = select.select(reads, writes, [], nap)
        for end in can_write:
            self.write(end)
        for end in can_read:
            if end == reading:
                self.read_output(end)
            else:
                self.read_errors(end)

    def interrupt(self, process: "subprocess.Popen[bytes]") -> None:
        """Interrupts the call in which the program waits, where that is to be and all is read."""
        self.next_block()
        if not self.streams.interrupts or self.block or not self.streams.all_arrived():
            return
        if process.poll() is None and state_of(process) == "S":
            interrupt(process)
            # (a call before the one that waits for room may have been met)
            self.streams.interrupts = self.streams.crowded is not None
            self.streams.stop_writing()

    def is_over(self) -> bool:
        """Whether all that the program writes to pipes has come."""
        return self.streams.reading is None and self.streams.errors is None

    def end(self) -> None:
        self.streams.stop_writing()
        self.streams.stop_reading()
        self.streams.stop_errors()
        self.streams.stop_crowding()
        self.output += self.streams.output_of_file()


def run(case: Case, program: str, sends: List[Send]) -> Ended:
    """Runs a case's words over its devices, for as long as it may take."""
    streams = Streams(case)
    process = streams.begin(program, [part for send in sends for part in send.data])
    talk = Talk(case, streams, sends)
    deadline = time.monotonic() + case.seconds
    try:
        while not (talk.is_over() and process.poll() is not None) and time.monotonic() < deadline:
            talk.step()
            talk.interrupt(process)
    finally:
        status = process.poll()
        process.kill()
        process.wait()
        talk.end()
    return Ended(status, bytes(talk.output), without_notice(case.program, bytes(talk.errors)))
