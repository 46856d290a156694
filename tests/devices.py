"""The standard streams of a program that a case runs: pipes, or the devices that the case names.

What is no pipe is opened here, or it is a redirection or a limit of bash, in which a program starts
then. tests/README.md tells what each device is.
"""
import fcntl
import os
import pty
import signal
import socket
import struct
import subprocess
import tempfile
import termios
import time
from pathlib import Path
from typing import IO, Dict, List, Optional, Tuple, Union

import builders
from case_files import Case

REDIRECTIONS = {
    ("stdin", "closed"): "<&-",
    ("stdin", "folder"): "</",
    ("stdout", "closed"): ">&-",
    ("stdout", "full"): ">/dev/full",
    ("stderr", "closed"): "2>&-",
    ("stderr", "full"): "2>/dev/full",
}
STREAMS = ("stdin", "stdout", "stderr")
# The unit of bash's limit of a file's size.
FILE_UNIT = 1024
END_OF_TERMINAL = b"\x04"


def kind_of(case: Case, stream: str) -> str:
    return case.devices.get(stream, ["pipe"])[0]


def number_of(case: Case, stream: str, kind: str) -> Optional[int]:
    """The number that stands after a device of this kind; none where the stream is another one."""
    words = case.devices.get(stream, ["pipe"])
    return int(words[1]) if words[0] == kind else None


def command(case: Case, program: str) -> List[str]:
    """The words that start a case, with its redirections and its limits."""
    own = [program, *case.words]
    steps = []
    if case.memory is not None:
        steps.append(f"ulimit -v {case.memory}")
    room = number_of(case, "stdout", "room")
    if room is not None:
        steps.append(f"trap '' XFSZ; ulimit -f {units_for(room)}")
    wanted = [REDIRECTIONS.get((stream, kind_of(case, stream)), "") for stream in STREAMS]
    if not steps and not any(wanted):
        return own
    script = " && ".join([*steps, 'exec "$@" ' + " ".join(wanted)])
    return ["bash", "-c", script, "bash", *own]


def units_for(room: int) -> int:
    return room // FILE_UNIT + 1


class Streams:
    """The streams of a case, and the ends of them that are ours: none where a stream is no pipe."""

    def __init__(self, case: Case) -> None:
        self.case = case
        self.given: Dict[str, Union[int, IO[bytes]]] = {}
        self.writing: Optional[int] = None
        self.reading: Optional[int] = None
        self.errors: Optional[int] = None
        # What is written to end the input; where it is none, the input is ended by closing.
        self.farewell: Optional[bytes] = None
        # The file that the output goes to, and from which byte on, where it is no pipe.
        self.output: Optional[IO[bytes]] = None
        self.start = 0
        # The other end of an output that has no room, and whether a call is still to be
        # interrupted.
        self.crowded: Optional[socket.socket] = None
        self.interrupts = "interrupted" in (kind_of(case, "stdin"), kind_of(case, "stdout"))

    def open_input(self, whole: builders.Data) -> None:
        kind = kind_of(self.case, "stdin")
        if kind in ("closed", "folder"):
            self.given["stdin"] = subprocess.DEVNULL
        elif kind == "file":
            self.given["stdin"] = file_of(whole)
        elif kind == "reset":
            self.given["stdin"], self.writing = connection()
        elif kind == "terminal":
            self.writing, self.given["stdin"] = quiet_terminal()
            self.farewell = END_OF_TERMINAL
        elif kind == "interrupted":
            ours, theirs = interruptible()
            self.given["stdin"], self.writing = theirs.detach(), ours.detach()
            self.farewell = b""
        else:
            self.given["stdin"], self.writing = os.pipe()
            self.farewell = b"" if kind == "open" else None

    def open_output(self) -> None:
        kind = kind_of(self.case, "stdout")
        room = number_of(self.case, "stdout", "room")
        if kind in ("closed", "full"):
            self.given["stdout"] = subprocess.DEVNULL
        elif room is not None:
            file = tempfile.TemporaryFile()
            self.start = FILE_UNIT * units_for(room) - room
            file.seek(self.start)
            self.output = self.given["stdout"] = file
        elif kind == "interrupted":
            self.crowded, theirs = interruptible()
            fill(theirs)
            self.given["stdout"] = theirs.detach()
        else:
            self.reading, self.given["stdout"] = os.pipe()
        if kind == "gone":
            self.stop_reading()

    def open_errors(self) -> None:
        if kind_of(self.case, "stderr") in ("closed", "full"):
            self.given["stderr"] = subprocess.DEVNULL
        else:
            self.errors, self.given["stderr"] = os.pipe()

    def begin(self, program: str, whole: builders.Data) -> "subprocess.Popen[bytes]":
        """Opens the streams and starts the program; `whole` is all that it is to read."""
        self.open_input(whole)
        self.open_output()
        self.open_errors()
        ends = [self.given[stream] for stream in STREAMS]
        words = command(self.case, program)
        process = subprocess.Popen(words, stdin=ends[0], stdout=ends[1], stderr=ends[2])
        for given in ends:
            if isinstance(given, int) and given >= 0:
                os.close(given)
        if self.writing is not None:
            os.set_blocking(self.writing, False)
        return process

    def all_arrived(self) -> bool:
        """Whether what was written came to the other end; a pipe has no way between."""
        if self.writing is None or kind_of(self.case, "stdin") not in ("reset", "interrupted"):
            return True
        answer = fcntl.ioctl(self.writing, termios.TIOCOUTQ, b"\0" * 4)
        return struct.unpack("i", answer) == (0,)

    def stop_writing(self) -> None:
        if self.writing is not None:
            os.close(self.writing)
        self.writing = None

    def stop_reading(self) -> None:
        if self.reading is not None:
            os.close(self.reading)
        self.reading = None

    def stop_errors(self) -> None:
        if self.errors is not None:
            os.close(self.errors)
        self.errors = None

    def stop_crowding(self) -> None:
        if self.crowded is not None:
            self.crowded.close()
        self.crowded = None

    def output_of_file(self) -> bytes:
        """What the program wrote to a file; nothing where its output is no file."""
        if self.output is None:
            return b""
        with self.output as file:
            file.seek(self.start)
            return file.read()


def file_of(whole: builders.Data) -> IO[bytes]:
    file = tempfile.TemporaryFile()
    for block in builders.blocks(whole, 65536):
        file.write(block)
    file.seek(0)
    return file


def connection() -> Tuple[int, int]:
    """The reading and the writing end of a connection, which is reset when the latter is closed."""
    with socket.socket() as server:
        server.bind(("127.0.0.1", 0))
        server.listen(1)
        writing = socket.create_connection(server.getsockname())
        reading, _ = server.accept()
    writing.setsockopt(socket.SOL_SOCKET, socket.SO_LINGER, struct.pack("ii", 1, 0))
    return reading.detach(), writing.detach()


def interruptible() -> Tuple[socket.socket, socket.socket]:
    """Our end of a connection and the program's, on which `interrupt` fails a call that waits.

    So it is on Linux where a call has a limit of time, which is never reached here: else the call
    goes on after the signal, as if there had been none.
    """
    ours, theirs = socket.socketpair()
    for limit in (socket.SO_RCVTIMEO, socket.SO_SNDTIMEO):
        theirs.setsockopt(socket.SOL_SOCKET, limit, struct.pack("ll", 3600, 0))
    return ours, theirs


def fill(end: socket.socket) -> None:
    """Writes until there is no room."""
    try:
        while end.send(bytes(FILE_UNIT), socket.MSG_DONTWAIT):
            pass
    except BlockingIOError:
        pass


def state_of(process: "subprocess.Popen[bytes]") -> str:
    """The letter of a process's state: `S` where it waits in a call."""
    text = Path(f"/proc/{process.pid}/stat").read_text()
    return text.rpartition(")")[2].split()[0]


def interrupt(process: "subprocess.Popen[bytes]") -> None:
    """Interrupts the call in which a process waits: it is stopped, and goes on."""
    process.send_signal(signal.SIGSTOP)
    while state_of(process) not in "TZ":
        time.sleep(0.001)
    process.send_signal(signal.SIGCONT)


def quiet_terminal() -> Tuple[int, int]:
    """The keyboard and the program's end of a terminal that doesn't show what is typed."""
    keyboard, screen = pty.openpty()
    settings = termios.tcgetattr(screen)
    settings[3] &= ~termios.ECHO
    termios.tcsetattr(screen, termios.TCSANOW, settings)
    return keyboard, screen
