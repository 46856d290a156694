"""Where the programs are that cases run, and the line that one says while it isn't proved."""
import fcntl
import os
import struct
import subprocess
import termios
import time
from pathlib import Path
from typing import Dict, List

TOP = Path(__file__).resolve().parent.parent
# Words with which a program reads its whole standard input.
READING: Dict[str, List[str]] = {
    "vdpm": ["canon"], "prepare": [], "simplify": [], "pack": [], "paint": []
}  # fmt: skip
# The statuses that a program may end with.
STATUSES = range(6)
TRIANGLE = b"v 0 0 0\nv 1 0 0\nv 0 1 0\nf 1 2 3\n"
# What `pack` and `paint` read: the stream of no mesh. (`paint` tells that no coat follows.)
NOTHING = b"VDPM\1" + bytes(19)


class NoProgram(Exception):
    """Why there is no program to run cases on."""


class Programs:
    """The path of each program, by its name."""

    def __init__(self, paths: Dict[str, Path]) -> None:
        self.paths = {name: path.resolve() for name, path in paths.items()}

    def settle(self) -> None:
        """Lets each program be built, and names from then on what a script ends in by `exec`.

        Raises NoProgram where there is nothing to run.
        """
        for name, path in self.paths.items():
            words = [str(path), *READING.get(name, [])]
            given = NOTHING if name in ("pack", "paint") else TRIANGLE
            try:
                done = subprocess.run(words, input=given, stdout=subprocess.DEVNULL, check=False)
            except OSError as fault:
                raise NoProgram(f"{path} can't be run: {fault.strerror}") from fault
            if done.returncode not in STATUSES:
                raise NoProgram(f"{path} ended with status {done.returncode}")
            self.paths[name] = program_behind(path, words)


def program_behind(path: Path, words: List[str]) -> Path:
    """The program that a script ends in; the script itself where it goes on running beside it."""
    quiet = subprocess.DEVNULL
    process = subprocess.Popen(words, stdin=subprocess.PIPE, stdout=quiet, stderr=quiet)
    assert process.stdin is not None
    process.stdin.write(b"#\n")
    process.stdin.flush()
    # Whoever has taken these bytes is the program, since a script reads nothing.
    deadline = time.monotonic() + 60
    while process.poll() is None and unread(process.stdin.fileno()) and time.monotonic() < deadline:
        time.sleep(0.001)
    try:
        found = Path(os.readlink(f"/proc/{process.pid}/exe"))
    except OSError:
        found = path
    process.stdin.close()
    process.wait()
    return found if TOP in found.parents else path


def unread(pipe: int) -> int:
    """How many bytes of a pipe its reader has still to take."""
    answer = fcntl.ioctl(pipe, termios.FIONREAD, b"\0" * 4)
    return int(struct.unpack("i", answer)[0])


def without_notice(name: str, errors: bytes) -> bytes:
    """The error text without the line that a program that isn't proved begins with."""
    for how in ("./prove proves it", "cargo built it"):
        line = f"{name}: not proved on this machine yet, run-time checks are on; {how}\n"
        if errors.startswith(line.encode()):
            return errors[len(line.encode()) :]
    return errors
