"""Running a tool, and telling what goes on meanwhile."""
import contextlib
import subprocess
import sys
import threading
import time
from typing import Iterator, List

from .sources import Program
from .stopped import Stopped

# The seconds after which it is told that the work goes on.
EVERY = 20


def say(program: Program, line: str) -> None:
    print(f"{program.name}: {line}", file=sys.stderr, flush=True)


def run_tool(words: List[str]) -> None:
    done = subprocess.run(words, stdin=subprocess.DEVNULL, stdout=subprocess.PIPE,
                          stderr=subprocess.STDOUT, text=True, errors="replace", check=False)
    if done.returncode:
        lines = done.stdout.strip().splitlines() or [f"status {done.returncode}"]
        raise Stopped(f"{words[0]} failed: {lines[-1]}")


@contextlib.contextmanager
def telling_time(program: Program, every: float = EVERY) -> Iterator[None]:
    """Tells now and then for how long the work inside has gone on."""
    begun, done = time.monotonic(), threading.Event()

    def tell() -> None:
        while not done.wait(every):
            say(program, f"still building, {time.monotonic() - begun:.0f} seconds so far")

    teller = threading.Thread(target=tell, daemon=True)
    teller.start()
    try:
        yield
    finally:
        done.set()
        teller.join()
