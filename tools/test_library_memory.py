"""Tries that the library gives back what it took: python3 tools/test_library_memory.py

Viewers are opened and closed, and texts made and closed, some hundred times by a process that may
take little more memory. Without closing that isn't enough, which is tried too.
"""
import ctypes
import os
import resource
import unittest
from pathlib import Path
from typing import Callable

from tried_library import take_library

import vdpm
from vdpm.library import DONE, Handle, Told, load

STATM = Path("/proc/self/statm")
TURNS = 200
ROOM = 48 << 20


def setUpModule() -> None:
    take_library()
    if not STATM.exists():
        raise unittest.SkipTest("what a process takes isn't told here")


def grid(side: int) -> bytes:
    """The text of a square of so many vertices a side, with heights that no plane has."""
    places = [f"v {x} {y} {x * y % 7}" for y in range(side) for x in range(side)]
    firsts = [y * side + x + 1 for y in range(side - 1) for x in range(side - 1)]
    faces = [f"f {v} {v + 1} {v + side + 1} {v + side}" for v in firsts]
    return "\n".join([*places, *faces, ""]).encode()


def all_done(work: Callable[[], bool]) -> bool:
    """Whether the work is done each time by a process that may take little more memory."""
    child = os.fork()
    if child:
        return os.waitpid(child, 0)[1] == 0
    done = False
    try:
        taken = int(STATM.read_text(encoding="ascii").split()[0]) * resource.getpagesize()
        most = resource.getrlimit(resource.RLIMIT_AS)[1]
        resource.setrlimit(resource.RLIMIT_AS, (taken + ROOM, most))
        done = all(work() for _ in range(TURNS))
    finally:
        os._exit(0 if done else 1)


class GivenBack(unittest.TestCase):
    def test_viewers_that_are_closed(self) -> None:
        library, stream = load(), vdpm.simplify(vdpm.prepare(grid(60)).text)

        def shown(closes: bool) -> bool:
            viewer, place = Handle(None, 0), ctypes.c_uint64()
            status: int = library.vdpm_open(stream, len(stream), 0, viewer, place)
            if closes:
                library.vdpm_close(viewer)
            return status == DONE

        self.assertTrue(all_done(lambda: shown(True)))
        self.assertFalse(all_done(lambda: shown(False)))

    def test_what_was_made_and_is_closed(self) -> None:
        library, text = load(), grid(80)

        def made(closes: bool) -> bool:
            handle, fault = Handle(None, 0), Told()
            status: int = library.vdpm_prepare(text, len(text), 0, handle, fault)
            if closes:
                library.vdpm_made_close(handle)
            return status == DONE

        self.assertTrue(all_done(lambda: made(True)))
        self.assertFalse(all_done(lambda: made(False)))


if __name__ == "__main__":
    unittest.main()
