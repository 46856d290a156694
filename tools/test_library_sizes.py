"""Tries the box and the level of detail by the library: python3 tools/test_library_sizes.py

They are compared with what a plain model (tests/model) reads in the streams, and with the line `l`.
"""
import ctypes
import unittest
from typing import List

from tried_library import TOP, cases_of, take_library

import vdpm
from model.stream import read_stream
from vdpm.library import NOT_SO, Fineness

TORUS = TOP / "examples" / "torus.obj"


def setUpModule() -> None:
    take_library()


def leaf_places(stream: bytes) -> List[List[int]]:
    """Where the leaves are, as the stream's words tell it."""
    return [list(it.place) for it in read_stream(stream).hierarchy.nodes if it.width() == 1]


class Sizes(unittest.TestCase):
    def test_the_box_is_that_of_the_leaves(self) -> None:
        streams = {asked.given for asked in cases_of("vdpm", "check")
                   if asked.fault is None and len(asked.given) < 30_000}
        for stream in sorted(streams):
            places = leaf_places(stream)
            with vdpm.Session(stream) as session:
                if not places:
                    self.assertRaises(ValueError, session.bounds)
                    continue
                axes = list(zip(*places))
                low, high = tuple(map(min, axes)), tuple(map(max, axes))
                self.assertEqual(session.bounds(), (low, high))
        self.assertGreater(len(streams), 10)

    def test_the_level_is_that_of_the_line(self) -> None:
        with vdpm.Session(vdpm.simplify(TORUS.read_bytes())) as session:
            for tolerance in (200, 20, 4, 60, 0):
                session.view((0, -30000, 20000), 1000, tolerance)
                line = "level {} {} {} {} {}\n".format(*session.level())
                self.assertEqual(line.encode(), session.line("l"))
            for record in range(session.sizes().records):
                session.split(record)
            self.assertEqual((session.level().error, session.level().deviation), (0, 0))

    def test_nothing_is_told_of_one_that_is_closed(self) -> None:
        with vdpm.Session((TOP / "examples" / "octahedron.vdpm").read_bytes()) as session:
            library, viewer = session._library, session._viewer
        box, level = (ctypes.c_int32 * 6)(*[7] * 6), Fineness(7, 7, 7)
        self.assertEqual(library.vdpm_extent(viewer, box), NOT_SO)
        self.assertEqual(library.vdpm_level(viewer, level), NOT_SO)
        self.assertEqual((list(box), level.error, level.deviation, level.split), ([7] * 6, 7, 7, 7))


if __name__ == "__main__":
    unittest.main()
