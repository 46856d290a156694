"""Tries the fits of nodes by the library: python3 tools/test_library_fits.py

They are compared with those of a plain model (tests/model/fits.py).
"""
import ctypes
import random
import unittest
from typing import Any, List

from tried_library import TOP, cases_of, take_library

import vdpm
from model.fits import fits_of
from model.stream import read_stream
from vdpm.library import DONE, NOT_SO, NO_ROOM, OUT_OF_RANGE

OCTAHEDRON = TOP / "examples" / "octahedron.vdpm"
MOST = 1 << 21


def setUpModule() -> None:
    take_library()


def flat(numbers: Any) -> List[int]:
    return [int(n) for n in numbers]


def some_streams() -> List[bytes]:
    """The streams that cases of `check` take, which aren't large."""
    streams = {asked.given for asked in cases_of("vdpm", "check")
               if asked.fault is None and len(asked.given) < 30_000}
    return sorted(streams | {OCTAHEDRON.read_bytes()})


class Fits(unittest.TestCase):
    def test_they_are_those_of_the_model(self) -> None:
        chance, tried = random.Random(5), 0
        for stream in some_streams():
            h = read_stream(stream).hierarchy
            places = [h.nodes[node].place for node in h.leaf_nodes()]
            kinds = [[chance.randint(-most, most) for _ in places] for most in (1, 65536, MOST)]
            kinds.append([3 * x - 2 * y + z + 1000 for x, y, z in places])
            with vdpm.Session(stream) as session:
                for values in kinds:
                    if all(abs(n) <= MOST for n in values):
                        self.assertEqual(flat(session.fits(values)), fits_of(h, values))
                        tried += len(values) > 3
        self.assertGreater(tried, 20)

    def test_channels_stand_together(self) -> None:
        stream = OCTAHEDRON.read_bytes()
        h, values = read_stream(stream).hierarchy, [7 * n * n - 90 * n for n in range(12)]
        with vdpm.Session(stream) as session:
            given = session.fits(values, 2)
            told = flat(getattr(given, "ravel", lambda: given)())
            self.assertEqual(told[0::2], fits_of(h, values[0::2]))
            self.assertEqual(told[1::2], fits_of(h, values[1::2]))
            self.assertEqual(flat(session.fits([], 0)), [])

    def test_equal_numbers_stay_and_leaves_keep_theirs(self) -> None:
        with vdpm.Session(OCTAHEDRON.read_bytes()) as session:
            self.assertEqual(set(flat(session.fits([77] * 6))), {77})
            values = [-MOST, MOST, 5, -6, 0, 1]
            told, inputs = flat(session.fits(values)), session.inputs()
            for node, vertex in enumerate(flat(inputs.by_node)):
                if vertex != vdpm.NO_VERTEX:
                    self.assertEqual(told[node], values[vertex])

    def test_they_are_the_same_whatever_is_shown(self) -> None:
        with vdpm.Session(OCTAHEDRON.read_bytes()) as session:
            first = flat(session.fits([65535, 0, 7, 1, 2, -65535]))
            session.split(0)
            self.assertEqual(flat(session.fits([65535, 0, 7, 1, 2, -65535])), first)

    def test_values_that_do_not_fit_are_refused(self) -> None:
        with vdpm.Session(OCTAHEDRON.read_bytes()) as session:
            for values in ([1] * 5, [1] * 7, [0] * 5 + [MOST + 1], [0] * 5 + [-MOST - 1],
                           [0.5] * 6):
                with self.assertRaises((ValueError, TypeError)):
                    session.fits(values)

    def test_what_is_refused_writes_nothing(self) -> None:
        session = vdpm.Session(OCTAHEDRON.read_bytes())
        values, room = (ctypes.c_int32 * 7)(), (ctypes.c_int32 * 9)(*[9] * 9)

        def asked(length: int, most: int) -> int:
            fits = session._library.vdpm_fits
            return int(fits(session._viewer, 1, values, length, room, most))

        self.assertEqual([asked(6, 7), asked(6, 0), asked(5, 9), asked(7, 9), asked(5, 0)],
                         [NO_ROOM, NO_ROOM, OUT_OF_RANGE, OUT_OF_RANGE, OUT_OF_RANGE])
        values[5] = MOST + 1
        self.assertEqual([asked(6, 9), asked(6, 0)], [OUT_OF_RANGE, OUT_OF_RANGE])
        self.assertEqual(set(room), {9})
        values[5] = -MOST
        self.assertEqual(asked(6, 9), DONE)
        self.assertEqual(room[8], 9)
        session.close()
        self.assertEqual(asked(6, 9), NOT_SO)
        with self.assertRaises(vdpm.NotOpen):
            session.fits([0] * 6)


if __name__ == "__main__":
    unittest.main()
