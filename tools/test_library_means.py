"""Tries the means of nodes by the library: python3 tools/test_library_means.py

They are compared with sums over the leaves of a plain model's hierarchies (tests/model), and asked
for from Python and from C.
"""
import ctypes
import random
import shutil
import subprocess
import tempfile
import unittest
from pathlib import Path
from typing import List

from tried_library import TOP, cases_of, compiled, flat, runs_that_fail, take_library

import vdpm
from model.stream import read_stream
from vdpm.library import DONE, NOT_SO, NO_ROOM, OUT_OF_RANGE

OCTAHEDRON = TOP / "examples" / "octahedron.vdpm"
folder = tempfile.TemporaryDirectory(prefix="means-")


def setUpModule() -> None:
    take_library()


def tearDownModule() -> None:
    folder.cleanup()


def means_of(stream: bytes, values: List[int], channels: int) -> List[int]:
    """The rounded means of all nodes, each by a sum over its leaves."""
    h = read_stream(stream).hierarchy
    vertices = [h.nodes[node].input - 1 for node in h.leaf_nodes()]
    means = []
    for node in h.nodes:
        under, count = vertices[node.first : node.after], node.width()
        sums = [sum(values[channels * v + j] for v in under) for j in range(channels)]
        means += [(2 * it + count) // (2 * count) for it in sums]
    return means


def some_streams() -> List[bytes]:
    """The streams that cases of `check` take, which aren't large."""
    streams = {asked.given for asked in cases_of("vdpm", "check")
               if asked.fault is None and len(asked.given) < 30_000}
    return sorted(streams | {OCTAHEDRON.read_bytes()})


class Means(unittest.TestCase):
    def test_they_are_those_of_sums_over_leaves(self) -> None:
        chance, tried = random.Random(3), 0
        for stream in some_streams():
            with vdpm.Session(stream) as session:
                for channels in (1, 3, 4):
                    most = chance.choice((1, 255, 65535))
                    count = channels * session.sizes().leaves
                    values = [chance.randint(0, most) for _ in range(count)]
                    means = session.means(values, channels)
                    self.assertEqual(flat(means), means_of(stream, values, channels))
                    tried += count > 0
        self.assertGreater(tried, 20)

    def test_they_are_the_same_whatever_is_shown(self) -> None:
        with vdpm.Session(OCTAHEDRON.read_bytes()) as session:
            first = flat(session.means([65535, 0, 7, 1, 2, 65535]))
            session.split(0)
            self.assertEqual(flat(session.means([65535, 0, 7, 1, 2, 65535])), first)

    def test_values_that_do_not_fit_are_refused(self) -> None:
        with vdpm.Session(OCTAHEDRON.read_bytes()) as session:
            for values, channels in ([1] * 5, 1), ([1] * 7, 1), ([1] * 6, 2), ([1] * 6, 0):
                with self.assertRaises(ValueError):
                    session.means(values, channels)
            for value in (-1, 65536):
                with self.assertRaises(ValueError):
                    session.means([0] * 5 + [value])
            with self.assertRaises(ValueError):
                session.means([0.5] * 6)
            self.assertEqual(flat(session.means([], 0)), [])

    def test_what_is_refused_writes_nothing(self) -> None:
        session = vdpm.Session(OCTAHEDRON.read_bytes())
        values, room = (ctypes.c_uint16 * 12)(), (ctypes.c_uint16 * 17)(*[9] * 17)

        def asked(channels: int, length: int, most: int) -> int:
            means = session._library.vdpm_means
            return int(means(session._viewer, channels, values, length, room, most))

        self.assertEqual([asked(2, 12, 15), asked(2, 11, 17), asked(1, 12, 0), asked(3, 12, 17)],
                         [NO_ROOM, OUT_OF_RANGE, OUT_OF_RANGE, OUT_OF_RANGE])
        self.assertEqual(set(room), {9})
        self.assertEqual(asked(2, 12, 17), DONE)
        self.assertEqual(list(room), [0] * 16 + [9])
        session.close()
        self.assertEqual(asked(1, 6, 17), NOT_SO)
        with self.assertRaises(vdpm.NotOpen):
            session.means([0] * 6)


@unittest.skipUnless(shutil.which("cc"), "there is no cc")
class FromC(unittest.TestCase):
    VALUES = list(range(0, 18000, 1000))
    WORDS = [str(OCTAHEDRON), "3"]

    def told(self) -> bytes:
        means = means_of(OCTAHEDRON.read_bytes(), self.VALUES, 3)
        rows = (" ".join(map(str, [v, *means[3 * v : 3 * v + 3]])) for v in range(len(means) // 3))
        return "".join(f"{row}\n" for row in rows).encode()

    def given(self, count: int) -> bytes:
        return " ".join(map(str, self.VALUES[:count])).encode()

    def test_a_program_tells_them(self) -> None:
        made = str(compiled("means", Path(folder.name)))
        done = subprocess.run([made, *self.WORDS], input=self.given(18), capture_output=True,
                              check=True)
        self.assertEqual(done.stdout, self.told())
        done = subprocess.run([made, *self.WORDS], input=self.given(17), capture_output=True,
                              check=False)
        self.assertEqual((done.returncode, done.stdout), (1, b""))
        self.assertEqual(done.stderr, b"means: status 2\n")

    def test_each_allocation_failing_in_turn(self) -> None:
        runs = list(runs_that_fail("means", Path(folder.name), self.WORDS, self.given(18)))
        for done in runs:
            self.assertIn(done.returncode, (0, 1, 3), done.stderr)
            self.assertEqual(done.stdout, self.told() if done.returncode == 0 else b"")
        self.assertEqual(runs[-1].returncode, 0)
        self.assertGreater(len(runs), 20)


if __name__ == "__main__":
    unittest.main()
