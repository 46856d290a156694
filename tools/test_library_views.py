"""Tries views as numbers by the library: python3 tools/test_library_views.py

They are compared with the lines that ask for the same: the views of tests/cases, and random ones.
"""
import ctypes
import random
import unittest
from typing import Iterator, List, NamedTuple, Tuple

from tried_library import TOP, all_asked, stream_length, take_library

import vdpm
from vdpm.library import BY_DEVIATION, BY_ERROR, DONE, NOT_SO, OUT_OF_RANGE, Look, Moves

OCTAHEDRON = TOP / "examples" / "octahedron.vdpm"
WORDS = (b"v", b"vs", b"vd", b"vds")
MOST_NORMAL, MOST_OFFSET = 32_767, 4_398_046_511_104
BEFORE = (7, 7)


def setUpModule() -> None:
    take_library()


class View(NamedTuple):
    """The numbers of a view, in range or not."""

    eye: Tuple[int, ...] = (0, -3_000, 2_000)
    focal: int = 1_000
    tolerance: int = 5
    silhouette: int = 5
    measure: int = BY_ERROR
    planes: Tuple[int, ...] = ()

    def line(self) -> bytes:
        word = "vds" if self.measure == BY_DEVIATION else "vs"
        numbers = [*self.eye, self.focal, self.tolerance, self.silhouette, *self.planes]
        return " ".join([word, *map(str, numbers)]).encode()


def view_of(line: bytes) -> View:
    """The view of a line that is one."""
    word, *fields = line.split(b" ")
    numbers = list(map(int, fields))
    if not word.endswith(b"s"):
        numbers.insert(5, numbers[4])
    measure = BY_DEVIATION if b"d" in word else BY_ERROR
    focal, tolerance, silhouette = numbers[3:6]
    return View(tuple(numbers[:3]), focal, tolerance, silhouette, measure, tuple(numbers[6:]))


def asked(session: vdpm.Session, view: View) -> Tuple[int, Tuple[int, int]]:
    """The status of a view as numbers, and what it came to."""
    look = Look(view.eye, view.focal, view.tolerance, view.silhouette, view.measure)
    planes = (ctypes.c_int64 * len(view.planes))(*view.planes) if view.planes else None
    moved = Moves(*BEFORE)
    status = session._library.vdpm_view(session._viewer, look, planes, len(view.planes), moved)
    return int(status), (moved.moves, moved.left)


def told(reply: bytes) -> Tuple[int, int]:
    """What the reply to a view's line tells."""
    words = reply.split()
    return int(words[1]), int(words[2]) if words[0] == b"spent" else 0


def scripts() -> Iterator[Tuple[bytes, int, List[bytes]]]:
    """The streams and scripts of the cases that have views and no fault."""
    for case in all_asked():
        length = stream_length(case.given) if case.fault is None else 0
        lines = case.given[length:].splitlines()
        if length and any(line.split(b" ")[0] in WORDS for line in lines):
            yield case.given[:length], int(case.words[1]), lines


def out_of_range() -> Iterator[View]:
    """Views of which one number is just out of its range, or would be in range if it were cut."""
    for at in range(3):
        for far in (16_777_216, -16_777_216, 2**31 - 1, -(2**31)):
            yield View(eye=tuple(far if i == at else 0 for i in range(3)))
    yield View(focal=65_536)
    yield View(focal=2**32 - 1)
    yield View(tolerance=65_536)
    yield View(silhouette=6)
    yield View(tolerance=65_536, silhouette=65_536)
    yield View(measure=2)
    yield View(measure=2**32 - 1)
    for at in range(3):
        for far in (MOST_NORMAL + 1, -MOST_NORMAL - 1, 2**31, -(2**31), 2**32 + 5, -(2**63)):
            yield View(planes=tuple(far if i == at else 1 for i in range(4)))
    for far in (MOST_OFFSET + 1, -MOST_OFFSET - 1, 2**63 - 1, -(2**63)):
        yield View(planes=(1, 2, 3, far))
        yield View(planes=(1, 2, 3, 4) * 5 + (0, 0, 0, far))
    for length in (1, 2, 3, 5, 6, 7, 23, 25, 26, 27, 28, 400):
        yield View(planes=(1,) * length)


def at_the_limits() -> Iterator[View]:
    """Views with numbers as far out as they may be."""
    yield View(eye=(16_777_215, -16_777_215, 16_777_215), focal=65_535)
    yield View(tolerance=65_535, silhouette=65_535, measure=BY_DEVIATION)
    yield View(silhouette=0)
    yield View(focal=0, tolerance=0, silhouette=0)
    far = (MOST_NORMAL, -MOST_NORMAL, MOST_NORMAL, -MOST_OFFSET)
    yield View(planes=far)
    yield View(planes=(0, 0, 0, 0) + far * 5)
    yield View(planes=(-1, 0, 0, MOST_OFFSET))


class Views(unittest.TestCase):
    def assert_same(self, numbers: vdpm.Session, lines: vdpm.Session, view: View,
                    line: bytes) -> None:
        """A view as numbers does what its line does."""
        status, moved = asked(numbers, view)
        self.assertEqual((status, moved), (DONE, told(lines.line(line))))
        self.assertEqual(numbers.line("w"), lines.line("w"))

    def test_they_do_what_the_lines_of_the_cases_do(self) -> None:
        tried = 0
        for stream, budget, script in scripts():
            with vdpm.Session(stream, budget) as numbers, vdpm.Session(stream, budget) as lines:
                for line in script:
                    if line.split(b" ")[0] in WORDS:
                        self.assert_same(numbers, lines, view_of(line), line)
                        tried += 1
                    else:
                        self.assertEqual(numbers.line(line), lines.line(line))
        self.assertGreater(tried, 50)

    def test_they_do_what_random_lines_do(self) -> None:
        chance = random.Random(7)
        stream = vdpm.simplify((TOP / "examples" / "torus.obj").read_bytes())
        with vdpm.Session(stream) as numbers, vdpm.Session(stream) as lines:
            for turn in range(200):
                budget = chance.choice((1, 7, 4_000_000_000))
                numbers.budget(budget)
                lines.budget(budget)
                tolerance = chance.randrange(40)
                normal = [chance.randrange(-9, 10) for _ in range(3)]
                planes = (*normal, chance.randrange(-9_000, 9_000)) * (turn % 7)
                view = View(tuple(chance.randrange(-3_000, 3_000) for _ in range(3)),
                            chance.randrange(2_000), tolerance, chance.randint(0, tolerance),
                            turn % 2, planes)
                self.assert_same(numbers, lines, view, view.line())

    def test_numbers_out_of_range_are_refused(self) -> None:
        with vdpm.Session(OCTAHEDRON.read_bytes()) as session:
            session.line("s 0")
            before, tried = session.line("w"), 0
            for view in out_of_range():
                self.assertEqual(asked(session, view), (OUT_OF_RANGE, BEFORE), view)
                tried += 1
            self.assertEqual(session.line("w"), before)
            self.assertGreater(tried, 50)

    def test_numbers_at_the_limits_are_taken(self) -> None:
        stream = OCTAHEDRON.read_bytes()
        with vdpm.Session(stream) as numbers, vdpm.Session(stream) as lines:
            for view in at_the_limits():
                self.assert_same(numbers, lines, view, view.line())

    def test_the_reply_to_the_last_line_stays(self) -> None:
        with vdpm.Session(OCTAHEDRON.read_bytes()) as session:
            frame = session.line("w")
            status, (moves, left) = asked(session, View(tolerance=0, silhouette=0))
            self.assertEqual((status, left), (DONE, 0))
            self.assertGreater(moves, 0)
            self.assertEqual(session._reply(), frame)

    def test_the_budget_cuts_a_view(self) -> None:
        with vdpm.Session(OCTAHEDRON.read_bytes(), budget=1) as session:
            status, (moves, left) = asked(session, View(tolerance=0, silhouette=0))
            self.assertEqual((status, moves), (DONE, 1))
            self.assertGreater(left, 0)

    def test_a_closed_viewer_is_refused(self) -> None:
        session = vdpm.Session(OCTAHEDRON.read_bytes())
        session.close()
        self.assertEqual(asked(session, View()), (NOT_SO, BEFORE))
        with self.assertRaises(vdpm.NotOpen):
            session.view((0, 0, 0), 1, 1)


if __name__ == "__main__":
    unittest.main()
