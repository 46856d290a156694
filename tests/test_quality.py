"""Tries benches/quality.py: python3 tests/test_quality.py

Distances are tried on meshes whose distances are known, and the table with programs that stand for
`vdpm` and `simplify`. Where there is no g++ that is left out.
"""
import contextlib
import io
import shutil
import sys
import tempfile
import unittest
from pathlib import Path
from typing import List, Tuple
from unittest import mock

TOP = Path(__file__).resolve().parent.parent
sys.path.insert(0, str(TOP / "benches"))

import quality  # noqa: E402

Place = Tuple[int, int, int]

# Writes any mesh as it is for `canon` and `build`; a frame is of the square RAISE above its own.
STAND_IN = """#!{python}
import sys
if sys.argv[1:2] == ["view"]:
    print("frame 4 2")
    for i, (x, y) in enumerate([(0, 0), (100, 0), (100, 100), (0, 100)]):
        print("v", i, x, y, RAISE)
    print("f 0 0 1 2\\nf 1 0 2 3\\nend")
else:
    sys.stdout.write(sys.stdin.read())
"""
SQUARE = [(0, 0, 0), (100, 0, 0), (100, 100, 0), (0, 100, 0)]


def square_text(points: List[Place]) -> str:
    lines = [f"v {x} {y} {z}" for x, y, z in points]
    return "\n".join([*lines, "f 1 2 3", "f 1 3 4", ""])


@unittest.skipUnless(shutil.which("g++"), "there is no g++")
class Measuring(unittest.TestCase):
    program: Path
    room: Path

    @classmethod
    def setUpClass(cls) -> None:
        folder = tempfile.TemporaryDirectory()
        cls.addClassCleanup(folder.cleanup)
        cls.room = Path(folder.name)
        program = quality.compiled(cls.room, "distance", quality.Peer("distance.cpp", []))
        assert program
        cls.program = program

    def file(self, name: str, text: str) -> Path:
        path = self.room / name
        path.write_text(text, encoding="ascii")
        return path

    def between(self, one: List[Place], other: List[Place]) -> List[quality.Distances]:
        first, second = (self.file(f"{i}.obj", square_text(p)) for i, p in enumerate((one, other)))
        return quality.distances(self.program, first, second, 100000)

    def test_the_same_is_nowhere_off(self) -> None:
        self.assertEqual(self.between(SQUARE, SQUARE), [quality.Distances(0, 0, 0)] * 2)

    def test_a_raised_square_is_as_far_everywhere(self) -> None:
        raised = [(x, y, 3) for x, y, _ in SQUARE]
        for found in self.between(SQUARE, raised):
            for value in found:
                self.assertAlmostEqual(value, 3, places=5)

    def test_what_lies_beside_is_measured_to_the_rim(self) -> None:
        """From a square twice as wide: half of it is on the other, and the rest 0 to 100 off it."""
        wide = [(0, 0, 0), (200, 0, 0), (200, 100, 0), (0, 100, 0)]
        out, back = self.between(wide, SQUARE)
        self.assertAlmostEqual(out.mean, 25, delta=0.5)
        self.assertAlmostEqual(out.rms, (100**2 / 6) ** 0.5, delta=0.5)
        self.assertEqual(out.greatest, 100)
        self.assertEqual(back, quality.Distances(0, 0, 0))

    def test_a_corner_counts_for_the_greatest(self) -> None:
        """A tip of two thin faces has hardly any area."""
        tip = square_text(SQUARE) + "v 100 100 70\nv 99 100 0\nf 3 5 6\n"
        out, _ = quality.distances(
            self.program, self.file("tip.obj", tip), self.file("0.obj", square_text(SQUARE)), 10
        )
        self.assertEqual(out.greatest, 70)

    def test_a_row_has_what_was_measured(self) -> None:
        programs = {}
        for name, rise in (("vdpm", "0"), ("raised", "3")):
            text = STAND_IN.replace("{python}", sys.executable).replace("RAISE", rise)
            programs[name] = self.file(name, text)
            programs[name].chmod(0o755)
        model = self.file("given.obj", square_text(SQUARE))
        for vdpm, wanted in (("vdpm", "0.00 / 0.00 / 0.00"), ("raised", "3.00 / 3.00 / 3.00")):
            words = ["quality", str(model), "--shares", "50", "--by", "build", "--samples", "9"]
            words += ["--room", str(self.room / "room"), "--vdpm", str(programs[vdpm])]
            told = io.StringIO()
            with mock.patch.object(sys, "argv", words), contextlib.redirect_stdout(told):
                quality.main()
            row = told.getvalue().splitlines()[-1]
            self.assertTrue(row.startswith(f"| given, 2 | 50 | build | 2 | {wanted} |"), row)


class Telling(unittest.TestCase):
    def test_numbers_have_three_figures(self) -> None:
        rows = [(0, "0.00"), (1.234, "1.23"), (9.999, "10.0"), (12.34, "12.3"), (99.96, "100"),
                (1234.5, "1,234")]
        for value, wanted in rows:
            self.assertEqual(quality.number(value), wanted)

    def test_what_does_not_compile_is_left_out(self) -> None:
        said = io.StringIO()
        with tempfile.TemporaryDirectory() as room, contextlib.redirect_stderr(said):
            peer = quality.Peer("no_such_file.cpp", [])
            self.assertIsNone(quality.compiled(Path(room), "nobody", peer))
        self.assertIn("nobody is left out", said.getvalue())


if __name__ == "__main__":
    unittest.main()
