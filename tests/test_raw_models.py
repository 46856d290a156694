"""Tries the comparison with assimp: python3 tests/test_raw_models.py

What it finds the same and what it doesn't is tried on small meshes, and the whole way on some, by
the `prepare` beside VIEWER_TESTS_PROGRAM or the one at the top, where there is assimp.
"""
import gzip
import os
import shutil
import tempfile
import unittest
from pathlib import Path
from typing import List, Sequence

from raw_models import TOP, Comparison, Differs, Mesh, Place, Point, Prepared, compared, models

SQUARE: List[Point] = [(0.0, 0.0, 0.0), (1.0, 0.0, 0.0), (1.0, 1.0, 0.0), (0.0, 1.0, 0.0)]
# Places of step 0.5 round the middle of the square.
GRID: List[Place] = [(-1, -1, 0), (1, -1, 0), (1, 1, 0), (-1, 1, 0)]
OBJ = b"v 0 0 0\nv 1.5 0 0\nv 1.5 1 0\nv 0 1 0\nv 0 1 2e0\nf 1 2 3 4\nf -1 4 3\n"
LEFT_OUT = "there is no assimp"


def judge(points: Sequence[Point], polygons: List[List[int]], out: List[List[int]]) -> None:
    triangles = {frozenset(GRID[corner] for corner in triangle) for triangle in out}
    prepared = Prepared(triangles, 0.5, (0.5, 0.5, 0.0))
    Comparison(Mesh(list(points), polygons), prepared).judge()


class Judging(unittest.TestCase):
    def differs(self, polygons: List[List[int]], out: List[List[int]], said: str) -> None:
        with self.assertRaisesRegex(Differs, said):
            judge(SQUARE, polygons, out)

    def test_triangles(self) -> None:
        halves = [[0, 1, 2], [0, 2, 3]]
        judge(SQUARE, halves, [[2, 1, 0], [3, 0, 2]])
        judge(SQUARE, [*halves, [0, 0, 2], [1, 2, 0]], halves)
        self.differs(halves, [[0, 1, 2]], "triangle .0 0 0., .1 1 0., .0 1 0. didn't come out")
        self.differs([[0, 1, 2]], halves, "1 triangles came out that assimp")

    def test_a_polygon_may_be_cut_in_each_way(self) -> None:
        for out in ([[0, 1, 2], [0, 2, 3]], [[0, 1, 3], [1, 2, 3]]):
            judge(SQUARE, [[0, 1, 2, 3]], out)
        self.differs([[0, 1, 2, 3]], [[0, 1, 2], [1, 2, 3]], "polygon .* came out otherwise")
        self.differs([[0, 1, 2, 3]], [[0, 1, 2]], "polygon .* came out otherwise")

    def test_a_polygon_beside_triangles_over_its_places(self) -> None:
        halves = [[0, 1, 2], [0, 2, 3]]
        judge(SQUARE, [[0, 1, 2, 3], [0, 1, 3], [1, 2, 3]], [*halves, [0, 1, 3], [1, 2, 3]])
        judge(SQUARE, [[0, 1, 2, 3, 0, 1, 2, 3]], halves)

    def test_half_a_step_and_no_more(self) -> None:
        for off, same in ((0.249, True), (0.251, False)):
            points = [(off, -off, 0.0), *SQUARE[1:]]
            if same:
                judge(points, [[0, 1, 2]], [[0, 1, 2]])
            else:
                with self.assertRaises(Differs):
                    judge(points, [[0, 1, 2]], [[0, 1, 2]])


class Files(unittest.TestCase):
    def setUp(self) -> None:
        room = tempfile.TemporaryDirectory()
        self.addCleanup(room.cleanup)
        self.room = Path(room.name)

    def test_each_model_comes_once(self) -> None:
        names = {"a.obj": OBJ, "b.OBJ": OBJ, "c.obj.gz": gzip.compress(OBJ + b"#"), "d.txt": OBJ}
        for name, data in names.items():
            (self.room / name).write_bytes(data)
        found = [(path.name, data) for path, data in models([self.room], "")]
        self.assertEqual(found, [("a.obj", OBJ), ("c.obj.gz", OBJ + b"#")])
        self.assertEqual([path.name for path, _ in models([self.room], "c.o")], ["c.obj.gz"])

    @unittest.skipUnless(shutil.which("assimp"), LEFT_OUT)
    def test_what_comes_of_files(self) -> None:
        vdpm = Path(os.environ.get("VIEWER_TESTS_PROGRAM", TOP / "vdpm"))
        for data, outcome in ((OBJ, "same"), (OBJ + b"f 1 2 9\n", "refused")):
            path = self.room / "model.obj"
            path.write_bytes(data)
            prepare = vdpm.resolve().with_name("prepare")
            self.assertEqual(compared(path, prepare, self.room)[0], outcome)


if __name__ == "__main__":
    if not shutil.which("assimp"):
        print(f"LEFT OUT: {LEFT_OUT}")
    unittest.main()
