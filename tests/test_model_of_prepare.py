"""Tries the model of `prepare` on worked values: python3 tests/test_model_of_prepare.py"""
import unittest

from model import answer
from worked import OCTAHEDRON, SQUARE, TETRAHEDRON, THREE


class Preparing(unittest.TestCase):
    def test_what_fits_comes_back(self) -> None:
        for text in (OCTAHEDRON, SQUARE, TETRAHEDRON):
            wanted = (0, b"# coordinates as they stood\n" + text, "")
            self.assertEqual(answer("prepare", [], text), wanted)

    def test_a_polygon_is_cut_and_scaled_by_its_box(self) -> None:
        text = b"v 0 0 0\nv 2.5 0 0\nv 2.5 2.5 0\nv 0 2.5 0\nf 3 4 1 2\n"
        head = "coordinate = 2.500000000000000000 / 20 * place + (1.2500000000000000000 "
        head += "1.2500000000000000000 0.0000000000000000000)\n"
        mesh = "v -10 -10 0\nv 10 -10 0\nv 10 10 0\nv -10 10 0\nf 1 2 3\nf 1 3 4\n"
        near = "positions are within 0.062500000000000000 of the coordinates\n"
        notes = f"prepare: 1 polygon triangulated\nprepare: {head}prepare: {near}"
        self.assertEqual(answer("prepare", ["10"], text), (0, f"# {head}{mesh}".encode(), notes))

    def test_of_two_faces_turned_against_each_other_the_second_is_turned(self) -> None:
        text = (THREE + "v 0 -10 0\nf 1 2 3\nf 1 2 4\n").encode()
        done = answer("prepare", [], text)
        self.assertIn(b"f 1 2 3\nf 1 4 2\n", done.output)
        self.assertEqual(done.error, "prepare: 1 face flipped for consistent winding\n")

    def test_of_a_moebius_strip_no_face_is_turned(self) -> None:
        points = "v 0 0 0\nv 10 0 0\nv 20 0 0\nv 30 0 0\nv 40 0 10\n"
        faces = "f 1 2 3\nf 2 4 3\nf 3 4 5\nf 4 1 5\nf 5 1 2\n"
        done = answer("prepare", [], (points + faces).encode())
        self.assertNotIn("flipped", done.error)
        self.assertIn("prepare: 5 faces in non-orientable patches\n", done.error)
        self.assertIn("prepare: 2 edges cut open\n", done.error)

    def test_of_four_numbers_the_last_is_a_weight(self) -> None:
        faces = "f 1 2 3\n"
        for fourth, told in (("", 0), (" 1", 0), (" 2", 1), (" 1e99", 1), (" w", 0), (" 2 2", 0)):
            text = f"v 0 0 0{fourth}\nv 10 0 0\nv 0 10 0\n{faces}".encode()
            line = f"prepare: {told} weight ignored\n" if told else ""
            self.assertEqual(answer("prepare", [], text).error, line)

    def test_of_vertices_that_are_joined_some_are_by_rounding(self) -> None:
        points = "v 0 0 0\nv 10 0 0\nv 0 10 0\nv 10 0 0\nv 10.1 0 0\n"
        done = answer("prepare", ["10"], (points + "f 1 2 3\nf 1 4 3\nf 1 5 3\n").encode())
        self.assertIn("prepare: 2 vertices welded, 1 of them by rounding\n", done.error)

    def test_what_rounding_did_is_told(self) -> None:
        box = "v 0 0 0\nv 20 0 0\nv 0 20 0\nf 1 2 3\n"
        for ys, told in (
            (("3.49", "3.58", "3.52"), "flipped"),
            (("3.1", "3.1", "3.3"), "made degenerate"),
        ):
            points = "".join(f"v {x} {y} 0\n" for x, y in zip((3, 7, 5), ys))
            done = answer("prepare", ["10"], (box + points + "f 4 5 6\n").encode())
            self.assertIn(f"prepare: 1 face {told} by rounding\n", done.error)
        text = b"v 0 0 0\nv 10 4e-19 0\nv 0 10 0\nf 1 2 3\n"
        line = "prepare: 1 vertex rounded at the 18th decimal\n"
        self.assertEqual(answer("prepare", [], text).error, line)

    def test_of_a_strip_the_lesser_area_is_turned(self) -> None:
        points = "v 0 0 0\nv 0 9 0\nv 9 0 0\nv 9 9 0\nv 18 0 0\n"
        done = answer("prepare", [], (points + "f 1 2 3\nf 2 3 4\nf 3 5 4\n").encode())
        self.assertIn(b"f 1 3 2\nf 2 3 4\nf 3 5 4\n", done.output)
        self.assertEqual(done.error, "prepare: 1 face flipped for consistent winding\n")

    def test_faces_without_area_follow_the_others(self) -> None:
        points = "v 0 0 0\nv 10 0 0\nv 0 10 0\nv 5 0 0\nv 7 0 0\n"
        done = answer("prepare", [], (points + "f 1 2 4\nf 4 2 5\nf 1 2 3\n").encode())
        self.assertIn(b"f 1 4 2\nf 4 5 2\nf 1 2 3\n", done.output)
        flipped = "prepare: 2 faces flipped for consistent winding\n"
        self.assertEqual(done.error, flipped + "prepare: 2 faces of zero area\n")

    def test_a_closed_surface_of_which_a_face_is_turned_looks_outward(self) -> None:
        points = "v 0 0 0\nv 10 0 0\nv 0 10 0\nv 0 0 10\n"
        done = answer("prepare", [], (points + "f 1 2 3\nf 1 2 4\nf 1 4 3\nf 2 3 4\n").encode())
        self.assertIn(b"f 1 3 2\nf 1 2 4\nf 1 4 3\nf 2 3 4\n", done.output)
        self.assertEqual(done.error, "prepare: 1 face flipped for consistent winding\n")

    def test_a_closed_surface_that_is_inside_out_is_told(self) -> None:
        points = "v 0 0 0\nv 10 0 0\nv 0 10 0\nv 0 0 10\n"
        inward = (points + "f 1 2 3\nf 1 4 2\nf 1 3 4\nf 2 4 3\n").encode()
        done = answer("prepare", [], inward)
        self.assertIn(b"f 1 2 3\nf 1 4 2\nf 1 3 4\nf 2 4 3\n", done.output)
        line = "prepare: 1 closed surface facing inward or around a void\n"
        self.assertEqual(done.error, line)

    def test_of_lines_that_go_together_the_first_is_named(self) -> None:
        done = answer("prepare", [], b"v 0 0 0\nv 1 \\\n2 \\\nx\n")
        self.assertEqual(done, (1, b"", "prepare: fault 4 line 2 (a field is no number)\n"))
        done = answer("prepare", [], b"v 0 0 0\nv 1 \\\n2 \\\n")
        self.assertEqual(done, (1, b"", "prepare: fault 2 line 2 (continued, but the text ends)\n"))


if __name__ == "__main__":
    unittest.main()
