"""Tries the model of texts, builders and streams on worked values: python3 tests/test_model.py"""
import unittest

from model import answer
from model.fine import FINE, fourth_candidate
from model.mesh import Mesh
from model.run import best_place, border_of, run_to, squares, surface_of
from worked import (
    JOINED_SLIT,
    OCTAHEDRON,
    OCTAHEDRON_STREAM,
    OPEN_SLIT,
    SQUARE,
    SQUARE_STREAM,
    TETRAHEDRON,
    THREE,
    octahedron,
    output,
    refused,
    replies,
    stream_of,
    with_word,
)


class Texts(unittest.TestCase):
    def test_lines_of_a_modelling_program_are_read(self) -> None:
        text = (
            b"# made by hand\r\nmtllib a.mtl\r\no Plane\r\nv 0.000000 0.000000 0.000000\r\n"
            b"v 10.000000 0.000000 -0.000000\r\nv 0.000000 10.000000 0.000000\r\nvt 0.0 0.5\r\n"
            b"vn 0.0 0.0 1.0\r\nusemtl M\r\ns off\r\nf 1/1/1 2/1/1 3/1/1\r\nv 10 10 0 1.0\r\n"
            b"f -2//1 -3//1 -1//1\r\n"
        )
        wanted = b"v 0 0 0\nv 10 0 0\nv 0 10 0\nv 10 10 0\nf 1 2 3\nf 3 2 4\n"
        self.assertEqual(output("canon", text), wanted)

    def test_each_fault_of_a_line_has_its_number(self) -> None:
        cases = {
            "f 1 2 3 1": 8, "v 1.5 0 0": 5, "f 0 1 2": 7, "f 1 2 4": 7, "f 1 2": 3, "f 1 1 2": 10,
            "v 1e0 0 0": 4, "v 1 2 \\": 2, "v 32768 0 0": 6, 65_537 * "#": 1,
        }  # fmt: skip
        for line, number in cases.items():
            self.assertEqual(refused("canon", (THREE + line).encode()), f"{number} line 4")

    def test_decimals_are_kept_exactly(self) -> None:
        text = b"v 1.5 0 0\nv 0 -0.25 0\nv 0 0 3\nf 1 2 3\n"
        canonical = b"v 1.50 0.00 0.00\nv 0.00 -0.25 0.00\nv 0.00 0.00 3.00\nf 1 2 3\n"
        self.assertEqual(output("canon --digits 2", text), canonical)
        self.assertEqual(refused("canon --digits 1", text), "5 line 2")
        words = (2, 2, 3, 3, 1, 0, 150, 0, 0, 1, 1, 0, -25, 0, 1, 2, 0, 0, 300, 1, 3, 0, 1, 2, 1)
        stream = stream_of(*words)
        self.assertEqual(output("build 0 --digits 2", text), stream)
        self.assertEqual(output("expand", stream), canonical)
        self.assertEqual(refused("check", with_word(stream, 8, 0)), "33 digits 0")

    def test_the_range_counts_units(self) -> None:
        text = b"v 327.67 0 -0.000\nv 327.68 0 0\n"
        self.assertEqual(refused("canon --digits 2", text), "6 line 2")

    def test_a_repeated_side_is_told_before_a_broken_fan(self) -> None:
        three = THREE.encode()
        self.assertEqual(refused("canon", three + b"v 0 -10 0\nf 1 2 3\nf 1 2 4\n"), "11 face 2")
        self.assertEqual(refused("canon", three + b"f 1 2 3\nf 1 3 2\n"), "12 vertex 1")
        other = b"v -10 0 0\nv 0 -10 0\nv 0 0 -10\nf 1 5 6\nf 1 6 7\nf 1 7 5\nf 5 7 6\n"
        self.assertEqual(refused("canon", TETRAHEDRON + other), "12 vertex 1")

    def test_words_are_understood_exactly(self) -> None:
        unknown = ["", "view", "view -1", "view 01", "build x", "demo 0", "demo 257", "help"]
        unknown += ["build 0 --digits 5", "build --digits 2", "canon --digits"]
        for words in unknown:
            self.assertEqual(answer("vdpm", words.split(), b"").status, 2)


class Building(unittest.TestCase):
    def test_the_octahedron_is_built_and_comes_back(self) -> None:
        self.assertEqual(output("build", OCTAHEDRON), OCTAHEDRON_STREAM)
        self.assertEqual(output("expand", OCTAHEDRON_STREAM), OCTAHEDRON)

    def test_the_least_pairs_of_the_octahedron(self) -> None:
        first, second = run_to(octahedron(), 0)
        self.assertEqual((first.t, first.u, first.place), (0, 2, (50, 50, 0)))
        self.assertEqual((second.t, second.u, second.place), (1, 4, (-50, 0, 50)))
        surface = surface_of(octahedron())
        self.assertEqual(best_place(surface, 0, 2)[0], 4_000_000_000_000)

    def test_a_border_record_has_one_face(self) -> None:
        self.assertEqual(output("build", SQUARE), SQUARE_STREAM)
        self.assertEqual(output("expand", SQUARE_STREAM), SQUARE)

    def test_ties_go_by_the_numbers_of_the_pair(self) -> None:
        points = [(c, r, 0) for r in range(3) for c in range(3)]
        faces = [(0, 1, 4), (0, 4, 3), (1, 2, 5), (1, 5, 4)]
        faces += [(a + 3, b + 3, c + 3) for a, b, c in faces]
        log = run_to(Mesh(points, faces), 0)
        pairs = [(0, 1), (2, 5), (3, 4), (6, 7), (8, 10), (9, 11)]
        self.assertEqual([(entry.t, entry.u) for entry in log], pairs)
        self.assertEqual([entry.right is None for entry in log], [True, True] + 4 * [False])
        self.assertEqual([entry.left is None for entry in log], 3 * [False] + 3 * [True])

    def test_a_kept_border_leaves_the_pairs_inside(self) -> None:
        points = [(c, r, 0) for r in range(3) for c in range(4)]
        cells = [(4 * r + c, 4 * (r + 1) + c) for r in range(2) for c in range(3)]
        mesh = Mesh(points, [f for a, b in cells for f in ((a, a + 1, b + 1), (a, b + 1, b))])
        border = border_of(mesh)
        self.assertEqual(border, set(range(12)) - {5, 6})
        self.assertEqual([(entry.t, entry.u) for entry in run_to(mesh, 0, border)], [(5, 6)])

    def test_a_tetrahedron_and_a_triangle_have_no_legal_pair(self) -> None:
        counts = b"leaves 4 roots 4 base 4 records 0 faces 4\n"
        self.assertEqual(output("check", output("build", TETRAHEDRON)), counts)
        triangle = (THREE + "v 5 5 5\nf 1 2 3\n").encode()
        counts = b"leaves 4 roots 4 base 1 records 0 faces 1\n"
        self.assertEqual(output("check", output("build", triangle)), counts)

    def test_the_target_ends_the_run(self) -> None:
        counts = b"leaves 6 roots 5 base 6 records 1 faces 8\n"
        self.assertEqual(output("check", output("build 6", OCTAHEDRON)), counts)
        self.assertEqual(len(output("build 6", OCTAHEDRON)), 312)

    def test_the_empty_text_has_the_empty_stream(self) -> None:
        self.assertEqual(output("build", b""), stream_of(1, 0, 0, 0, 0))
        lines = ["frame 0 0", "end", "strips 0"]
        self.assertEqual(replies(output("build", b""), ["w", "t"]), lines)

    def test_planes_are_summed_with_their_lengths(self) -> None:
        planes = surface_of(Mesh([(0, 0, 0), (10, 0, 0), (0, 10, 0)], [(0, 1, 2)])).planes[0]
        self.assertEqual(squares(planes, (3, 4, 5)), 250_000)

    def test_a_demo_has_four_views_of_its_grid(self) -> None:
        lines = output("demo 2", b"").decode().splitlines()
        self.assertEqual(lines[0], "grid 2 vertices 9 faces 8")
        self.assertEqual(lines[2].split("active")[1], lines[4].split("active")[1])


class Simplifying(unittest.TestCase):
    def test_planes_round_a_vertex_weigh_by_area_and_hold_the_border(self) -> None:
        surface = surface_of(Mesh([(0, 0, 0), (4, 0, 0), (0, 4, 0)], [(0, 1, 2)]), FINE)
        normals = [(0, 0, 128), (0, -704, 0), (-704, 0, 0), (2, 0, 0), (0, 2, 0), (0, 0, 2)]
        self.assertEqual(surface.planes[0], [(n, 0) for n in normals])
        twice = [((0, 0, 512), 0), ((0, -2816, 0), 0), ((-2816, 0, 0), 0)]
        self.assertEqual(surface.taken[0], twice)

    def test_a_fourth_candidate_is_where_planes_meet(self) -> None:
        t, u = (0, 0, 0), (4, 0, 4)
        meeting = [((1, 0, 0), -2), ((0, 1, 0), 1), ((3, 0, 1), -9)]
        self.assertEqual(fourth_candidate(meeting, t, u), (2, -1, 3))
        self.assertIsNone(fourth_candidate([meeting[0], meeting[2]], t, u))
        for height, place in ((9, (2, 9, 2)), (10, None)):
            planes = [((1, 0, 0), -2), ((0, 1, 0), -height), ((0, 0, 1), -2)]
            self.assertEqual(fourth_candidate(planes, t, u), place)

    def test_the_least_pairs_of_the_octahedron_by_these_planes(self) -> None:
        log = run_to(octahedron(), 0, (), FINE)
        pairs = [(0, 2, (150, 150, 0)), (1, 5, (-155, 63, -113))]
        self.assertEqual([(entry.t, entry.u, entry.place) for entry in log], pairs)


class Streams(unittest.TestCase):
    def test_a_wrong_neighbour_is_named_by_the_last_record(self) -> None:
        for command in ("view 5", "check", "expand"):
            self.assertEqual(refused(command, with_word(OCTAHEDRON_STREAM, 320, 1)), "28 record 1")
            self.assertEqual(refused(command, with_word(OCTAHEDRON_STREAM, 228, 1)), "28 record 0")
            own = with_word(OCTAHEDRON_STREAM, 228, 13)
            self.assertEqual(refused(command, own), "26 record 0")

    def test_a_cut_text_is_told_with_its_length(self) -> None:
        for length in range(352):
            fault = refused("check", OCTAHEDRON_STREAM[:length])
            self.assertEqual(fault, f"22 byte {length}")

    def test_each_unit_is_judged(self) -> None:
        cases = [
            (4, 7, "21 version 7"), (20, 3, "23"), (36, 0, "24 root 0"), (96, 3, "24 root 3"),
            (80, 1, "27 input 2"), (108, 0, "25 face 0"), (132, 4, "27 input 5"),
            (168, 0, "26 record 0"), (208, 0, "26 record 0"), (224, 9, "27 input 10"),
        ]  # fmt: skip
        for at, word, fault in cases:
            self.assertEqual(refused("check", with_word(OCTAHEDRON_STREAM, at, word)), fault)
        self.assertEqual(refused("check", b"X" + OCTAHEDRON_STREAM[1:]), "20")
        self.assertEqual(refused("check", OCTAHEDRON_STREAM + b"w"), "29")

    def test_the_inner_sides_of_a_record_have_to_meet(self) -> None:
        counts = b"leaves 6 roots 4 base 0 records 2 faces 3\n"
        self.assertEqual(output("check", JOINED_SLIT), counts)
        self.assertEqual(refused("check", OPEN_SLIT), "28 record 0")

    def test_counts_are_judged_before_what_follows(self) -> None:
        many = stream_of(1, 1_048_576, 1, 1_048_576, 1_048_575)
        self.assertEqual(refused("check", many), "22 byte 24")
        self.assertEqual(refused("check", stream_of(1, 1_048_577, 1, 0, 1_048_576)), "23")


if __name__ == "__main__":
    unittest.main()
