"""Tries the model's fronts and views on worked values: python3 tests/test_model_fronts.py"""
import sys
import unittest
from pathlib import Path
from random import Random
from typing import List

from model import answer
from model.bounds import all_bounds
from model.hierarchy import hierarchy_of_run
from model.mesh import distance_up
from model.run import run_to
from model.stream import stream_text
from random_inputs import random_stream, script_line
from random_meshes import random_mesh
from worked import (
    BASE_FRAME,
    FULL_FRAME,
    MIDDLE_FRAME,
    OCTAHEDRON_STREAM,
    SQUARE_BASE,
    SQUARE_FULL,
    SQUARE_STREAM,
    TWO_FANS,
    chain_hierarchy,
    octahedron,
    output,
    refused,
    replies,
    with_word,
)

sys.path.insert(0, str(Path(__file__).resolve().parent.parent / "tools"))

from follow import followed  # noqa: E402


def meshes(stream: bytes, script: List[str]) -> List[str]:
    """The mesh that a follower has after each frame and change, as frames."""
    return ["".join(mesh.lines()) for mesh in followed(replies(stream, script, 6, "live"))]


class Fronts(unittest.TestCase):
    def test_all_records_are_split_in_order(self) -> None:
        lines = ["ok", "ok"] + FULL_FRAME.splitlines()
        self.assertEqual(replies(OCTAHEDRON_STREAM, ["s 0", "s 1", "w", "q", "x"]), lines)

    def test_a_split_waits_for_its_neighbours(self) -> None:
        lines = ["blocked 4"] + BASE_FRAME.splitlines()
        self.assertEqual(replies(OCTAHEDRON_STREAM, ["s 1", "w"]), lines)

    def test_a_collapse_waits_for_later_records(self) -> None:
        script = ["s 0", "s 1", "c 0", "c 1", "c 0", "c 0", "w"]
        moves = ["ok", "ok", "blocked 6", "ok", "ok", "not active"]
        self.assertEqual(replies(OCTAHEDRON_STREAM, script), moves + BASE_FRAME.splitlines())

    def test_a_border_record_is_split_and_collapsed(self) -> None:
        lines = ["ok", "not active", "ok", "not active"]
        self.assertEqual(replies(SQUARE_STREAM, ["s 0", "s 0", "c 0", "c 0"]), lines)

    def test_a_chain_hangs_together(self) -> None:
        stream = stream_text(chain_hierarchy(100), 0)
        counts = b"leaves 102 roots 3 base 1 records 99 faces 100\n"
        self.assertEqual(output("check", stream), counts)
        lines = ["ok", "ok", "not active", "ok", "ok"]
        self.assertEqual(replies(stream, ["s 0", "s 1", "c 0", "c 1", "c 0"], 0), lines)
        last = len(stream) - 4
        self.assertEqual(refused("check", with_word(stream, last, 0)), "28 record 98")

    def test_faults_of_a_script_come_after_the_replies(self) -> None:
        done = answer("vdpm", ["view", "5"], OCTAHEDRON_STREAM + b"s 0\ns 2\nw\n")
        self.assertEqual(done, (1, b"ok\n", "vdpm: fault 31 line 2\n"))
        for line in ("", "c", " w", "s 01", "v 0 0 0 100", "p 0 0 0 0 0 0", "g 1 0", "g 2 1"):
            script = OCTAHEDRON_STREAM + line.encode() + b"\n"
            self.assertEqual(refused("view 5", script), "30 line 1")


class Views(unittest.TestCase):
    def test_bounds_of_the_octahedron(self) -> None:
        h = hierarchy_of_run(octahedron(), run_to(octahedron(), 0))
        bounds = [(one.error, one.radius) for one in all_bounds(h)]
        self.assertEqual(bounds, 2 * [(0, 142)] + 2 * [(71, 213)] + 4 * [(0, 142)])
        self.assertEqual(distance_up((0, 0, 0), (100, 100, 0)), 142)

    def test_what_a_wanted_record_needs_is_split_too(self) -> None:
        near, far = "v 1000 0 0 100 9", "v 1000 0 0 100 20"
        lines = ["settled 2"] + FULL_FRAME.splitlines() + ["settled 0", "settled 2"]
        lines += BASE_FRAME.splitlines()
        self.assertEqual(replies(OCTAHEDRON_STREAM, [near, "w", near, far, "w"], 2), lines)

    def test_a_budget_ends_a_view(self) -> None:
        near, far = "v 1000 0 0 100 9", "v 1000 0 0 100 20"
        lines = ["spent 1 1", "settled 1", "spent 1 1"] + MIDDLE_FRAME.splitlines()
        self.assertEqual(replies(OCTAHEDRON_STREAM, [near, near, far, "w"], 1), lines)
        self.assertEqual(replies(OCTAHEDRON_STREAM, [near], 0), ["spent 0 2"])

    def test_a_plane_counts_with_its_length(self) -> None:
        script = ["v 1000 0 0 100 9 1 0 0 -400", "v 1000 0 0 100 9 2 0 0 -400", "v 0 0 0 100 50"]
        self.assertEqual(
            replies(OCTAHEDRON_STREAM, script + ["w"], 2),
            ["settled 0", "settled 2", "settled 0"] + FULL_FRAME.splitlines(),
        )

    def test_what_is_turned_away_is_not_wanted(self) -> None:
        script = ["v 5 5 1000 1000 1", "w", "v 5 5 -1000 1000 1", "w"]
        lines = ["settled 1"] + SQUARE_FULL.splitlines() + ["settled 1"] + SQUARE_BASE.splitlines()
        self.assertEqual(replies(SQUARE_STREAM, script, 9), lines)

    def test_the_second_tolerance_is_for_outlines(self) -> None:
        script = ["vs 1000 0 0 100 20 9", "vs 1000 0 0 100 20 20"]
        self.assertEqual(replies(OCTAHEDRON_STREAM, script, 2), ["settled 2", "settled 2"])
        script = ["vs 5 5 1000 1000 20 1", "vs 1000 5 0 1000 20 1"]
        self.assertEqual(replies(SQUARE_STREAM, script, 1), ["settled 0", "settled 1"])
        for line in (b"vs 0 0 0 100 9 20", b"vs 0 0 0 100 9"):
            self.assertEqual(refused("view 2", OCTAHEDRON_STREAM + line), "30 line 1")


class Told(unittest.TestCase):
    def test_shapes_are_measured(self) -> None:
        lines = ["shape 4 6 4 loops 0 euler 2", "ok", "shape 5 9 6 loops 0 euler 2", "ok"]
        lines.append("shape 6 12 8 loops 0 euler 2")
        self.assertEqual(replies(OCTAHEDRON_STREAM, ["m", "s 0", "m", "s 1", "m"]), lines)
        lines = ["shape 3 3 1 loops 1 euler 1", "ok", "shape 4 5 2 loops 1 euler 1"]
        self.assertEqual(replies(SQUARE_STREAM, ["m", "s 0", "m"]), lines)

    def test_a_valid_front_may_show_two_fans_at_a_node(self) -> None:
        lines = ["shape 4 7 3 loops 1 euler 0", "ok", "shape 5 9 4 loops 1 euler 0"]
        self.assertEqual(replies(TWO_FANS, ["m", "s 0", "m"]), lines)

    def test_strips_turn_by_the_number_of_the_triangle(self) -> None:
        self.assertEqual(replies(OCTAHEDRON_STREAM, ["t"]), ["t 0 2 3 1 0 2", "strips 1"])
        self.assertEqual(replies(SQUARE_STREAM, ["s 0", "t"]), ["ok", "t 0 3 1 4", "strips 1"])

    def test_a_geomorph_rounds_down(self) -> None:
        lines = replies(OCTAHEDRON_STREAM, ["s 0", "s 1", "g 1 3"])[2:]
        moved = ["v 4 -67 0 33", "v 5 -34 0 66", "v 6 66 33 0", "v 7 33 66 0"]
        self.assertEqual(lines[0], "morph 6 8 1 3")
        self.assertEqual(lines[3:7], moved)
        self.assertEqual(lines[7:], FULL_FRAME.splitlines()[7:])

    def test_a_geomorph_begins_at_the_marked_front(self) -> None:
        lines = ["ok", "ok", "ok", "not finer 0"]
        self.assertEqual(replies(OCTAHEDRON_STREAM, ["s 0", "k", "c 0", "g 0 1"]), lines)
        lines = ["ok", "ok", "morph 5 6 0 1"] + MIDDLE_FRAME.splitlines()[1:]
        self.assertEqual(replies(OCTAHEDRON_STREAM, ["s 0", "k", "g 0 1"]), lines)

    def test_an_elder_is_above_all_parents(self) -> None:
        h = chain_hierarchy(4)
        stream = with_word(stream_text(h, 0), 64, 5)
        lines = replies(stream, ["s 0", "s 1", "s 2", "g 0 1"])
        self.assertIn("v 8 5 0 0", lines)

    def test_a_ray_hits_the_nearest_face(self) -> None:
        script = ["p 1000 10 20 -1 0 0", "p 1000 0 10 -1 0 0", "p 1000 500 0 -1 0 0"]
        lines = ["hit 6 9300000 10000", "hit 0 9100000 10000", "miss", "miss"]
        self.assertEqual(replies(OCTAHEDRON_STREAM, script + ["p 1000 10 20 1 0 0"]), lines)


class Live(unittest.TestCase):
    def test_a_change_has_what_came_and_went(self) -> None:
        lines = ["ok", "change 5 6", "-v 3", "v 4 -100 0 0", "v 5 0 0 100", "f 0 0 2 5"]
        lines += ["f 1 4 2 1", "f 2 0 4 1", "f 4 2 4 5", "f 5 4 0 5", "end", "change 5 6", "end"]
        self.assertEqual(replies(OCTAHEDRON_STREAM, ["s 0", "d", "d"], command="live"), lines)

    def test_a_change_begins_at_the_mark(self) -> None:
        lines = ["ok", "ok", "change 5 6", "end", "ok", "change 4 4", "-f 4", "-f 5", "-v 4"]
        lines += ["-v 5", "v 3 -50 0 50", "f 0 0 2 3", "f 1 3 2 1", "f 2 0 3 1", "end"]
        script = ["s 0", "k", "d", "c 0", "d"]
        self.assertEqual(replies(OCTAHEDRON_STREAM, script, command="live"), lines)

    def test_a_level_has_the_greatest_numbers_shown(self) -> None:
        lines = ["level 4 4 0 71 71", "ok", "level 5 6 1 71 71", "ok", "level 6 8 2 0 0"]
        script = ["l", "s 0", "l", "s 1", "l"]
        self.assertEqual(replies(OCTAHEDRON_STREAM, script, command="live"), lines)

    def test_a_budget_is_set_for_later_views(self) -> None:
        near = "v 1000 0 0 100 9"
        lines = ["spent 0 2", "ok", "spent 1 1", "settled 1"]
        script = [near, "b 1", near, near]
        self.assertEqual(replies(OCTAHEDRON_STREAM, script, 0, "live"), lines)

    def test_a_mesh_that_follows_the_changes_is_that_of_the_frame(self) -> None:
        for seed in range(12):
            rng = Random(f"follow {seed}")
            h, stream = random_stream(rng, random_mesh(rng))
            lines = [line for line in (script_line(rng, h) for _ in range(10)) if line != "w"]
            told = [text for line in lines for text in (line, "d")]
            shown = [text for line in lines for text in (line, "w")]
            self.assertEqual(meshes(stream, ["w", *told]), meshes(stream, ["w", *shown]))

    def test_view_has_none_of_these_lines(self) -> None:
        for line in (b"d", b"l", b"b 1"):
            self.assertEqual(refused("view 2", OCTAHEDRON_STREAM + line), "30 line 1")
        for line in (b"d ", b"b", b"b -1", b"b 01", b"l 0"):
            self.assertEqual(refused("live 2", OCTAHEDRON_STREAM + line), "30 line 1")


if __name__ == "__main__":
    unittest.main()
