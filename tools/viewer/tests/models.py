"""From a file to a model: streams, OBJ files, those that have to be prepared, and colours."""
import os
import struct
import subprocess
import sys
import unittest.mock
from pathlib import Path

from viewer import kept, progress
from viewer.colours import PLAIN, coloured_vertices, packed
from viewer.hierarchy import mean_colours, nodes_of
from viewer.main import model_kept, programs_of
from viewer.model import Model, Programs, model_of, scale_of, with_packed_stream
from viewer.program import UNPROVED, ProgramEnded, is_notice, said_last

from .common import EXAMPLES, STREAM, TOP, Case, model, program

SQUARE = b"v 0 0 0 1 0 0\nv 90 0 0 0 1 0\nv 90 90 0 0 0 1\nv 0 90 0 1 1 1\nf 1 2 3\nf 1 3 4\n"


def looked_at(path: Path) -> Model:
    return model_of(path, programs_of(program()))


class Files(Case):
    def test_a_stream_is_taken_as_it_is(self) -> None:
        octahedron = model("octahedron.vdpm")
        self.assertEqual(octahedron.stream, STREAM.read_bytes())
        self.assertEqual((octahedron.records, octahedron.faces, octahedron.prepared), (2, 8, False))

    def test_a_packed_stream_is_unpacked(self) -> None:
        octahedron = model("octahedron.vdpm")
        packed = with_packed_stream(octahedron, programs_of(program())).stream
        again = looked_at(self.written("octahedron.vdpm", packed))
        self.assertEqual(again, octahedron)
        self.assertLess(3 * len(packed), len(octahedron.stream))

    def test_an_obj_is_built_with_the_decimals_that_it_has(self) -> None:
        self.assertEqual(model("octahedron.obj").faces, 8)
        asteroid = model("asteroid.obj")
        self.assertEqual((asteroid.faces, asteroid.prepared), (6480, False))
        words = [str(programs_of(program()).simplify), "0", "--digits", "1"]
        text = (EXAMPLES / "asteroid.obj").read_bytes()
        done = subprocess.run(words, input=text, capture_output=True, check=True)
        self.assertEqual(asteroid.stream, done.stdout)
        self.assertEqual(asteroid.stream[4:12], bytes([2, 0, 0, 0, 1, 0, 0, 0]))

    def test_what_is_not_shown_of_a_fit_obj_is_told(self) -> None:
        text = b"mtllib a.mtl\n" + (EXAMPLES / "octahedron.obj").read_bytes() + b"vt 0 0\n"
        for more, notes in ((b"", ()), (b"usemtl a\n", ("materials ignored",))):
            made = looked_at(self.written("a.obj", text + more))
            self.assertEqual(made.notes, ("texture coordinates ignored", *notes))
            self.assertFalse(made.prepared)

    def test_an_obj_that_is_not_fit_is_prepared(self) -> None:
        ring = model("ring_scan.obj")
        self.assertEqual((ring.faces, ring.prepared), (576, True))
        assert ring.scale is not None
        self.assertAlmostEqual(ring.scale.unit, 1.2 / 65534)

    def test_a_mesh_that_stays_as_it_stood_has_no_scale(self) -> None:
        self.assertIsNone(scale_of(b"# coordinates as they stood\nv 1 2 3\n"))

    def test_faults_are_told_with_place_and_cure(self) -> None:
        stream = STREAM.read_bytes()
        cases = [
            (stream[:100], "fault 22 byte 100", "copy the file again"),
            (stream + b"w\n", "fault 29", "The stream"),
            (b"VDPK\1\0", "pack: fault 35", "copy the file again"),
            (b"v 0 0 0\nv 1 0 0\nv 0 1 0\nf 1 2 9\n",
             "prepare: fault 7 line 4 (there is no such vertex)", "isn't read yet"),
        ]
        for data, reason, cure in cases:
            with self.assertRaises(ProgramEnded) as caught:
                looked_at(self.written("model", data))
            self.assertIn(reason, caught.exception.reason)
            self.assertIn(cure, caught.exception.cure)

    def test_nothing_to_look_at_is_told(self) -> None:
        with self.assertRaisesRegex(ProgramEnded, "looks like a PNG picture"):
            looked_at(self.written("picture.png", b"\x89PNG\r\n"))
        for text, said in ((b"words\n", "no faces"), (b"", "it is empty"), (b"\1", "is no text")):
            with self.assertRaisesRegex(ProgramEnded, said):
                looked_at(self.written("words.txt", text))

    def test_a_fault_of_another_kind_of_file_has_its_byte(self) -> None:
        corners = (0, 0, 0, 1, 0, 0, 0, 1e20, 0)
        data = bytes(80) + struct.pack("<I12fH", 1, 0, 0, 1, *corners, 0)
        with self.assertRaisesRegex(ProgramEnded, "fault 24 byte 124 .*: scale the mesh"):
            looked_at(self.written("far.stl", data))

    def test_a_program_that_is_not_proved_says_so(self) -> None:
        notice = "vdpm: not proved on this machine yet, run-time checks are on; ./prove proves it"
        text = f"#!/bin/sh\necho '{notice}' >&2\nexec '{program()}' \"$@\"\n"
        fake = self.written("vdpm", text.encode(), runs=True)
        fakes = Programs(fake, fake, fake, fake, fake)
        self.assertFalse(model_of(STREAM, fakes).proved)
        with self.assertRaises(ProgramEnded) as caught:
            model_of(self.written("short", STREAM.read_bytes()[:50]), fakes)
        self.assertIn("fault 22", caught.exception.reason)

    def test_notices_are_told_from_what_a_program_says(self) -> None:
        notices = [
            "vdpm: building anew from the sources, without a proof: about a minute",
            "vdpm: it is being built already; waiting for that", f"vdpm{UNPROVED} yet",
        ]
        for notice in notices:
            self.assertTrue(is_notice(notice), notice)
            self.assertEqual(said_last(f"vdpm: fault 29\n{notice}\n".encode()), "vdpm: fault 29")
            self.assertEqual(said_last(notice.encode()), "")
        self.assertFalse(is_notice("vdpm: out of memory"))

    def test_a_program_that_cannot_be_built_is_not_taken_for_a_refusal(self) -> None:
        text = b"#!/bin/sh\necho 'vdpm: not built, so nothing was run' >&2\nexit 1\n"
        fake = self.written("vdpm", text, runs=True)
        with self.assertRaisesRegex(ProgramEnded, "status 1: vdpm: not built, so nothing was run"):
            model_of(EXAMPLES / "octahedron.obj", Programs(fake, fake, fake, fake, fake))

    def test_the_command_says_what_is_wrong(self) -> None:
        words = [sys.executable, str(TOP / "viewer"), "--program", str(program()), "nowhere.obj"]
        done = subprocess.run(words, capture_output=True, text=True, check=False)
        self.assertEqual((done.returncode, done.stdout), (1, ""))
        self.assertIn("viewer: nowhere.obj can't be read: No such file", done.stderr)


class Keeping(Case):
    """What was built once is taken again."""

    def setUp(self) -> None:
        place = self.folder()
        with_place = unittest.mock.patch.dict(os.environ, {"XDG_CACHE_HOME": str(place)})
        with_place.start()
        self.addCleanup(with_place.stop)
        self.programs = programs_of(program())

    def had(self, path: Path, fresh: bool = False) -> Model:
        return model_kept(path, self.programs, fresh)

    def test_a_second_look_is_at_the_same_model(self) -> None:
        path = self.written("square.obj", SQUARE.replace(b"90", b"9.123456789"))
        built = self.had(path)
        none = unittest.mock.patch("viewer.main.model_of", side_effect=AssertionError)
        with none:
            self.assertEqual(self.had(path), built)
            with self.assertRaises(AssertionError):
                self.had(path, fresh=True)
            path.write_bytes(SQUARE)
            with self.assertRaises(AssertionError):
                self.had(path)
        [file] = kept.folder().iterdir()
        file.write_bytes(file.read_bytes()[:9])
        path.write_bytes(SQUARE.replace(b"90", b"9.123456789"))
        self.assertEqual(self.had(path), built)

    def test_other_programs_build_anew_and_streams_are_not_kept(self) -> None:
        text = SQUARE
        others = self.programs._replace(simplify=self.written("simplify", b"other", runs=True))
        mine, theirs = kept.name_for(text, self.programs), kept.name_for(text, others)
        self.assertNotEqual(mine, theirs)
        self.had(STREAM)
        self.assertFalse(kept.folder().exists())

    def test_what_was_looked_at_longest_ago_goes(self) -> None:
        one = Model("one", b"-" * 400, "counts", True)
        with unittest.mock.patch.object(kept, "MOST_BYTES", 1500):
            for number, key in enumerate("abcd"):
                self.assertTrue(kept.keep(key, one))
                os.utime(kept.folder() / key, (number, number))
        self.assertEqual(sorted(path.name for path in kept.folder().iterdir()), ["c", "d"])


class Colours(Case):
    def test_lines_with_six_numbers_have_colours(self) -> None:
        found = coloured_vertices(SQUARE)
        assert found is not None
        self.assertEqual(packed(found), bytes([255, 0, 0, 0, 255, 0, 0, 0, 255, 255, 255, 255]))
        mixed = coloured_vertices(b"v 1 2 3 # 4 5 6\nv 0 0 0 200 100 0\n")
        assert mixed is not None
        self.assertEqual(packed(mixed), bytes([*PLAIN, 200, 100, 0]))
        self.assertIsNone(coloured_vertices(b"v 1 2 3\nv 1 2 3 1\nvn 1 2 3 4 5 6\n"))

    def test_a_built_mesh_has_them_by_number(self) -> None:
        square = looked_at(self.written("square.obj", SQUARE))
        assert square.colours is not None
        self.assertEqual(square.colours[:3], bytes([255, 0, 0]))

    def test_a_prepared_mesh_has_them_by_place(self) -> None:
        # The same square in other units, with a vertex that no face names and one twice.
        text = SQUARE.replace(b"90", b"9.123456789").replace(b"f 1 3 4", b"f 5 3 4")
        text = text.replace(b"f 1 2 3", b"v 0 0 0 0.5 0.5 0.5\nv 5 5 5 0 0 0\nf 1 2 3")
        square = looked_at(self.written("square.obj", text))
        self.assertTrue(square.prepared)
        wanted = bytes([191, 64, 64, 0, 255, 0, 0, 0, 255, 255, 255, 255])
        self.assertEqual(square.colours, wanted)

    def test_a_node_has_the_mean_of_its_vertices(self) -> None:
        square = looked_at(self.written("square.obj", SQUARE))
        nodes = nodes_of(square.stream)
        means = mean_colours(nodes, square.colours)
        assert means is not None and square.colours is not None
        for node, vertex in enumerate(nodes.vertices):
            if vertex:
                self.assertEqual(bytes(means[node]), square.colours[3 * vertex - 3:3 * vertex])
        octahedron = nodes_of((EXAMPLES / "octahedron.vdpm").read_bytes())
        grey = mean_colours(octahedron, bytes([10, 20, 30] * 6))
        self.assertEqual(set(grey or []), {(10, 20, 30)})
        self.assertEqual(max(octahedron.depths), 1)


class Telling(Case):
    """How far a model is, by a clock of the test's own."""

    def test_what_is_left_is_reckoned_by_the_steps_before(self) -> None:
        now = 0.0
        with unittest.mock.patch.object(progress.time, "monotonic", lambda: now):
            told = progress.Progress("a.obj")
            told.begins("reading")
            self.assertEqual((told.told()["share"], told.told()["left"]), (None, None))
            told.faces = 1_000_000
            now += 1.3
            told.begins("building")
            self.assertAlmostEqual(number(told.told()["left"]), 12.1, delta=0.1)
            now += 5
            self.assertAlmostEqual(number(told.told()["left"]), 7.1, delta=0.1)
            early = number(told.told()["share"])
            now += 21  # longer than was reckoned, so that nothing is said of what is left
            self.assertIsNone(told.told()["left"])
            late = number(told.told()["share"])
            self.assertTrue(0.2 < early < late < 1)
            told.begins("checking")  # which takes longer too, as what was before it
            self.assertAlmostEqual(number(told.told()["left"]), 5.1, delta=0.1)

    def test_a_program_that_is_built_says_nothing_of_speed(self) -> None:
        now = 0.0
        with unittest.mock.patch.object(progress.time, "monotonic", lambda: now):
            told = progress.Progress("a.obj")
            told.faces = 1_000_000
            told.begins("reading")
            told.waits()
            now += 100
            self.assertIsNone(told.told()["left"])
            told.begins("building")
            self.assertAlmostEqual(number(told.told()["left"]), 12.1, delta=0.1)


def number(told: object) -> float:
    assert isinstance(told, float)
    return told
