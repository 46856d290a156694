"""Tries the tools of this folder on stored replies: python3 tools/test_frames.py"""
import argparse
import subprocess
import sys
import tempfile
import unittest
import xml.etree.ElementTree as xml
from pathlib import Path
from typing import Iterable, List, Set, Tuple

from drawing import FarCamera, painted
from flight import LARGEST, planes
from frames import FrameFault, all_frames, file_names, read_frames
from frames_to_obj import coordinate, obj_lines
from frames_to_svg import eyes_of
from mesh_files.obj import read_lines
from mesh_files.reading import polygons_of
from vectors import dot, minus

TOOLS = Path(__file__).resolve().parent
TOP = TOOLS.parent
REPLIES = TOP / "crates" / "vdpm" / "stdout"
GLIDE = TOP / "examples" / "octahedron_glide.replies"
TRIANGLE = ["frame 3 1", "v 0 0 0 0", "v 1 9 0 0", "v 2 0 9 0", "f 0 0 1 2", "end"]


def lines_of(path: Path) -> List[str]:
    return path.read_text().splitlines(keepends=True)


def triangles(text: Iterable[str]) -> Set[Tuple[Tuple[float, ...], ...]]:
    """The faces of an OBJ text by their points, each from its least corner on."""
    soup = read_lines(line.encode("ascii") for line in text)
    numbers = iter(soup.points)
    points = list(zip(numbers, numbers, numbers))
    faces: Set[Tuple[Tuple[float, ...], ...]] = set()
    for named in polygons_of(soup):
        corners = [points[corner] for corner in named]
        least = corners.index(min(corners))
        faces.add(tuple(corners[least:] + corners[:least]))
    return faces


def run(tool: str, words: List[str], text: str) -> "subprocess.CompletedProcess[str]":
    command = [sys.executable, str(TOOLS / tool), *words]
    return subprocess.run(command, input=text, capture_output=True, text=True)


class Reading(unittest.TestCase):
    def test_frames_are_found_between_other_replies(self) -> None:
        [frame] = read_frames(lines_of(REPLIES))
        self.assertEqual((len(frame.points), len(frame.faces), frame.step), (6, 8, None))
        self.assertEqual(frame.nodes, [0, 1, 4, 5, 6, 7])

    def test_steps_of_a_geomorph_are_found(self) -> None:
        steps = [frame.step for frame in read_frames(lines_of(GLIDE))]
        self.assertEqual(steps, [(0, 2), (1, 2), (2, 2)])

    def test_faults_are_named_with_their_line(self) -> None:
        cases = [
            (TRIANGLE[:3], "line 3: the text ends within a frame"),
            (["frame 3"] + TRIANGLE[1:], "line 1: `frame V F` was to come"),
            (TRIANGLE[:2] + ["v 1 9 0"] + TRIANGLE[3:], "line 3: `v NODE X Y Z` was to come"),
            (TRIANGLE[:2] + ["v 0 9 0 0"] + TRIANGLE[3:], "line 3: node 0 is there twice"),
            (TRIANGLE[:4] + ["f 0 0 1 7", "end"], "line 5: face 0 has a corner at node 7"),
            (
                TRIANGLE[:5] + ["f 1 0 2 1", "end"],
                "line 6: `end` was to come, and `f 1 0 2 1` came",
            ),
            (["ok"], "line 1: no frame stands in this text"),
        ]
        for text, said in cases:
            with self.assertRaises(FrameFault) as caught:
                all_frames(text)
            self.assertTrue(str(caught.exception).startswith(said), str(caught.exception))


class WritingObj(unittest.TestCase):
    def test_the_full_front_is_the_input(self) -> None:
        [frame] = read_frames(lines_of(REPLIES))
        octahedron = lines_of(TOP / "examples" / "octahedron.obj")
        self.assertEqual(triangles(obj_lines(frame)), triangles(octahedron))
        self.assertEqual(triangles(obj_lines(frame, names=True)), triangles(obj_lines(frame)))

    def test_decimals_are_exact(self) -> None:
        cases = [(-25, 2, "-0.25"), (0, 1, "0.0"), (32767, 4, "3.2767"), (-7, 0, "-7")]
        for units, digits, text in cases + [(100, 2, "1.00")]:
            self.assertEqual(coordinate(units, digits), text)

    def test_a_file_a_frame_is_written(self) -> None:
        with tempfile.TemporaryDirectory() as folder:
            done = run("frames_to_obj.py", [f"{folder}/glide", "--digits", "2"], GLIDE.read_text())
            self.assertEqual(done.returncode, 0, done.stderr)
            names = sorted(path.name for path in Path(folder).iterdir())
            self.assertEqual(names, ["glide-1.obj", "glide-2.obj", "glide-3.obj"])
            self.assertIn("v -0.50 0.00 0.50\n", (Path(folder) / "glide-1.obj").read_text())

    def test_coordinates_of_the_file_that_was_prepared(self) -> None:
        with tempfile.TemporaryDirectory() as folder:
            mesh = Path(folder) / "mesh.obj"
            for first, written in (
                ("# coordinate = 5.0 / 2 * place + (1.25 -3.0 0.0)", "v -123.75 -3.0 125.0\n"),
                ("# coordinates as they stood", "v -50 0 50\n"),
                ("v 1 2 3", None),
            ):
                mesh.write_text(f"{first}\nv 0 0 0\n", encoding="ascii")
                words = [f"{folder}/glide", "--scale", str(mesh)]
                done = run("frames_to_obj.py", words, GLIDE.read_text())
                with self.subTest(first):
                    if written is None:
                        self.assertEqual(done.returncode, 2)
                        self.assertIn("doesn't begin as what `prepare` writes", done.stderr)
                    else:
                        self.assertEqual(done.returncode, 0, done.stderr)
                        self.assertIn(written, (Path(folder) / "glide-1.obj").read_text())


class Drawing(unittest.TestCase):
    def test_only_faces_that_are_turned_to_the_eye_are_drawn(self) -> None:
        frames = list(read_frames(lines_of(GLIDE)))
        for frame, seen, all_faces in zip(frames, (2, 4, 4), (4, 8, 8)):
            camera = FarCamera((4, -2, 1), (0, 0, 1), frame.points, 100)
            self.assertEqual(len(painted(frame, camera, (0, 0, 1), False)), seen)
            self.assertEqual(len(painted(frame, camera, (0, 0, 1), True)), all_faces)

    def test_the_nearest_face_is_painted_last(self) -> None:
        near = ["v 3 0 0 5", "v 4 9 0 5", "v 5 0 9 5"]
        ends = ["f 0 3 4 5", "f 1 0 1 2", "end"]
        [frame] = read_frames(["frame 6 2"] + near + TRIANGLE[1:4] + ends)
        camera = FarCamera((0, 0, 1), (0, 1, 0), frame.points, 100)
        faces = painted(frame, camera, (0, 0, 1), False)
        self.assertEqual([sum(corner[2] for corner in face[2]) for face in faces], [0, 15])

    def test_the_picture_is_svg_and_holds_all_points(self) -> None:
        with tempfile.TemporaryDirectory() as folder:
            words = [f"{folder}/p", "--from", "4", "-2", "1", "--width", "300"]
            done = run("frames_to_svg.py", words, REPLIES.read_text())
            self.assertEqual(done.returncode, 0, done.stderr)
            root = xml.parse(f"{folder}/p-1.svg").getroot()
        self.assertEqual(root.get("width"), "300")
        self.assertEqual(len(root.findall(".//{http://www.w3.org/2000/svg}path")), 4)
        [frame] = read_frames(lines_of(REPLIES))
        camera = FarCamera((4, -2, 1), (0, 0, 1), frame.points, 300)
        for x, y, _ in map(camera.place, frame.points):
            self.assertTrue(0 < x < 300 and 0 < y < camera.height)

    def test_frames_are_drawn_from_the_eyes_of_their_script(self) -> None:
        script = "v 3 4 5 1000 2\nw\nk\nvs 6 7 8 900 2 1\nm\ng 0 2\ng 1 2\nq\nw\n"
        second = ((6, 7, 8), 900)
        self.assertEqual(eyes_of(script.splitlines()), [((3, 4, 5), 1000), second, second])
        for faulty in (["w\n"], ["v 3 4\n", "w\n"]):
            with self.assertRaises(FrameFault):
                eyes_of(faulty)

    def test_a_fault_has_status_1_and_is_said(self) -> None:
        for tool in ("frames_to_obj.py", "frames_to_svg.py"):
            done = run(tool, ["unused"], "frame 1 0\n")
            self.assertEqual((done.returncode, done.stdout), (1, ""))
            self.assertIn("line 1: the text ends within a frame", done.stderr)

    def test_names_are_as_wide_as_the_last_one(self) -> None:
        self.assertEqual(file_names("a", "svg", 10)[::9], ["a-01.svg", "a-10.svg"])


class Flying(unittest.TestCase):
    ASKED = argparse.Namespace(at=(0, 0, 0), up=(0, 0, 1), focal=1000, width=800, height=600)

    def test_planes_have_the_picture_inside(self) -> None:
        eye = (-9000, -7000, 3000)
        for a, b, c, d in planes(eye, self.ASKED):
            self.assertTrue(max(abs(a), abs(b), abs(c)) <= LARGEST and abs(d) <= 2**42)
            self.assertTrue(d > 0, "the place that is looked at is inside")
            self.assertEqual(dot((a, b, c), eye) + d, 0)
            behind = tuple(2 * e for e in eye)
            self.assertTrue(dot((a, b, c), minus(behind, (0, 0, 0))) + d < 0)

    def test_a_view_and_a_frame_are_written_for_each_eye(self) -> None:
        done = run("flight.py", ["--at", "0", "0", "0", "--outline", "1"], "9 0 0\n0 9 0\n")
        words = [line.split()[0] for line in done.stdout.splitlines()]
        self.assertEqual(words, ["vs", "w", "vs", "w"])
        self.assertEqual(len(done.stdout.splitlines()[0].split()), 7 + 4 * 4)
        self.assertEqual(run("flight.py", ["--at", "0", "0", "0"], "9 0\n").returncode, 1)


if __name__ == "__main__":
    unittest.main()
