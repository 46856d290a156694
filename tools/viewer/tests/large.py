"""Height fields as models, and files of more faces than one mesh has, which become worlds."""
import contextlib
import io
import os
import pty
import select
import signal
import struct
import subprocess
import sys
import unittest.mock
from pathlib import Path
from typing import List, Tuple

from lods.shown import grid_of
from viewer.fields import Steps
from viewer.large import faces_of, shown_for
from viewer.main import model_kept, programs_of
from viewer.model import model_of
from viewer.program import ProgramEnded
from worlds.form import read_world

from .common import EXAMPLES, STREAM, TOP, Case, program

Place = Tuple[float, float, float]
GRID = b"ncols 3\nnrows 2\nxllcenter 500\nyllcenter 20\ncellsize 10\n1 2 3\n4 5 6.5\n"
PICTURE = b"P5\n# a field\n3 2\n255\n\0\1\2\3\4\5"
LONGEST = 60  # seconds for what a terminal shows
HEAD = b"ply\nformat ascii 1.0\nelement vertex 3\nproperty float x\nproperty float y\n"
PLY = HEAD + b"property float z\nelement face 9\nproperty list uchar int vertex_index\nend_header\n"


class Fields(Case):
    def places_of(self, path: Path, steps: Steps) -> List[Place]:
        """Where the points of a field's model stand in its own coordinates, in order."""
        built = model_of(path, programs_of(program()), False, steps)
        self.assertEqual((built.faces, built.prepared), (4, False))
        assert built.scale is not None
        done = subprocess.run([str(program()), "expand"], input=built.stream, capture_output=True,
                              check=True)
        unit, middle = built.scale
        rows = [line.split()[1:] for line in done.stdout.splitlines() if line[:1] == b"v"]
        places = ((start + unit * float(part) for start, part in zip(middle, row)) for row in rows)
        return sorted((round(x, 2), round(y, 2), round(z, 2)) for x, y, z in places)

    def test_a_grid_stands_in_its_own_coordinates(self) -> None:
        self.assertEqual(self.places_of(self.written("field.asc", GRID), Steps()), [
            (500, 20, 4), (500, 30, 1), (510, 20, 5), (510, 30, 2), (520, 20, 6.5), (520, 30, 3),
        ])

    def test_a_picture_has_the_steps_that_are_asked_for(self) -> None:
        self.assertEqual(self.places_of(self.written("field.pgm", PICTURE), Steps(2.0, 0.5)), [
            (0, 0, 1.5), (0, 2, 0), (2, 0, 2), (2, 2, 0.5), (4, 0, 2.5), (4, 2, 1),
        ])

    def test_what_was_kept_is_of_the_same_steps(self) -> None:
        place, path = self.folder(), self.written("field.pgm", PICTURE)
        with unittest.mock.patch.dict(os.environ, {"XDG_CACHE_HOME": str(place)}):
            scales = [
                model_kept(path, programs_of(program()), False, False, Steps(spacing)).scale
                for spacing in (1.0, 64.0, 1.0)
            ]
        self.assertEqual(scales[0], scales[2])
        self.assertNotEqual(scales[0], scales[1])

    def test_a_fault_of_a_field_is_told(self) -> None:
        for name, data, said in (
            ("a.asc", GRID[:-4], "^2 rows of 3 heights are 6, and the grid has 5"),
            ("a.asc", b"ncols 3\n", "doesn't tell `nrows`"), ("a.pgm", b"P2\n", "no binary PGM"),
        ):
            with self.assertRaisesRegex(ProgramEnded, said):
                model_of(self.written(name, data), programs_of(program()))

    def test_a_text_that_was_scaled_leads_back(self) -> None:
        head = b"# coordinate = 2.5 / 10 * place + (1 2 3)\n"
        text = head + (EXAMPLES / "torus.obj").read_bytes()
        scale = model_of(self.written("scaled.obj", text), programs_of(program())).scale
        self.assertEqual(scale, (0.25, (1.0, 2.0, 3.0)))
        assert scale is not None
        self.assertEqual(grid_of(0, scale).unit, 0.25)


class Large(Case):
    def setUp(self) -> None:
        smaller = unittest.mock.patch("viewer.large.MOST_FACES", 5)
        smaller.start()
        self.addCleanup(smaller.stop)
        before = Path.cwd()
        self.addCleanup(os.chdir, before)
        os.chdir(self.folder())

    def shown(self, path: Path, is_world: bool = False, said: str = "") -> Path:
        """What is shown for a file; `said` is typed at a terminal, if there is one."""
        out, typed = io.StringIO(), io.StringIO(said)
        out.isatty = typed.isatty = lambda: bool(said)  # type: ignore[method-assign]
        with contextlib.ExitStack() as stack:
            stack.enter_context(contextlib.redirect_stderr(out))
            stack.enter_context(unittest.mock.patch.object(sys, "stdin", typed))
            try:
                return shown_for(path, is_world, programs_of(program()), Steps())
            finally:
                self.told = out.getvalue()

    def test_faces_are_counted_before_anything_is_built(self) -> None:
        octahedron = (EXAMPLES / "octahedron.obj").read_bytes()
        for name, data, faces in (
            ("a.obj", octahedron, 8), ("a.ply", PLY, 9), ("a.asc", GRID, 4), ("a.pgm", PICTURE, 4),
            ("a.stl", bytes(80) + struct.pack("<I", 7) + bytes(350), 7), ("a.vdpm", b"VDPM", 0),
            ("a.png", b"\x89PNG", 0), ("a.obj", b"", 0), ("a.tif", b"II*\0", 0), ("b.asc", b"", 0),
        ):
            self.assertEqual(faces_of(self.written(name, data)), faces, name)

    def test_a_file_is_refused_without_a_terminal(self) -> None:
        path = self.written("a.ply", PLY)
        with self.assertRaisesRegex(ProgramEnded, "9 faces, and one mesh has at most 5: ./viewer"):
            self.shown(path)
        with self.assertRaises(ProgramEnded):
            self.shown(path, said="n\n")
        self.assertIn("cut it into tiles, in a-world? [y/N]", self.told)
        self.assertEqual(self.shown(STREAM), STREAM)
        self.assertEqual(self.told, "")

    def test_it_becomes_a_world_that_is_made_once(self) -> None:
        path = self.written("torus.obj", (EXAMPLES / "torus.obj").read_bytes())
        shown = self.shown(path, said="y\n")
        self.assertEqual(shown, Path("torus-world/world.json"))
        world = read_world(shown)
        self.assertTrue(all(world.stream(tile).is_file() for tile in world.tiles.values()))
        self.assertEqual(self.shown(shown), shown)
        with unittest.mock.patch("viewer.large.make_world", side_effect=AssertionError):
            self.assertEqual(self.shown(path, is_world=True), shown)

    def test_the_command_says_so(self) -> None:
        path = self.written("broken.obj", b"v 0 0 x\nf 1 1 1\n")
        words = [sys.executable, str(TOP / "viewer"), "--program", str(program()), "--world", path]
        done = subprocess.run(words, capture_output=True, text=True, check=False)
        self.assertEqual((done.returncode, done.stdout), (1, ""))
        self.assertIn("broken.obj: line 1: a coordinate is no number", done.stderr)


class Asking(Case):
    """The command at a terminal."""

    def shown_by(self, terminal: io.FileIO) -> bytes:
        """What a terminal shows next."""
        self.assertTrue(select.select([terminal], [], [], LONGEST)[0], "nothing more is shown")
        return terminal.read(1024) or b""

    def answered(self, typed: bytes) -> Tuple[int, str]:
        """How the command ends, and all that the terminal shows, where this is typed once it is
        asked whether a file of too many faces is to be cut."""
        path = self.written("many.ply", PLY.replace(b"face 9", b"face 2000000"))
        words = [sys.executable, str(TOP / "viewer"), "--program", str(program()), path.name]
        child, line = pty.fork()
        if child == 0:
            os.chdir(path.parent)
            # (who runs these tests in the background may have it ignored)
            signal.signal(signal.SIGINT, signal.SIG_DFL)
            os.execv(words[0], words)
        seen = b""
        with os.fdopen(line, "r+b", buffering=0) as terminal:
            while not seen.endswith(b"[y/N] "):
                seen += self.shown_by(terminal)
            terminal.write(typed)
            with contextlib.suppress(OSError):  # (which is how a terminal ends)
                while True:
                    seen += self.shown_by(terminal)
        status = os.waitpid(child, 0)[1]
        return os.WEXITSTATUS(status) if os.WIFEXITED(status) else -1, seen.decode()

    def test_only_yes_cuts(self) -> None:
        asked = "many.ply has 2,000,000 faces, and one mesh has at most 1,048,576\r\n" \
                "viewer: cut it into tiles, in many-world? [y/N] "
        for typed in (b"n\n", b"\n", b"\4", b"yess\n"):
            with self.subTest(typed=typed):
                status, seen = self.answered(typed)
                self.assertIn(asked, seen)
                self.assertIn("./viewer --world", seen.partition(asked)[2])
                self.assertEqual(status, 1)
        for typed in (b"y\n", b"YES\n"):
            with self.subTest(typed=typed):
                status, seen = self.answered(typed)
                self.assertNotIn("./viewer --world", seen)
                self.assertIn("before vertex 1 of 3", seen.partition(asked)[2])
                self.assertEqual(status, 1)

    def test_control_c_ends_it_there(self) -> None:
        status, seen = self.answered(b"\3")
        self.assertEqual(status, 130)
        self.assertTrue(seen.endswith("[y/N] ^C"), seen)


if __name__ == "__main__":
    unittest.main()
