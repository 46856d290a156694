"""Tries what the library makes on the cases of tests/cases: python3 tools/test_library_making.py

The library (tools/tried_library.py) is called from Python and from C. What it makes is compared
byte for byte with what a case stores of the program, and a fault with the one that the case tells.
"""
import ctypes
import hashlib
import shutil
import subprocess
import tempfile
import unittest
from pathlib import Path
from typing import Any, Dict, List, Optional

from tried_library import TOP, Asked, cases_of, compiled, runs_that_fail, take_library

import vdpm
from vdpm.library import DONE, NOT_SO, Handle, Progress, Scale, Told, load

OCTAHEDRON = TOP / "examples" / "octahedron.obj"
RING = TOP / "examples" / "ring_scan.obj"
folder = tempfile.TemporaryDirectory(prefix="library-")


def setUpModule() -> None:
    take_library()


def tearDownModule() -> None:
    folder.cleanup()


def asked_for(words: List[str]) -> Dict[str, Any]:
    """What the words of `build` and `simplify` ask for, which are understood."""
    told: Dict[str, Any] = {"allow_empty": True}
    left = iter(words)
    for word in left:
        if word == "--digits":
            told["digits"] = int(next(left))
        elif word == "--keep-border":
            told["keep_border"] = True
        else:
            told["faces"] = int(word)
    return told


def text_prepared(text: bytes, size: Optional[int]) -> bytes:
    return vdpm.prepare(text, size).text


class Made(unittest.TestCase):
    def is_made(self, asked: Asked, made: bytes) -> None:
        if asked.output is not None:
            self.assertEqual(made, asked.output)
        else:
            self.assertEqual(hashlib.sha256(made).hexdigest(), asked.digest)

    def made_as_told(self, asked: Asked, function: Any, told: Dict[str, Any]) -> None:
        """The same bytes, or the same fault."""
        if asked.fault is None:
            self.is_made(asked, function(asked.given, **told))
            return
        with self.assertRaises(vdpm.TextFault) as raised:
            function(asked.given, **told)
        self.assertEqual((raised.exception.number, raised.exception.place), asked.fault)
        self.assertTrue(raised.exception.cure)

    def test_streams_are_those_of_build(self) -> None:
        tried = 0
        for asked in cases_of("vdpm", "build"):
            with self.subTest(asked.name):
                self.made_as_told(asked, vdpm.build, asked_for(asked.words[1:]))
            tried += 1
        self.assertGreater(tried, 20)

    def test_streams_are_those_of_simplify(self) -> None:
        tried = 0
        for asked in cases_of("simplify"):
            with self.subTest(asked.name):
                self.made_as_told(asked, vdpm.simplify, asked_for(asked.words))
            tried += 1
        self.assertGreater(tried, 5)

    def test_texts_and_notes_are_those_of_prepare(self) -> None:
        tried = 0
        for asked in cases_of("prepare"):
            if len(asked.words) > 1 or not all(it.isdigit() for it in asked.words):
                continue
            size = int(asked.words[0]) if asked.words else None
            if size is not None and not 1 <= size <= 32767:
                continue
            with self.subTest(asked.name):
                self.made_as_told(asked, text_prepared, {"size": size})
                if asked.fault is None:
                    notes = vdpm.prepare(asked.given, size).notes
                    self.assertEqual("".join(f"{it}\n" for it in notes).encode(), asked.errors)
            tried += 1
        self.assertGreater(tried, 30)

    def test_what_is_made_opens(self) -> None:
        text = OCTAHEDRON.read_text(encoding="ascii")
        with vdpm.Session(vdpm.simplify(text, digits=2)) as session:
            self.assertEqual(session.sizes().digits, 2)

    def test_numbers_out_of_range_are_refused(self) -> None:
        for size in (0, -1, 32768):
            with self.subTest(size), self.assertRaises(ValueError):
                vdpm.prepare(OCTAHEDRON.read_bytes(), size)
        for faces, digits in ((0, 5), (0, -1), (-1, 0), (2 ** 32, 0)):
            with self.subTest(faces=faces, digits=digits), self.assertRaises(ValueError):
                vdpm.build(OCTAHEDRON.read_bytes(), faces, digits)


class InSteps(unittest.TestCase):
    def test_steps_make_the_stream_that_is_made_at_once(self) -> None:
        text = vdpm.prepare(RING.read_bytes(), size=6000).text
        for faces, border in ((0, False), (0, True), (200, False), (10 ** 6, True)):
            stream = vdpm.simplify(text, faces, keep_border=border)
            for most in (1, 7, 2 ** 32 - 1):
                with self.subTest(faces=faces, most=most):
                    self.assertEqual(self.in_steps(text, faces, border, most), stream)

    def in_steps(self, text: bytes, faces: int, border: bool, most: int) -> bytes:
        """The stream, where each step told what it did."""
        with vdpm.Simplifying(text, faces, keep_border=border) as run:
            before = vdpm.Done(0, 2 ** 32, 0, False)
            for done in run.steps(most):
                collapses = done.collapses - before.collapses
                self.assertTrue(collapses == most or done.ended and collapses < most)
                self.assertLessEqual(done.faces_left, min(before.faces_left, done.faces))
                self.assertFalse(before.ended)
                before = done
            self.assertTrue(before.ended)
            self.assertEqual((run.more(9), run.more(0)), (before, before))
            return run.stream()

    def test_texts_are_refused_as_at_once(self) -> None:
        tried = 0
        for asked in cases_of("simplify"):
            if asked.fault is not None:
                with self.subTest(asked.name), self.assertRaises(vdpm.TextFault) as raised:
                    vdpm.Simplifying(asked.given, **asked_for(asked.words))
                self.assertEqual((raised.exception.number, raised.exception.place), asked.fault)
                tried += 1
        self.assertGreater(tried, 2)

    def test_a_stream_comes_at_the_end_alone(self) -> None:
        run = vdpm.Simplifying(OCTAHEDRON.read_bytes())
        for most, ended in ((0, False), (1, False), (1, True)):
            with self.assertRaises(vdpm.NotOpen):
                run.stream()
            self.assertEqual(run.more(most).ended, ended)
        self.assertEqual(run.stream(), vdpm.simplify(OCTAHEDRON.read_bytes()))
        with self.assertRaises(vdpm.NotOpen):
            run.stream()
        with self.assertRaises(vdpm.NotOpen):
            run.more(1)
        run.close()

    def test_steps_of_none_and_numbers_out_of_range_are_refused(self) -> None:
        with vdpm.Simplifying(OCTAHEDRON.read_bytes()) as run:
            for most in (0, -1, 2 ** 32):
                with self.assertRaises(ValueError):
                    next(run.steps(most))
        with self.assertRaises(ValueError):
            vdpm.Simplifying(OCTAHEDRON.read_bytes(), digits=5)

    def test_handles(self) -> None:
        library, run, made, fault = load(), Handle(None, 0), Handle(None, 0), Told()
        text, progress = OCTAHEDRON.read_bytes(), Progress()
        self.assertEqual(library.vdpm_simplify_more(run, 1, progress), NOT_SO)
        self.assertEqual(library.vdpm_simplify_end(run, made), NOT_SO)
        words = (text, len(text), 0, 0, 0, run, fault)
        self.assertEqual(library.vdpm_simplify_begin(*words), DONE)
        self.assertEqual(library.vdpm_simplify_begin(*words), NOT_SO)
        self.assertEqual(library.vdpm_simplify_more(run, 9, progress), DONE)
        self.assertEqual(library.vdpm_build(text, len(text), 0, 0, made, fault), DONE)
        self.assertEqual(library.vdpm_simplify_end(run, made), NOT_SO)
        library.vdpm_made_close(made)
        self.assertEqual(library.vdpm_simplify_end(run, made), DONE)
        self.assertEqual((run.open, made.open), (0, 1))
        library.vdpm_made_close(made)
        library.vdpm_simplify_close(run)


class Scales(unittest.TestCase):
    def scale_of(self, text: bytes) -> Scale:
        library, made, fault, scale = load(), Handle(None, 0), Told(), Scale()
        self.assertEqual(library.vdpm_made_scale(made, scale), NOT_SO)
        self.assertEqual(library.vdpm_prepare(text, len(text), 0, made, fault), DONE)
        self.assertEqual(library.vdpm_made_scale(made, scale), DONE)
        library.vdpm_made_close(made)
        return scale

    def test_the_numbers_are_those_of_the_line(self) -> None:
        for x, y, z, low in (("2.5", "0", "1e3", "-7.25"), ("-1.00000000000000001", "3", "0", "-4"),
                             ("-99999999999999.5", "7", "8", "-5e13")):
            text = f"v {x} {y} {z}\nv 0 0 0\nv 0 {low} 0\nf 1 2 3\n".encode()
            scale, told = self.scale_of(text), vdpm.prepare(text)
            with self.subTest(x):
                self.assertEqual(scale.extent.value(18) / scale.steps, told.scale)
                middle = tuple(scale.middle[axis].value(19) for axis in range(3))
                self.assertEqual(middle, told.middle)

    def test_points_on_the_grid_have_none(self) -> None:
        scale = self.scale_of(OCTAHEDRON.read_bytes())
        self.assertEqual((scale.steps, scale.extent.value(18)), (0, 0))


class Handles(unittest.TestCase):
    def test_a_handle_has_its_bytes_until_it_is_closed(self) -> None:
        library, made, fault = load(), Handle(None, 0), Told()
        text = OCTAHEDRON.read_bytes()
        length, notes = ctypes.c_size_t(), ctypes.c_size_t()
        self.assertEqual(library.vdpm_made_length(made, length, notes), NOT_SO)
        words = (text, len(text), 0, 0, made, fault)
        self.assertEqual(library.vdpm_build(*words), DONE)
        self.assertEqual(library.vdpm_build(*words), NOT_SO)
        self.assertEqual(library.vdpm_made_length(made, length, notes), DONE)
        self.assertEqual((length.value, notes.value), (len(vdpm.build(text)), 0))
        library.vdpm_made_close(made)
        library.vdpm_made_close(made)
        self.assertEqual(library.vdpm_made_length(made, length, notes), NOT_SO)


@unittest.skipUnless(shutil.which("cc"), "there is no cc")
class FromC(unittest.TestCase):
    def test_a_stream_from_c(self) -> None:
        words = [str(compiled("make", Path(folder.name))), "6"]
        done = subprocess.run(words, input=OCTAHEDRON.read_bytes(), capture_output=True, check=True)
        self.assertEqual(done.stdout, vdpm.simplify(OCTAHEDRON.read_bytes(), 6))

    def test_coordinates_from_c(self) -> None:
        scale = str(compiled("scale", Path(folder.name)))
        for text in (RING.read_bytes(), b"v 0 0 -7\nv 9 0 0\nv 0 9 0\nf 1 2 3\n"):
            made = vdpm.prepare(text)
            done = subprocess.run([scale], input=text, capture_output=True, check=True)
            rows = [line.split()[1:] for line in made.text.splitlines() if line[:1] == b"v"]
            self.assertEqual(len(done.stdout.splitlines()), len(rows))
            for told, row in zip(done.stdout.splitlines(), rows):
                for number, place, middle in zip(told.split(), row, made.middle):
                    exact = made.scale * int(place) + middle
                    self.assertAlmostEqual(float(number), float(exact), delta=1e-9)
        text = b"v 0 0 0\nf 1 2 3\n"
        done = subprocess.run([scale], input=text, capture_output=True, check=False)
        self.assertEqual((done.returncode, done.stdout), (1, b""))

    def test_each_allocation_failing_in_turn(self) -> None:
        text = OCTAHEDRON.read_bytes()
        runs = list(runs_that_fail("make", Path(folder.name), ["6"], text))
        whole = (0, vdpm.simplify(text, 6))
        for done in runs:
            # (some memory can be done without)
            wants = b"status 5" in done.stderr
            self.assertEqual((done.returncode, done.stdout), (1, b"") if wants else whole)
        self.assertEqual((runs[-1].returncode, runs[-1].stdout), whole)
        self.assertGreater(len(runs), 20)

    @unittest.skipUnless(shutil.which("valgrind"), "there is no valgrind")
    def test_valgrind_finds_nothing(self) -> None:
        words = ["valgrind", "-q", "--leak-check=full", "--error-exitcode=9"]
        words += [str(compiled("make", Path(folder.name))), "6"]
        text = OCTAHEDRON.read_bytes()
        done = subprocess.run(words, input=text, capture_output=True, check=False)
        self.assertEqual((done.returncode, done.stderr), (0, b""))


if __name__ == "__main__":
    unittest.main()
