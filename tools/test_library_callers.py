"""Tries programs that call the library: python3 tools/test_library_callers.py

The header is compiled as each C and C++ that it promises, and against what programs were built with
(abi.c), and the programs of tools/library_callers and examples/library run under the sanitizers and
valgrind, and on threads with little stack.
"""
import math
import os
import re
import shutil
import subprocess
import sys
import tempfile
import unittest
from pathlib import Path
from typing import Iterator, List, Sequence, Tuple

from tried_library import TOP, compiled, take_library

from quick_start.joining import symbols

import vdpm

OCTAHEDRON, TORUS = TOP / "examples/octahedron.obj", TOP / "examples/torus.obj"
STREAM = TOP / "examples/octahedron.vdpm"
CALLERS = TOP / "tools/library_callers"
STRICT = ("-Wall", "-Wextra", "-pedantic", "-Werror", f"-I{TOP}")
SANITIZERS = ("-g", "-fsanitize=address,undefined", "-fno-sanitize-recover=all")
STANDARDS = {
    "c": ("c90", "c99", "c11", "c17"),
    "c++": ("c++98", "c++11", "c++14", "c++17", "c++20"),
}
COMPILERS = {"c": ("gcc", "clang"), "c++": ("g++", "clang++")}
# As the header tells, and more lines than a flight has.
STACK, THREADS, LINES = 128 * 1024, 16, 625
USER = """#include "libvdpm.h"
static vdpm_viewer viewer = VDPM_CLOSED;
int is_open(void);
int is_open(void) { return viewer.open && VDPM_VERSION >= 10000; }
"""
# What a program that was built before would meet wrongly.
KEPT = CALLERS / "abi.c"
CHANGES = (
    ("    uint32_t left;", "    uint64_t left;"), ("VDPM_NO_ROOM = 7", "VDPM_NO_ROOM = 4"),
    ("uint32_t keep_border, vdpm_made", "int32_t keep_border, vdpm_made"),
    ("    uint32_t split; ", "    uint32_t at; "),
)  # fmt: skip
folder = tempfile.TemporaryDirectory(prefix="library-")


def setUpModule() -> None:
    take_library()
    if shutil.which("cc") is None:
        raise unittest.SkipTest("there is no cc")


def tearDownModule() -> None:
    folder.cleanup()


def languages() -> Iterator[Tuple[str, str, str]]:
    """Each language and standard, with a compiler for it that is here."""
    for language, standards in STANDARDS.items():
        for compiler in COMPILERS[language]:
            if shutil.which(compiler):
                yield from ((language, standard, compiler) for standard in standards)


def caller(name: str, *more: str) -> Path:
    """A program of tools/library_callers."""
    archive, made = Path(os.environ["VDPM_LIBRARY"]).with_suffix(".a"), Path(folder.name) / name
    words = ["cc", "-std=gnu99", *STRICT, *more, str(CALLERS / f"{name}.c"), str(archive), "-o",
             str(made)]
    subprocess.run(words, check=True)
    return made


def flight(count: int) -> Iterator[str]:
    """Views from a circle round a model, closer and closer, and one from afar at last."""
    for i in range(count):
        turn, far = 2 * math.pi * i / 20, 60000 - 600 * i
        x, y = round(far * math.cos(turn)), round(far * math.sin(turn))
        yield f"v {x} {y} 20000 1000 {3 + i % 4}"
    yield "v 0 0 9000000 1000 20"


def has_sanitizers() -> bool:
    words = ["cc", *SANITIZERS, "-x", "c", "-", "-o", str(Path(folder.name) / "none")]
    done = subprocess.run(words, input=b"int main(void) { return 0; }\n", capture_output=True,
                          check=False)
    return done.returncode == 0


class Header(unittest.TestCase):
    def assert_clean(self, text: str, standards: Sequence[str] = ()) -> None:
        """A file of C and C++ is clean in these standards, or in each."""
        tried = 0
        for language, standard, compiler in languages():
            if standards and standard not in standards:
                continue
            with self.subTest(f"{compiler} -std={standard}"):
                words = [compiler, f"-std={standard}", *STRICT, "-fsyntax-only", "-x", language,
                         "-"]
                done = subprocess.run(words, input=text, capture_output=True, text=True,
                                      check=False)
                self.assertEqual((done.returncode, done.stderr), (0, ""))
            tried += 1
        self.assertGreater(tried, 0)

    def test_it_is_clean_in_each_language(self) -> None:
        self.assert_clean(USER)

    def test_the_lines_of_the_page_compile(self) -> None:
        page = (TOP / "docs/LIBRARY.md").read_text(encoding="utf-8")
        lines = re.findall(r"^    (?!\$ )(.*)", page[page.index("## From C"):page.index("## Vers")],
                           re.MULTILINE)
        self.assertGreater(len(lines), 6)
        told = "const uint8_t *text, size_t text_length, const uint8_t *bytes, size_t length"
        self.assert_clean("\n".join([
            '#include "libvdpm.h"', f"uint32_t page({told});", f"uint32_t page({told}) {{", *lines,
            "return status; }", ""]), ("c99", "c17", "c++11", "c++20"))

    def test_it_tells_what_programs_were_built_with(self) -> None:
        text = KEPT.read_text(encoding="ascii")
        self.assert_clean(text)
        kept = re.findall(r"^(?:uint32_t|void) (vdpm_\w+)\(", text, re.MULTILINE)
        self.assertEqual(sorted(kept), symbols())

    def test_another_layout_number_or_function_is_refused(self) -> None:
        header, at = (TOP / "libvdpm.h").read_text(encoding="ascii"), Path(folder.name) / "other"
        at.mkdir()
        words = ["cc", "-std=c99", f"-I{at}", "-fsyntax-only", str(KEPT)]
        for before, after in CHANGES:
            with self.subTest(after):
                self.assertEqual(header.count(before), 1)
                (at / "libvdpm.h").write_text(header.replace(before, after), encoding="ascii")
                done = subprocess.run(words, capture_output=True, check=False)
                self.assertEqual(done.returncode, 1)


class Pictures(unittest.TestCase):
    def test_opengl_draws_a_model(self) -> None:
        room = Path(folder.name)
        archive = Path(os.environ["VDPM_LIBRARY"]).with_suffix(".a")
        words = ["cc", "-std=gnu99", *STRICT, str(TOP / "examples/library/draw.c"), str(archive)]
        words += ["-lEGL", "-lGL", "-lm", "-o", str(room / "draw")]
        made = subprocess.run(words, capture_output=True, check=False)
        if b"EGL" in made.stderr or b"lGL" in made.stderr:
            print("LEFT OUT: the picture by OpenGL: EGL and GL aren't here")
            self.skipTest("EGL and GL aren't here")
        self.assertEqual(made.returncode, 0, made.stderr)
        (room / "torus.vdpm").write_bytes(vdpm.simplify(vdpm.prepare(TORUS.read_bytes()).text))
        drawn = subprocess.run([str(room / "draw"), str(room / "torus.vdpm"), "4"],
                               capture_output=True, check=False)
        if b"EGL" in drawn.stderr or b"OpenGL 3.3" in drawn.stderr:
            print("LEFT OUT: the picture by OpenGL: no context for it")
            self.skipTest("no OpenGL 3.3")
        self.assertEqual(drawn.returncode, 0, drawn.stderr)
        head, picture = drawn.stdout.split(b"\n", 1)
        self.assertEqual((head, len(picture)), (b"P6 800 600 255", 3 * 800 * 600))
        ground, at = picture[:3], 3 * (800 * 300 + 400)
        lit = sum(picture[i : i + 3] != ground for i in range(0, len(picture), 3))
        # (a ring, with a hole in the middle)
        self.assertEqual(picture[at : at + 3], ground)
        self.assertTrue(50_000 < lit < 200_000, lit)

    def test_python_draws_a_model(self) -> None:
        made = Path(folder.name) / "octahedron.png"
        words = [sys.executable, str(TOP / "examples/library/render.py"), str(OCTAHEDRON),
                 str(made)]
        done = subprocess.run(words, env={**os.environ, "PYTHONPATH": str(TOP / "python")},
                              capture_output=True, check=False)
        self.assertEqual((done.returncode, done.stderr), (0, b""))
        self.assertEqual(made.read_bytes()[:8], b"\x89PNG\r\n\x1a\n")


class Callers(unittest.TestCase):
    def assert_clean(self, words: List[str], given: bytes = b"") -> None:
        done = subprocess.run(words, input=given, capture_output=True, check=False)
        self.assertEqual((done.returncode, done.stderr), (0, b""), done.stdout)

    def test_no_array_and_no_handle(self) -> None:
        self.assert_clean([str(caller("edges"))])

    def test_sanitizers_find_nothing(self) -> None:
        if not has_sanitizers():
            print("LEFT OUT: callers under sanitizers: cc has none")
            self.skipTest("cc has no sanitizers")
        room, torus = Path(folder.name), TORUS.read_bytes()
        self.assert_clean([str(caller("edges", *SANITIZERS))])
        made = str(compiled("make", room, *SANITIZERS))
        self.assert_clean([made, "6"], torus)
        for name, words, given in (("fly", ["4"], b""), ("script", ["9"], b"s 0\nw\nd\n"),
                                   ("means", ["1"], b"1 2 3 4 5 6")):
            made = str(compiled(name, room, *SANITIZERS))
            self.assert_clean([made, str(STREAM), *words], given)

    def test_a_renderer_keeps_its_buffers_by_slots(self) -> None:
        stream, script = Path(folder.name) / "flown.vdpm", "\n".join(flight(60)) + "\n"
        stream.write_bytes(vdpm.simplify(vdpm.prepare(TORUS.read_bytes()).text))
        more = SANITIZERS if has_sanitizers() else ()
        done = subprocess.run([str(caller("renderer", *more)), str(stream)], capture_output=True,
                              input=script.encode(), check=False)
        self.assertEqual((done.returncode, done.stderr), (0, b""), done.stdout)
        written, whole = (int(number) for number in done.stdout.split(b" of "))
        self.assertTrue(0 < written < whole, done.stdout)

    def test_valgrind_finds_nothing(self) -> None:
        if shutil.which("valgrind") is None:
            print("LEFT OUT: callers under valgrind: there is none")
            self.skipTest("there is no valgrind")
        words = ["valgrind", "-q", "--leak-check=full", "--error-exitcode=9"]
        self.assert_clean([*words, str(caller("edges"))])
        self.assert_clean([*words, str(compiled("fly", Path(folder.name))), str(STREAM), "4"])

    def test_threads_have_viewers_of_their_own_or_one_in_turn(self) -> None:
        made = str(caller("threads", "-pthread"))
        words = [made, str(THREADS), str(STACK), str(LINES)]
        self.assert_clean(words, OCTAHEDRON.read_bytes())
        for model in (TORUS, TOP / "examples/asteroid.obj"):
            self.assert_clean([made, "2", str(STACK), "20"], model.read_bytes())


if __name__ == "__main__":
    unittest.main()
