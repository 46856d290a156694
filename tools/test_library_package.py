"""Tries python/vdpm as a package, its page, types and installation:
python3 tools/test_library_package.py"""
import contextlib
import doctest
import importlib.util
import io
import os
import subprocess
import sys
import tempfile
import unittest
from pathlib import Path

from tried_library import TOP, take_library

OBJ = TOP / "examples/octahedron.obj"


def setUpModule() -> None:
    take_library()


class Package(unittest.TestCase):
    def test_the_page_says_what_is_answered(self) -> None:
        before = os.getcwd()
        os.chdir(TOP)
        try:
            with contextlib.redirect_stdout(io.StringIO()) as said:
                done = doctest.testfile(str(TOP / "docs/LIBRARY.md"), module_relative=False)
        finally:
            os.chdir(before)
        self.assertEqual(done.failed, 0, said.getvalue())
        self.assertGreater(done.attempted, 5)

    def test_a_caller_is_clean_under_mypy(self) -> None:
        if importlib.util.find_spec("mypy") is None:
            print("LEFT OUT: the types of a caller: there is no mypy")
            self.skipTest("there is no mypy")
        path = {"MYPYPATH": str(TOP / "python")}
        with tempfile.TemporaryDirectory(prefix="mypy-") as room:
            words = [sys.executable, "-m", "mypy", "--strict", "--cache-dir", room]
            words += [str(TOP / "tools/library_callers/typed.py"), str(TOP / "python/vdpm")]
            if importlib.util.find_spec("numpy") is None:
                words.append("--ignore-missing-imports")
            done = subprocess.run(words, env={**os.environ, **path}, capture_output=True, text=True,
                                  check=False)
        self.assertEqual(done.returncode, 0, done.stdout)

    @unittest.skipUnless(importlib.util.find_spec("ensurepip"), "there is no ensurepip")
    def test_pip_installs_it_without_a_network(self) -> None:
        settings = {key: value for key, value in os.environ.items()
                    if key not in ("PYTHONPATH", "VDPM_LIBRARY")}
        with tempfile.TemporaryDirectory(prefix="venv-") as room:
            subprocess.run([sys.executable, "-m", "venv", room], check=True, env=settings)
            python = f"{room}/bin/python"
            words = [python, "-m", "pip", "install", "--quiet", "--no-index", "--no-cache-dir",
                     "--disable-pip-version-check", str(TOP)]
            subprocess.run(words, check=True, env=settings)
            asked = ("import vdpm, sys; it = vdpm.version(); print(it.path.startswith(sys.prefix),"
                     " it.proved, bool(it.sources), vdpm.simplify(sys.stdin.read())[:4])")
            done = subprocess.run([python, "-c", asked], cwd=room, input=OBJ.read_bytes(),
                                  capture_output=True, check=True, env=settings)
            self.assertTrue(list(Path(room).rglob("vdpm/py.typed")))
        self.assertRegex(done.stdout.decode(), r"^True (True|False) True b'VDPM'$")


if __name__ == "__main__":
    unittest.main()
