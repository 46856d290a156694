"""Tries the WebAssembly module and the class over it, in node: python3 tools/wasm/test_module.py

The module that VDPM_WASM names is tried. Where the variable isn't set the module is built once, in
a folder that goes again, of the package that RUST_PACKAGE names or of one that is made; where no
compiler for it or no node is here, that is said.
"""
import json
import os
import re
import shutil
import subprocess
import sys
import tempfile
import unittest
from pathlib import Path

HERE = Path(__file__).resolve().parent
TOP = HERE.parent.parent
sys.path[:0] = [str(TOP / "tools"), str(HERE)]

from plain_rust import webassembly  # noqa: E402
from plain_rust.package import package, write  # noqa: E402
import three_page  # noqa: E402
from told_cases import all_cases  # noqa: E402

LEAST_NODE = 18
# As many cases as there were when this was written, or more.
LEAST_CASES = 954
room = tempfile.TemporaryDirectory(prefix="wasm-")
module = Path(os.environ.get("VDPM_WASM") or Path(room.name) / "vdpm.wasm").resolve()


def left_out(reason: str) -> unittest.SkipTest:
    print(f"LEFT OUT: the WebAssembly module, {reason}", flush=True)
    return unittest.SkipTest(reason)


def setUpModule() -> None:
    if shutil.which("node") is None:
        raise left_out("there is no node")
    version = subprocess.run(["node", "--version"], capture_output=True, check=True).stdout.decode()
    found = re.match(r"v(\d+)", version)
    if not found or int(found[1]) < LEAST_NODE:
        raise left_out(f"node has version {version.strip()}, and {LEAST_NODE} is needed")
    if not module.is_file():
        build()


def build() -> None:
    """Makes the module."""
    given = os.environ.get("RUST_PACKAGE")
    folder = Path(given) if given else Path(room.name) / "rust"
    if not given:
        write(package(TOP), folder)
    try:
        webassembly.build(folder, module)
    except webassembly.NotBuilt as why:
        if str(why) == webassembly.INSTALL:
            raise left_out("there is no compiler for it") from why
        raise


def tearDownModule() -> None:
    room.cleanup()


class Module(unittest.TestCase):
    def test_cases_have_the_same_bytes_and_faults(self) -> None:
        told = Path(room.name) / "cases.json"
        told.write_text(json.dumps(list(all_cases())), encoding="utf-8")
        words = ["node", str(HERE / "cases.mjs"), str(module), str(told)]
        done = subprocess.run(words, capture_output=True, check=False)
        said = done.stdout.decode() + done.stderr.decode()
        last = re.search(r"^(\d+) passed, 0 failed$", said, re.MULTILINE)
        self.assertTrue(last and done.returncode == 0, said)
        assert last
        self.assertGreaterEqual(int(last[1]), LEAST_CASES)

    def test_methods_of_the_class(self) -> None:
        settings = {**os.environ, "VDPM_WASM": str(module)}
        words = ["node", "--test", str(HERE / "methods.mjs")]
        done = subprocess.run(words, capture_output=True, env=settings, check=False)
        self.assertEqual(done.returncode, 0, done.stdout.decode() + done.stderr.decode())

    def test_three_js_draws_a_model(self) -> None:
        reason = three_page.missing()
        if reason:
            print(f"LEFT OUT: the example with three.js, {reason}", flush=True)
            self.skipTest(reason)
        folder = Path(room.name) / "three"
        folder.mkdir()
        told = three_page.drawn(module, folder, folder / "picture.png")
        # (what is far off is shown by fewer faces)
        self.assertTrue(0 < told["far"] < told["near"], told)
        self.assertEqual(told["shown"], told["near"])
        self.assertTrue(0.1 < told["lit"] < 0.8, told)


if __name__ == "__main__":
    unittest.main()
