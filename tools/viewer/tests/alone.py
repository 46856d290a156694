"""The page that needs no server, opened from a file: what is dropped on it, what it has in it, and
what it refuses."""
import json
import os
import shutil
import struct
import subprocess
import sys
import unittest
from functools import lru_cache
from pathlib import Path
from typing import Any, List, Optional

from browser import found
from viewer.alone import page_of
from viewer.main import programs_of
from viewer.model import Model, with_packed_stream
from viewer.module import NoModule, module_of
from viewer.program import replies_to

from .common import EXAMPLES, STREAM, TOP, Case, model, program
from .pages import browser

SHOWN = "alone.times && alone.coming === null && globalThis.viewer?.isSettled"
FAULTY = "!document.getElementById('fault').hidden"
SQUARE = b"v 0 0 0 1 0 0\nv 9.123456789 0 0 0 1 0\nv 9 9.5 0 0 0 1\nf 1 2 3\n"


PLY_JS = Path(__file__).resolve().parent.parent / "alone_page" / "ply.js"
COLOURED = """import { readFileSync } from "node:fs";
import { colouredPly } from %s;
const found = colouredPly(new Uint8Array(readFileSync(0)));
console.log(JSON.stringify(found && [...found]));"""


@unittest.skipUnless(shutil.which("node"), "no node")
class Ply(unittest.TestCase):
    """The places and colours of vertices."""

    def found(self, data: bytes) -> Any:
        words = ["node", "--input-type=module", "-e", COLOURED % json.dumps(str(PLY_JS))]
        done = subprocess.run(words, input=data, capture_output=True, check=True)
        return json.loads(done.stdout)

    def head(self, form: str, kind: str, names: str = "red green blue", more: str = "") -> bytes:
        lines = ["ply", f"format {form} 1.0", "comment of a test", "element vertex 2"]
        lines += [f"property float {axis}" for axis in "zxy"]
        lines += [f"property {kind} {name}" for name in names.split()] + ["property char odd"]
        lines += [more] if more else []
        lines += ["element face 1", "property list uchar int vertex_index", "end_header", ""]
        return "\n".join(lines).encode()

    def test_binary_of_both_orders_and_ascii(self) -> None:
        wanted = [1, 2, 3, 0, 0.2, 1, 4, 5, 6, 1, 0, 0]
        for kind, letter, most in (("uchar", "B", 255), ("ushort", "H", 65535), ("float", "f", 1)):
            colours = [0, 0.2 * most, most], [most, 0, 0]
            numbers = colours if letter == "f" else [[round(n) for n in one] for one in colours]
            rows = [((3.0, 1.0, 2.0), numbers[0]), ((6.0, 4.0, 5.0), numbers[1])]
            for form, order in (("binary_little_endian", "<"), ("binary_big_endian", ">")):
                data = b"".join(struct.pack(f"{order}3f3{letter}b", *a, *b, 7) for a, b in rows)
                found = self.found(self.head(form, kind) + data + b"\3")
                self.assertEqual([round(n, 4) for n in found], wanted, (form, kind))
            text = "\n".join(" ".join(map(str, (*a, *b, 7))) for a, b in rows) + "\n3 0 1 0\n"
            found = self.found(self.head("ascii", kind, "r g b") + text.encode())
            self.assertEqual([round(n, 4) for n in found], wanted, kind)

    def test_others_have_none(self) -> None:
        for data in (
            self.head("ascii", "uchar", "red green"), b"ply\n", b"ply\nend_header\n", b"v 0 0 0\n",
            self.head("ascii", "uchar", more="property list uchar int many"),
            self.head("ascii", "colour"),
        ):
            self.assertIsNone(self.found(data))


@lru_cache(maxsize=None)
def module() -> bytes:
    """The engine of the pages: that of VDPM_WASM, or else the one of these sources."""
    given = os.environ.get("VDPM_WASM")
    try:
        return module_of(Path(given) if given else None)
    except NoModule as why:
        raise unittest.SkipTest(str(why)) from why


def looked_at(name: str) -> Model:
    """The model of an example as a page has it in it."""
    return with_packed_stream(model(name), programs_of(program()))


@unittest.skipUnless(found(), "no Chromium")
class Page(Case):
    def setUp(self) -> None:
        self.page = browser()
        self.page.scheme("dark")

    def open(self, shown: Optional[Model] = None) -> None:
        path = self.written("page.html", page_of(module(), shown).encode())
        self.page.begin(f"{path.as_uri()}?sharpness=0.2")
        self.page.until("globalThis.alone !== undefined")

    def value(self, text: str) -> Any:
        return self.page.run(text)

    def text(self, name: str) -> str:
        return str(self.value(f"document.getElementById('{name}').textContent"))

    def drop(self, path: Path) -> None:
        data = {"items": [], "files": [str(path)], "dragOperationsMask": 1}
        for kind in ("dragEnter", "dragOver", "drop"):
            self.page.call("Input.dispatchDragEvent", type=kind, x=300, y=200, data=data)

    def choose(self, path: Path) -> None:
        root = self.page.call("DOM.getDocument")["root"]["nodeId"]
        file = self.page.call("DOM.querySelector", nodeId=root, selector="#file")["nodeId"]
        self.page.call("DOM.setFileInputFiles", nodeId=file, files=[str(path)])

    def shows(self, name: str) -> None:
        """The model is shown, as fine as the program shows it, and nothing was complained of."""
        self.page.until(f"({SHOWN}) || {FAULTY}")
        self.assertTrue(self.value("document.getElementById('fault').hidden"), self.text("fault"))
        self.assertEqual(self.text("name"), name)
        self.assertTrue(self.value("document.getElementById('welcome').hidden"))
        self.assertEqual(self.page.errors(), [])

    def refuses(self, reason: str, cure: str = "What to do") -> None:
        self.page.until(FAULTY)
        self.assertIn(reason, self.text("fault-reason"))
        self.assertIn(cure, self.text("fault-cure"))
        self.value("document.getElementById('again').click()")


class Showing(Page):
    def test_an_obj_that_is_dropped_is_shown_as_the_program_shows_it(self) -> None:
        self.open()
        self.assertFalse(self.value("document.getElementById('welcome').hidden"))
        self.drop(EXAMPLES / "asteroid.obj")
        self.shows("asteroid.obj")
        line = self.value("viewer.views.asked")
        stream = model("asteroid.obj").stream
        told = replies_to(program(), stream, f"{line}\nm\n".encode(), command="live")
        self.assertEqual(int(told.split()[5]), self.value("viewer.shown.faceCount"))
        self.assertIn("compiled without their proofs", self.text("notice"))
        views = [f"vd {100 * n - 5000} -{9000 - 50 * n} 3000 1000 {1 + n % 9}" for n in range(100)]
        script = "".join(f"{view}\nm\n" for view in views)
        ours = self.value(f"viewer.work.ask({{ task: 'ask', script: {script!r} }})")["replies"]
        first = f"{line}\n{script}".encode()
        theirs = replies_to(program(), stream, first, command="live").decode().splitlines()[1:]
        self.assertEqual([" ".join(words) for words in ours], theirs)

    def test_one_model_makes_way_for_another(self) -> None:
        self.open()
        self.choose(EXAMPLES / "octahedron.obj")
        self.shows("octahedron.obj")
        self.drop(self.written("square.obj", SQUARE))
        self.page.until("document.title === 'square.obj'")
        self.shows("square.obj")
        self.assertEqual(self.value("viewer.set.colour"), "own")
        self.assertIn("rounded and repaired by prepare", self.text("notice"))

    def test_a_stream_that_is_dropped_is_shown_packed_or_not(self) -> None:
        self.open()
        self.drop(STREAM)
        self.shows("octahedron.vdpm")
        self.value("document.getElementById('save-packed').click()")
        packed = self.page.downloaded("octahedron.vdpz")
        self.assertEqual(looked_at("octahedron.vdpm").stream, packed)
        self.drop(self.written("again.vdpz", packed))
        self.page.until("document.title === 'again.vdpz'")
        self.shows("again.vdpz")
        self.assertEqual(self.value("viewer.hierarchy.faces"), 8)

    def test_scans_are_prepared(self) -> None:
        self.open()
        corners = ("0 0 0", "9.5 0 0", "9.5 9.25 0", "0 9 0.125")
        head = "ply\nformat ascii 1.0\nelement vertex 4\n"
        head += "".join(f"property float {axis}\n" for axis in "xyz")
        head += "".join(f"property uchar {part}\n" for part in ("red", "green", "blue"))
        head += "element face 2\nproperty list uchar int vertex_indices\nend_header\n"
        rows = [*(f"{corner} 250 9 9" for corner in corners), "3 0 1 2", "3 0 2 3", ""]
        facets = "".join(
            "facet normal 0 0 1\nouter loop\n"
            + "".join(f"vertex {corners[at]}\n" for at in face) + "endloop\nendfacet\n"
            for face in ((0, 1, 2), (0, 2, 3))
        )
        for name, text, said in (
            ("scan.ply", head + "\n".join(rows), "own"),
            ("part.stl", f"solid part\n{facets}endsolid part\n", "height"),
        ):
            self.drop(self.written(name, text.encode()))
            self.page.until(f"document.title === {name!r} || {FAULTY}")
            self.shows(name)
            self.assertEqual(self.value("viewer.hierarchy.faces"), 2)
            self.assertIn("prepare", self.text("notice"))
            self.assertNotIn("Not shown", self.text("notice"))
            self.assertEqual(self.value("viewer.set.colour"), said)

    def test_the_sample_is_built(self) -> None:
        self.open()
        self.value("document.getElementById('sample').click()")
        self.page.until("!document.getElementById('doing').hidden")
        self.value("document.getElementById('cancel').click()")
        self.assertFalse(self.value("document.getElementById('welcome').hidden"))

    def test_a_model_that_the_page_has_in_it(self) -> None:
        ring = looked_at("ring_scan.obj")
        self.open(ring)
        self.shows("ring_scan.obj")
        self.assertEqual(self.value("viewer.hierarchy.faces"), ring.faces)
        assert ring.scale is not None
        self.assertEqual(self.value("viewer.about.scale.unit"), ring.scale.unit)

    def test_a_page_that_the_page_saves_shows_the_same(self) -> None:
        self.open()
        self.drop(EXAMPLES / "ring_scan.obj")
        self.shows("ring_scan.obj")
        self.page.key("ArrowLeft")
        self.page.until(SHOWN)
        asked = self.value("viewer.views.asked")
        self.value("document.getElementById('save-page').click()")
        saved = self.written("saved.html", self.page.downloaded("ring_scan.html"))
        self.page.go("about:blank")
        self.page.go(f"{saved.as_uri()}?sharpness=0.2")
        self.page.until("globalThis.alone !== undefined")
        self.shows("ring_scan.obj")
        self.assertEqual(self.value("viewer.views.asked"), asked)
        self.assertIn("rounded and repaired by prepare", self.text("notice"))

    def test_it_asks_for_nothing_and_the_browser_refuses_what_would(self) -> None:
        self.open()
        refused = self.value(
            "Promise.all([fetch('http://127.0.0.1:1/').catch(() => 1),"
            " new Promise((told) => addEventListener('securitypolicyviolation', told))])"
            ".then(([, { effectiveDirective }]) => effectiveDirective)"
        )
        self.assertEqual(refused, "connect-src")
        self.assertEqual(self.value("performance.getEntriesByType('resource').length"), 0)


class Refusing(Page):
    def test_files_that_are_not_shown_are_told_with_a_way_out(self) -> None:
        self.open()
        cases = [
            ("bad.obj", b"v 0 0 0\nv 1 0 0\nv 0 x 0\nf 1 2 3\n", "Line 3 has a field", ""),
            ("far.obj", b"v 0 0 0\nf 1 2 3\n", "Line 2 names vertex 0, or one that isn't", ""),
            ("none.obj", b"v 0 0 0\n", "no triangles", "no point cloud"),
            ("cut.ply", b"ply\nformat ascii 1.0\n", "The file ends early", "copy it again"),
            ("odd.ply", b"ply\nformat ascii 1.0\nmade by\n", "line or byte 3", ""),
            ("flat.stl", b" " * 80 + b"\1\0\0\0" + bytes(50), "no triangles", "no point cloud"),
            ("a.glb", b"glTF\2\0\0\0", "This is a glTF file", "export it as OBJ"),
            ("noise", b"\0\1\2\3", "This is no text", "export it as OBJ"),
            ("cut.vdpm", STREAM.read_bytes()[:100], "fault 22", ""),
            ("cut.vdpz", looked_at("octahedron.vdpm").stream[:40], "fault 35", "copy it again"),
        ]
        for name, data, reason, cure in cases:
            with self.subTest(name):
                self.drop(self.written(name, data))
                self.refuses(reason, cure)
        self.drop(STREAM)
        self.shows("octahedron.vdpm")
        self.drop(self.written("bad.obj", b"f 1 2\n"))
        self.refuses("fewer than three fields", "")
        self.assertEqual(self.text("name"), "octahedron.vdpm")  # which still is shown


class Writing(Case):
    def written_by(self, words: List[str]) -> "subprocess.CompletedProcess[str]":
        viewer = [sys.executable, str(TOP / "viewer"), "--program", str(program())]
        return subprocess.run([*viewer, *words], capture_output=True, text=True, check=False)

    def test_the_command_writes_one_file(self) -> None:
        file = self.written("engine.wasm", module())
        done = self.written_by(["--page", "--module", str(file)])
        self.assertEqual(done.returncode, 0, done.stderr)
        self.assertTrue(done.stdout.startswith("<!doctype html>"))
        self.assertIn("default-src 'none'", done.stdout)
        self.assertEqual(done.stdout, page_of(module()))
        for word in (' src="', "<link rel=\"stylesheet", "@import", "not proved"):
            self.assertNotIn(word, done.stdout.replace('"not proved on this machine"', ""))

    def test_what_is_no_module_is_told(self) -> None:
        older = self.written("older.wasm", module().replace(b"vdpm_unpack", b"vdpm_before"))
        for words, said in (
            (["--page", "--module", str(older)], "is an older module"),
            (["--page", "--module", str(STREAM)], "is no WebAssembly module"),
            (["--page", "--module", "nowhere.wasm"], "can't be read: No such file"),
            ([], "a model is needed"),
        ):
            done = self.written_by(words)
            self.assertNotEqual(done.returncode, 0)
            self.assertIn(said, done.stderr)
