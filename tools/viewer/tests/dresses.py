"""The textures of files that are dropped on the page without a server: read, carried to the mesh
and shown as tools/dressing has them."""
import json
import math
import shutil
import struct
import subprocess
import unittest
from pathlib import Path
from typing import Any, Dict, List, Optional, Tuple

from dressing.coat import coat_of
from dressing.dressed import Dressed, dressed
from dressing.materials import PNG, pictures_for
from viewer.main import pictures_of, programs_of
from viewer.model import model_of, scale_of, with_packed_stream

from . import alone
from .common import Case, program
from .draping import AT, quarters, told
from .textured import cylinder, place

ALONE_PAGE = Path(__file__).resolve().parent.parent / "alone_page"
DRESSED = """import { readFileSync } from "node:fs";
import { dressed } from %s;
import { librariesOf, readTextured } from %s;
const bytesOf = (text) => new Uint8Array(Buffer.from(text, "latin1"));
console.log(JSON.stringify(JSON.parse(readFileSync(0)).map(([given, text, scale]) => {
  const textured = readTextured(bytesOf(given));
  const found = textured && dressed(textured, bytesOf(text), scale);
  return found && {
    ...found, text: Buffer.from(found.text).toString("latin1"), spots: [...found.spots],
    pages: [...found.pages], names: textured.pages, libraries: librariesOf(bytesOf(given)),
  };
})));"""
MATERIALS = """import { readFileSync } from "node:fs";
import { hasMaterials, picturesFor } from %s;
const { name, pages, libraries, files } = JSON.parse(readFileSync(0));
const fileOf = ([of, text]) => new File([Buffer.from(text, "latin1")], of);
const given = Object.entries(files).map(fileOf);
const found = await picturesFor(name, { pages, libraries }, given);
const told = found.map((one) => ({ ...one, bytes: one.bytes && [...one.bytes] }));
console.log(JSON.stringify([hasMaterials(name, libraries, given), told]));"""
SQUARE = b"""mtllib square.mtl
v 0 0 0
v 4 0 0
v 4 4 0
v 0 4 0
vt 0 0
vt 1 0
vt 1 1
vt 0.25 0.5
usemtl red
f 1/1 2/2 3/3
usemtl a b
f 1/4/1 3/3/1 4/4/1
"""
Scale = Optional[Tuple[float, Tuple[float, float, float]]]


Given = Tuple[bytes, bytes, Scale]


def by_node(script: str, modules: List[str], told: Any) -> Any:
    text = script % tuple(json.dumps(str(ALONE_PAGE / name)) for name in modules)
    call, data = ["node", "--input-type=module", "-e", text], json.dumps(told).encode()
    return json.loads(subprocess.run(call, input=data, capture_output=True, check=True).stdout)


@unittest.skipUnless(shutil.which("node"), "no node")
class Dressing(Case):
    def same(self, cases: List[Given]) -> List[Dict[str, Any]]:
        """What the page dresses texts with, which is what the tools do."""
        asked = [
            (given.decode("latin1"), text.decode("latin1"),
             {"unit": scale[0], "middle": scale[1]} if scale else None)
            for given, text, scale in cases
        ]
        found = by_node(DRESSED, ["dressing.js", "textured.js"], asked)
        for one, case in zip(found, cases):
            with self.subTest(case=case):
                self.is_same(one, dressed(*case))
        return [one or {} for one in found]

    def is_same(self, found: Optional[Dict[str, Any]], wanted: Optional[Dressed]) -> None:
        self.assertEqual(found is None, wanted is None)
        if found is None or wanted is None:
            return
        self.assertEqual(found["text"].encode("latin1"), wanted.text)
        self.assertEqual((found["isCut"], found["before"]), (wanted.is_cut, wanted.before))
        self.assertEqual((found["names"], found["libraries"]), (wanted.pages, wanted.libraries))
        numbers = found["spots"]
        keys = [(u, v, 0) for u, v in zip(numbers[::2], numbers[1::2])]
        self.assertEqual(coat_of(keys, found["pages"]), wanted.coat)

    def test_a_text_as_it_stands_is_cut_along_its_seams(self) -> None:
        plain = SQUARE.replace(b"f 1/4/1 3/3/1 4/4/1", b"f 1/1/1 3/3/1 4/4/1")
        one_page = plain.replace(b"usemtl a b\n", b"")
        bare = b"v 0 0 0\nv 4 0 0\nv 4 4 0\nv 0 4 0\nusemtl a\nf 1 2 3\nusemtl b\nf 1 3 4\n"
        found = self.same([(text, text, None) for text in (SQUARE, plain, one_page, bare)])
        self.assertEqual([one["isCut"] for one in found], [True, True, False, False])
        self.assertEqual(found[0]["before"], [0, 0, 1, 2, 2, 3])

    def test_a_prepared_mesh_is_traced(self) -> None:
        mesh = b"v 0 0 0\nv 8 0 0\nv 8 8 0\nv 0 8 0\nf 3 1 2\nf 1 3 4\n"
        other, scale = mesh.replace(b"f 3 1 2", b"f 2 4 3"), (0.5, (0.0, 0.0, 0.0))
        found = self.same([(SQUARE, mesh, scale), (SQUARE, other, scale)])
        self.assertEqual([bool(one) for one in found], [True, False])

    def test_a_file_through_prepare(self) -> None:
        path = cylinder(self.folder())
        lines = path.read_bytes().replace(b"mtllib", b"# a comment \\\nmtllib").splitlines()
        given = b"\n".join(line + b".125" if line[:2] == b"v " else line for line in lines) + b"\n"
        prepare = programs_of(program()).prepare
        text = subprocess.run([str(prepare)], input=given, capture_output=True, check=True).stdout
        scale = scale_of(text)
        assert scale is not None
        (found,) = self.same([(given, text, (scale.unit, scale.middle))])
        self.assertTrue(found["isCut"])

    def test_lines_that_go_on_and_numbers_from_the_end(self) -> None:
        text = b"v 0 0 0\nv 1 0 0\nv 0 1 0\nvt .5\nusemtl a\nf -3/-1 -2 3//7\n"
        mesh = b"v 0 0 0\nv 1 0 0\nv 0 1 0\nf 1 2 3\n"
        more = (b"vt x 1\n", b"vt nan\n", b"f 1/2 2 3\n", b"f 1/0 2 3\n", b"f 1.5 2 3\n")
        texts = [text, text.replace(b"vt .5", b" vt \\\r\n .5 # \\"), *(text + one for one in more)]
        found = self.same([(one, mesh, None) for one in texts])
        self.assertEqual([bool(one) for one in found], [True, True] + 5 * [False])

    def test_materials_are_those_of_the_tools(self) -> None:
        files = {
            "Square.MTL": b"newmtl red # one\nKd 1 0 0\nnewmtl a b\nmap_Kd C:\\textures\\Pic.PNG\n"
                          b"newmtl c\nmap_Kd -s 1 1 1 -o 0 0 0 my pic.jpg\nKd x 1 1\nnewmtl d\n"
                          b"map_Kd text.png\n",
            "pic.png": PNG + b"data", "text.png": b"no picture",
        }
        pages = ["red", "a b", "c", "d", "e"]
        for libraries in ([], ["lost.mtl"], ["lost.mtl", "square.mtl"]):
            room = self.folder()
            for name, data in files.items():
                (room / name).write_bytes(data)
            wanted = pictures_for(room / "square.obj", pages, libraries)
            asked = {
                "name": "square.obj", "pages": pages, "libraries": libraries,
                "files": {name: data.decode("latin1") for name, data in files.items()},
            }
            has, found = by_node(MATERIALS, ["materials.js"], asked)
            self.assertEqual(has, libraries != ["lost.mtl"])
            got = [(tuple(one["colour"]), one["kind"], bytes(one["bytes"] or []), one["missing"])
                   for one in found]
            self.assertEqual(got, [tuple(one) for one in wanted])


# Places of the file in units of the mesh, which `prepare` may have scaled.
IN_UNITS = """((places, scale) => places.map((place) =>
  place.map((c, axis) => scale ? (c - scale.middle[axis]) / scale.unit : c)))"""


class Dropped(alone.Page):
    """A textured file that is dropped with its materials and pictures."""

    def drop_all(self, paths: List[Path]) -> None:
        data = {"items": [], "files": [str(path) for path in paths], "dragOperationsMask": 1}
        for kind in ("dragEnter", "dragOver", "drop"):
            self.page.call("Input.dispatchDragEvent", type=kind, x=300, y=200, data=data)

    def parts(self, *left_out: str) -> List[Path]:
        """A cylinder's file of materials, its mesh and its picture, without some of them."""
        folder = cylinder(self.folder()).parent
        paths = [folder / f"cylinder.{ending}" for ending in ("mtl", "obj")]
        return [path for path in (*paths, folder / "sides.png") if path.suffix not in left_out]

    def seen(self, round_part: float, high: float) -> str:
        """What colour a place has, as seen from outside."""
        yaw = 2 * math.pi * round_part + math.pi / 2
        turned = f"{{ upright: 'z', yaw: {yaw}, pitch: 0.1 }}"
        self.value(f"Object.assign(viewer.camera, {turned}), viewer.moved()")
        self.page.until("viewer.isSettled")
        (pixel,) = self.value(f"{AT}({IN_UNITS}([{place(round_part, high)}], viewer.about.scale))")
        return told(pixel)

    def shows_its_pictures(self) -> None:
        self.shows("cylinder.obj")
        self.assertEqual(self.value("viewer.set.colour"), "texture")
        found = [[self.seen(part, high) for part in (0.06, 0.44, 0.56, 0.94)]
                 for high in (0.75, 0.25)]
        self.assertEqual(found, [["red", "red", "green", "green"],
                                 ["blue", "blue", "white", "white"]])

    def test_pictures_lie_where_they_belong(self) -> None:
        self.open()
        self.drop_all(self.parts())
        self.shows_its_pictures()
        self.assertNotIn("Not shown", self.text("notice"))
        self.drop(alone.STREAM)  # which has none, and no such colour
        self.page.until("document.title === 'octahedron.vdpm'")
        self.shows("octahedron.vdpm")
        self.assertEqual(self.value("document.querySelectorAll('input[value=texture]').length"), 0)
        self.assertNotEqual(self.value("viewer.set.colour"), "texture")

    def test_a_mesh_that_has_to_be_prepared(self) -> None:
        self.open()
        paths = self.parts()
        text = paths[1].read_bytes().replace(b"v 1000 0 ", b"v 1000.00000125 0 ")
        paths[1].write_bytes(text)
        self.drop_all(paths)
        self.shows_its_pictures()
        self.assertIn("prepare", self.text("notice"))

    def test_a_saved_page_shows_the_same(self) -> None:
        self.open()
        self.drop_all(self.parts())
        self.shows("cylinder.obj")
        self.value("document.getElementById('save-page').click()")
        saved = self.written("saved.html", self.page.downloaded("cylinder.html"))
        self.page.go("about:blank")
        self.page.go(f"{saved.as_uri()}?sharpness=0.2")
        self.page.until("globalThis.alone !== undefined")
        self.shows_its_pictures()

    def test_a_page_with_a_textured_model_in_it(self) -> None:
        path = cylinder(self.folder())
        built = model_of(path, programs_of(program()), True)
        packed = with_packed_stream(built, programs_of(program()))
        text = alone.page_of(alone.module(), packed, pictures_of(path, built.dress))
        page = self.written("model.html", text.encode())
        self.page.begin(f"{page.as_uri()}?sharpness=0.2")
        self.page.until("globalThis.alone !== undefined")
        self.shows_its_pictures()

    def test_what_is_missing_is_told(self) -> None:
        self.open()
        self.drop_all(self.parts(".png"))
        self.shows("cylinder.obj")
        self.assertIn("Not shown: Sides.png of the file", self.text("notice"))
        self.drop_all(self.parts(".png", ".mtl"))
        self.page.until("viewer.about.textures === null")
        self.shows("cylinder.obj")
        self.assertIn("Not shown: textures and materials of the file", self.text("notice"))

    def test_a_saved_mesh_has_its_pictures(self) -> None:
        self.open()
        self.drop_all(self.parts())
        self.shows("cylinder.obj")
        self.value("document.getElementById('save-glb').click()")
        data = self.page.downloaded(f"cylinder-{self.value('viewer.shown.faceCount')}.glb")
        head = json.loads(data[20 : 20 + struct.unpack_from("<I", data, 12)[0]])
        self.assertEqual(head["images"][0]["mimeType"], "image/png")
        self.assertIn(quarters(64), data)
