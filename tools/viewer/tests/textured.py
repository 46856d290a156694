"""The pictures of a textured file in the window."""
import io
import json
import math
import struct
import unittest
import zipfile
from pathlib import Path
from typing import List

from browser import found
from dressing.materials import pictures_for
from dressing.textured import read
from viewer import kept
from viewer.main import pictures_of, programs_of
from viewer.model import Model, model_of
from viewer.server import Server

from .common import Case, model, program
from .draping import AT, GREEN, RED, WHITE, Pixel, quarters, told
from .pages import browser

ROUND, HIGH = 24, 10  # cells of a cylinder
RADIUS = 1000


def cylinder(folder: Path) -> Path:
    """Open at both ends, with one seam, along which the picture meets itself."""
    lines = ["mtllib cylinder.mtl", "usemtl sides"]
    for j in range(HIGH + 1):
        for i in range(ROUND):
            way = 2 * math.pi * i / ROUND
            x, y = round(RADIUS * math.cos(way)), round(RADIUS * math.sin(way))
            lines.append(f"v {x} {y} {200 * j - 1000}")
    lines += [f"vt {i / ROUND} {j / HIGH}" for j in range(HIGH + 1) for i in range(ROUND + 1)]
    for j in range(HIGH):
        for i in range(ROUND):
            corners = [(i, j), (i + 1, j), (i + 1, j + 1), (i, j + 1)]
            told_of = [f"{b * ROUND + a % ROUND + 1}/{b * (ROUND + 1) + a + 1}" for a, b in corners]
            lines.append(f"f {' '.join(told_of[k] for k in (0, 1, 2))}")
            if i == ROUND // 2:
                lines.append("usemtl plain")
            lines.append(f"f {' '.join(told_of[k] for k in (0, 2, 3))}")
            lines.append("usemtl sides")
    path = folder / "cylinder.obj"
    path.write_text("\n".join(lines) + "\n")
    path.with_suffix(".mtl").write_text("newmtl sides\nmap_Kd Sides.png\nnewmtl plain\nKd 0 0 1\n")
    (folder / "sides.png").write_bytes(quarters(64))
    return path


def place(round_part: float, high: float) -> List[float]:
    way = 2 * math.pi * round_part
    return [RADIUS * math.cos(way), RADIUS * math.sin(way), 2000 * high - 1000]


class Keeping(Case):
    def test_a_dress_is_kept_with_its_model(self) -> None:
        built = model_of(cylinder(self.folder()), programs_of(program()), True)
        assert built.dress is not None
        self.assertEqual(built.dress.pages, ("sides", "plain"))
        self.assertEqual(kept.unpacked(built.name, kept.packed(built)), built)

    def test_each_face_has_its_page_and_each_node_its_place(self) -> None:
        built = model_of(cylinder(self.folder()), programs_of(program()), True)
        assert built.dress is not None
        spots, pages = built.dress.painted
        self.assertEqual((len(pages), sum(pages)), (built.faces, HIGH))
        words = built.counts.split()
        self.assertEqual(len(spots), 8 * (int(words[3]) + 2 * int(words[7])))
        self.assertEqual(int(words[1]), (ROUND + 1) * (HIGH + 1) + 4 * HIGH)


@unittest.skipUnless(found(), "no Chromium")
class Textured(Case):
    def shown(self, path: Path) -> Server:
        built: Model = model_of(path, programs_of(program()), True)
        server = self.served(built)
        server.showing.pictures = pictures_of(path, built.dress)
        self.page = browser()
        self.page.told.clear()
        self.page.go(f"{server.address}?sharpness=0.5")
        self.page.until("globalThis.viewer && viewer.isSettled && viewer.set.colour === 'texture'")
        return server

    def seen(self, round_part: float, high: float) -> str:
        """Which colour a place has, as seen from outside."""
        return told(self.pixel(round_part, high))

    def pixel(self, round_part: float, high: float) -> Pixel:
        yaw = 2 * math.pi * round_part + math.pi / 2
        turned = f"{{ upright: 'z', yaw: {yaw}, pitch: 0.1 }}"
        self.page.run(f"Object.assign(viewer.camera, {turned}), viewer.moved()")
        self.page.until("viewer.isSettled")
        (pixel,) = self.page.run(f"{AT}([{place(round_part, high)}])")
        return tuple(pixel)

    def test_a_picture_goes_round_to_its_seam(self) -> None:
        self.shown(cylinder(self.folder()))
        found_there = [[self.seen(part, high) for part in (0.06, 0.44, 0.56, 0.94)]
                       for high in (0.75, 0.25)]
        self.assertEqual(found_there, [["red", "red", "green", "green"],
                                       ["blue", "blue", "white", "white"]])
        self.assertEqual(self.page.errors(), [])

    def test_a_coarse_mesh_shows_the_same(self) -> None:
        self.shown(cylinder(self.folder()))
        self.page.run("tolerance.value = 18;"
                      "tolerance.dispatchEvent(new Event('input', { bubbles: true })); 0")
        self.page.until("viewer.isSettled")
        faces = int(self.page.run("viewer.shown.faceCount"))
        self.assertLess(faces, ROUND * HIGH, faces)
        self.assertEqual([self.seen(part, 0.75) for part in (0.2, 0.7)], ["red", "green"])

    def test_a_saved_mesh_has_its_pictures(self) -> None:
        path = cylinder(self.folder())
        self.shown(path)
        self.page.run("document.getElementById('save-glb').click()")
        faces = self.page.run("viewer.shown.faceCount")
        data = self.page.downloaded(f"cylinder-{faces}.glb")
        told = json.loads(data[20 : 20 + struct.unpack_from("<I", data, 12)[0]])
        primitives = told["meshes"][0]["primitives"]
        counts = [told["accessors"][one["indices"]]["count"] for one in primitives]
        self.assertEqual(sum(counts), 3 * faces)
        self.assertEqual([one["material"] for one in primitives], [0, 1])
        self.assertEqual(told["images"][0]["mimeType"], "image/png")
        self.assertIn((path.parent / "sides.png").read_bytes(), data)
        spots = told["accessors"][primitives[0]["attributes"]["TEXCOORD_0"]]
        self.assertEqual((spots["type"], spots["count"]), ("VEC2", told["accessors"][0]["count"]))

    def test_a_mesh_saved_as_obj_has_its_materials_in_one_file(self) -> None:
        path = cylinder(self.folder())
        self.shown(path)
        self.page.run("document.getElementById('save-obj').click()")
        faces = self.page.run("viewer.shown.faceCount")
        made = zipfile.ZipFile(io.BytesIO(self.page.downloaded(f"cylinder-{faces}.zip")))
        self.assertIsNone(made.testzip())
        made.extractall(path.parent)
        saved = path.with_name(f"cylinder-{faces}.obj")
        textured = read(saved.read_bytes())
        assert textured is not None
        self.assertEqual(textured.pages, ["page-0", "page-1"])
        self.assertEqual(len(textured.faces), faces)
        sides, plain = pictures_for(saved, textured.pages, textured.libraries)
        self.assertEqual(sides.data, (path.parent / "sides.png").read_bytes())
        self.assertEqual((plain.colour, plain.missing), ((0.0, 0.0, 1.0), ""))
        for face in textured.faces:
            for corner, spot in zip(face.corners, face.spots):
                high = (textured.places[corner][2] + 1000) / 2000
                self.assertAlmostEqual(textured.spots[spot][1], high, delta=0.02)

    def test_without_light_colours_are_those_of_the_picture(self) -> None:
        self.shown(cylinder(self.folder()))
        self.page.key("u")
        self.page.until("viewer.set.unlit && viewer.isSettled")
        self.assertEqual([self.pixel(part, 0.75) for part in (0.2, 0.7)],
                         [RED, GREEN])
        self.page.run("document.querySelector('input[value=stone]').click()")
        self.page.until("viewer.set.colour === 'stone' && viewer.isSettled")
        self.assertNotIn(self.pixel(0.2, 0.75), (RED, WHITE))

    def test_a_picture_that_is_missing_is_told(self) -> None:
        path = cylinder(self.folder())
        (path.parent / "sides.png").unlink()
        self.shown(path)
        said = self.page.run("document.getElementById('notice').textContent")
        self.assertIn("Not shown: Sides.png of the file", said)
        self.assertEqual(self.seen(0.2, 0.75), "white")

    def test_what_has_none_has_no_such_colour(self) -> None:
        server = self.served(model("octahedron.vdpm"))
        self.page = browser()
        self.page.go(server.address)
        self.page.until("globalThis.viewer && viewer.isSettled")
        count = "document.querySelectorAll('input[value=texture]').length"
        self.assertEqual(self.page.run(count), 0)
