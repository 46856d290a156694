"""Tries tools/lod.py and what stands under it: python3 tools/test_lod.py"""
import json
import os
import struct
import subprocess
import sys
import tempfile
import unittest
from pathlib import Path
from typing import Any, Dict, List, Tuple

TOOLS = Path(__file__).resolve().parent
TOP = TOOLS.parent
sys.path.insert(0, str(TOOLS))

from lods.levels import distance_up, levels_of  # noqa: E402
from dressing.materials import PNG, Picture, pictures_for  # noqa: E402
from dressing.textured import read  # noqa: E402
from lods.gltf import glb, normals  # noqa: E402
from lods.shown import Grid, Level, Look, script_of  # noqa: E402
from lods.written import decimals_of, obj, ply, stl  # noqa: E402
from mesh_files.reading import read_soup  # noqa: E402

OCTAHEDRON = TOP / "examples" / "octahedron.vdpm"
UNITS = Grid(0.5, (100.0, 0.0, -1.0))
SQUARE = Level(
    [(0, 0, 0), (2, 0, 0), (2, 2, 0), (0, 2, 0)], UNITS, [(0, 1, 2), (0, 2, 3)], 0.0, 0.0
)


def parts_of(data: bytes) -> Tuple[Dict[str, Any], bytes]:
    """The document of a GLB file, and what it holds beside."""
    magic, version, size = struct.unpack_from("<4sII", data)
    assert (magic, version, size) == (b"glTF", 2, len(data))
    length, kind = struct.unpack_from("<I4s", data, 12)
    assert kind == b"JSON"
    at = 20 + length
    binary, other = struct.unpack_from("<I4s", data, at)
    assert other == b"BIN\0" and at + 8 + binary == len(data)
    return json.loads(data[20:at]), data[at + 8 :]


class Levels(unittest.TestCase):
    def test_faces_and_errors_of_each_front(self) -> None:
        levels = levels_of(OCTAHEDRON.read_bytes())
        self.assertEqual(levels.faces[-1], 8)
        self.assertEqual(levels.errors[-1], 0)
        self.assertEqual(levels.faces, sorted(levels.faces))
        self.assertEqual(levels.errors, sorted(levels.errors, reverse=True))

    def test_levels_by_faces_by_error_and_by_halves(self) -> None:
        levels = levels_of(OCTAHEDRON.read_bytes())
        self.assertEqual(levels.most_within(8), len(levels.faces) - 1)
        self.assertEqual(levels.most_within(0), 0)
        self.assertEqual(levels.least_within(0), len(levels.faces) - 1)
        self.assertEqual(levels.least_within(levels.errors[0]), 0)
        halves = levels.halves(9)
        self.assertEqual(halves[0], len(levels.faces) - 1)
        self.assertEqual(halves, sorted(set(halves), reverse=True))

    def test_lengths_are_rounded_up(self) -> None:
        self.assertEqual(distance_up((0, 0, 0), (3, 4, 0)), 5)
        self.assertEqual(distance_up((0, 0, 0), (1, 1, 0)), 2)

    def test_a_script_splits_each_record_once(self) -> None:
        self.assertEqual(script_of([0, 2, 3]), b"l\nw\ns 0\ns 1\nl\nw\ns 2\nl\nw\n")


class Written(unittest.TestCase):
    def test_obj_has_the_coordinates_of_the_file(self) -> None:
        lines = obj(SQUARE).decode().splitlines()
        self.assertEqual([float(c) for c in lines[2].split()[1:]], [101.0, 1.0, -1.0])
        self.assertEqual(lines[4:], ["f 1 2 3", "f 1 3 4"])

    def test_decimals_tell_a_hundredth_of_a_step(self) -> None:
        self.assertEqual(decimals_of(Grid(0.01, (0.0, 0.0, 0.0))), 2)
        self.assertEqual(decimals_of(Grid(0.003, (0.0, 0.0, 0.0))), 5)
        self.assertEqual(decimals_of(Grid(1000.0, (0.5, 0.0, 0.0))), 0)

    def test_ply_and_stl_have_all_triangles(self) -> None:
        head, _, data = ply(SQUARE).partition(b"end_header\n")
        self.assertIn(b"element vertex 4\n", head)
        self.assertEqual(struct.unpack_from("<3d", data, 24), (101.0, 0.0, -1.0))
        self.assertEqual(struct.unpack_from("<B3i", data, 4 * 24), (3, 0, 1, 2))
        solid = stl(SQUARE)
        self.assertEqual(len(solid), 84 + 50 * 2)
        self.assertEqual(struct.unpack_from("<6f", solid, 84), (0, 0, 1, 100, 0, -1))

    def test_obj_and_ply_have_the_colours_of_vertices(self) -> None:
        coloured = SQUARE._replace(look=Look([(255, 0, 51)] * 4))
        last = obj(coloured).splitlines()[3]
        self.assertEqual(last, b"v 100.000 1.000 -1.000 1.0000 0.0000 0.2000")
        head, _, data = ply(coloured).partition(b"end_header\n")
        self.assertIn(b"double z\nproperty uchar red\nproperty uchar green\n", head)
        self.assertEqual(data[24:27] + data[51:54], bytes([255, 0, 51] * 2))
        self.assertEqual(len(data), 4 * 27 + 2 * 13)

    def test_glb_stands_at_the_middle_of_the_file(self) -> None:
        document, binary = parts_of(glb(SQUARE))
        self.assertEqual(document["nodes"], [{"mesh": 0, "translation": [100.0, 0.0, -1.0]}])
        accessors = document["accessors"]
        assert isinstance(accessors, list)
        self.assertEqual((accessors[0]["min"], accessors[0]["max"]), ([0, 0, 0], [1, 1, 0]))
        self.assertEqual(struct.unpack_from("<3f", binary, 12), (1, 0, 0))
        self.assertEqual(struct.unpack_from("<3f", binary, 48), (0, 0, 1))
        self.assertEqual(struct.unpack_from("<6I", binary, 96), (0, 1, 2, 0, 2, 3))

    def test_glb_has_colours(self) -> None:
        document, binary = parts_of(glb(SQUARE._replace(look=Look([(255, 0, 188)] * 4))))
        self.assertIn('"NORMAL": 1, "COLOR_0": 2}', json.dumps(document))
        self.assertEqual(struct.unpack_from("<4B", binary, 96), (255, 0, 128, 255))

    def test_glb_has_pictures(self) -> None:
        pictures = [Picture((1, 1, 1), "image/png", PNG + b"x"), Picture((1.0, 0.0, 0.0))]
        spots = [(0.0, 0.0), (1.0, 0.0), (1.0, 1.0), (0.0, 0.25)]
        look = Look([(255, 0, 188)] * 4, spots, [0, 1], pictures)
        document, binary = parts_of(glb(SQUARE._replace(look=look)))
        told = json.dumps(document)
        self.assertIn('"NORMAL": 1, "TEXCOORD_0": 2}', told)
        self.assertEqual(struct.unpack_from("<8f", binary, 96), (0, 1, 1, 1, 1, 0, 0, 0.75))
        self.assertEqual(struct.unpack_from("<6I", binary, 128), (0, 1, 2, 0, 2, 3))
        self.assertEqual(binary[152:161], PNG + b"x")
        self.assertIn('"images": [{"bufferView": 5, "mimeType": "image/png"}]', told)
        self.assertIn('"baseColorFactor": [1.0, 0.0, 0.0, 1]', told)

    def test_glb_leaves_out_what_readers_may_not_know(self) -> None:
        look = Look([], [(0.0, 0.0)] * 4, [0, 0], [Picture((1, 1, 1), "image/webp", b"RIFF")])
        document, _ = parts_of(glb(SQUARE._replace(look=look)))
        self.assertNotIn("images", document)

    def test_a_vertex_without_area_round_it_looks_up(self) -> None:
        self.assertEqual(list(normals([(0.0, 0.0, 0.0)], [])), [(0.0, 0.0, 1.0)])


class Program(unittest.TestCase):
    """The whole way, by the programs that VIEWER_TESTS_PROGRAM names, or those at the top."""

    def lod(self, *words: str) -> "subprocess.CompletedProcess[bytes]":
        program = os.environ.get("VIEWER_TESTS_PROGRAM", str(TOP / "vdpm"))
        told = [sys.executable, str(TOOLS / "lod.py"), *words, "--program", program]
        return subprocess.run(told, capture_output=True, check=False)

    def test_each_level_has_half_of_the_triangles(self) -> None:
        with tempfile.TemporaryDirectory() as room:
            torus = str(TOP / "examples" / "torus.obj")
            done = self.lod(torus, "--levels", "3", "--out", f"{room}/t", "--format", "stl")
            self.assertEqual(done.returncode, 0, done.stderr.decode())
            counts: List[int] = []
            for level in range(3):
                data = Path(f"{room}/t-{level}.stl").read_bytes()
                counts += struct.unpack_from("<I", data, 80)
            self.assertEqual(counts, [576, 288, 144])
            said = done.stdout.decode().splitlines()
            self.assertRegex(said[0], r"t-0\.stl: 576 triangles, error 0, from planes 0$")

    def test_coordinates_are_those_of_the_file(self) -> None:
        with tempfile.TemporaryDirectory() as room:
            scan = str(TOP / "examples" / "ring_scan.obj")
            done = self.lod(scan, "--error", "0", "--out", f"{room}/r")
            self.assertEqual(done.returncode, 0, done.stderr.decode())
            points = [line for line in Path(f"{room}/r.obj").read_text().split("\n") if "v" in line]
            xs = [float(line.split()[1]) for line in points]
            self.assertAlmostEqual(max(xs), 0.6, places=5)
            self.assertAlmostEqual(min(xs), -0.6, places=5)

    def test_a_ply_and_an_stl_lie_on_themselves(self) -> None:
        with tempfile.TemporaryDirectory() as room:
            scan = str(TOP / "examples" / "ring_scan.obj")
            for given, made in (("obj", "ply"), ("ply", "stl"), ("stl", "obj")):
                model = scan if given == "obj" else f"{room}/{given}.{given}"
                done = self.lod(model, "--error", "0", "--format", made, "--out", f"{room}/{made}")
                self.assertEqual(done.returncode, 0, done.stderr.decode())
                soup = read_soup(Path(f"{room}/{made}.{made}"))
                self.assertEqual(soup.faces, 576)
                self.assertAlmostEqual(max(soup.points), 0.6, places=4)
                self.assertAlmostEqual(min(soup.points), -0.6, places=4)

    def test_colours_of_a_ply_file_stay(self) -> None:
        with tempfile.TemporaryDirectory() as room:
            lines = ["v 0 0 0 1 0 0", "v 9 0 0 0 1 0", "v 0 9 0 0 0 1", "f 1 2 3", ""]
            Path(f"{room}/a.obj").write_text("\n".join(lines))
            for given, made in (("a.obj", "ply"), ("b.ply", "obj")):
                words = ("--error", "0", "--format", made, "--out", f"{room}/b")
                done = self.lod(f"{room}/{given}", *words)
                self.assertEqual(done.returncode, 0, done.stderr.decode())
            told = {tuple(map(float, line.split()[1:])) for line in
                    Path(f"{room}/b.obj").read_text().splitlines()[:3]}
            self.assertEqual(told, {tuple(map(float, line.split()[1:])) for line in lines[:3]})

    def test_a_textured_model_keeps_its_pictures(self) -> None:
        with tempfile.TemporaryDirectory() as room:
            path = Path(f"{room}/m.obj")
            steps = [(x, y) for y in range(9) for x in range(9)]
            lines = [f"v {900 * x} {900 * y} 0\nvt {x / 8} {y / 8}" for x, y in steps]
            for a in range(1, 72):
                if a % 9:
                    lines += [f"f {a}/{a} {a + 1}/{a + 1} {a + 10}/{a + 10}"]
                    lines += [f"f {a}/{a} {a + 10}/{a + 10} {a + 9}/{a + 9}"]
            path.write_text("usemtl a\n" + "\n".join(lines) + "\n")
            path.with_suffix(".mtl").write_text("newmtl a\nmap_Kd p.png\n")
            Path(f"{room}/p.png").write_bytes(PNG + b"all of it")
            done = self.lod(str(path), "--faces", "60", "--format", "glb", "--out", f"{room}/g")
            self.assertEqual(done.returncode, 0, done.stderr.decode())
            document, binary = parts_of(Path(f"{room}/g.glb").read_bytes())
            self.assertIn(PNG + b"all of it", binary)
            self.assertIn('"TEXCOORD_0": 2', json.dumps(document))
            count = document["accessors"][0]["count"]
            points = struct.unpack_from(f"<{3 * count}f", binary)
            spots = struct.unpack_from(f"<{2 * count}f", binary, 24 * count)
            for i in range(count):
                self.assertAlmostEqual(points[3 * i] / 7200, spots[2 * i], delta=0.01)
                self.assertAlmostEqual(1 - points[3 * i + 1] / 7200, spots[2 * i + 1], delta=0.01)
            self.keeps_them_as_obj(path)

    def keeps_them_as_obj(self, path: Path) -> None:
        out, words = path.with_name("o"), ("--levels", "2", "--out")
        done = self.lod(str(path), *words, str(out))
        self.assertEqual(done.returncode, 0, done.stderr.decode())
        self.assertEqual(out.with_name("o-0.png").read_bytes(), PNG + b"all of it")
        for number in range(2):
            found = path.with_name(f"o-{number}.obj")
            told = read(found.read_bytes())
            assert told is not None
            self.assertEqual((told.libraries, told.pages), (["o.mtl"], ["page-0"]))
            (picture,) = pictures_for(found, told.pages, told.libraries)
            self.assertEqual((picture.data, picture.missing), (PNG + b"all of it", ""))
            for face in told.faces:
                self.assertEqual(face.corners, face.spots)
            for place, spot in zip(told.places, told.spots):
                self.assertAlmostEqual(place[0] / 7200, spot[0], delta=0.01)
                self.assertAlmostEqual(place[1] / 7200, spot[1], delta=0.01)
        out.with_suffix(".mtl").write_bytes(b"another")
        done = self.lod(str(path), *words, str(out))
        self.assertIn(b"o.mtl is there, and another", done.stderr)
        done = self.lod(str(path), "--bare", *words, str(out))
        self.assertNotIn(b"vt", found.read_bytes())

    def test_a_faulty_file_is_told_by_line(self) -> None:
        with tempfile.TemporaryDirectory() as room:
            path = Path(f"{room}/x.ply")
            path.write_text("ply\nformat ascii 1.0\nelement vertex x\nend_header\n")
            done = self.lod(str(path), "--faces", "5")
            self.assertEqual(done.returncode, 1)
            said = f"lod: {path}: line 3: 'element vertex x' is no line of a PLY head\n"
            self.assertEqual(done.stderr.decode(), said)

    def test_what_cannot_be_read_is_told(self) -> None:
        done = self.lod("nowhere.obj", "--faces", "5")
        self.assertEqual(done.returncode, 1)
        self.assertEqual(done.stderr, b"lod: nowhere.obj: No such file or directory\n")


if __name__ == "__main__":
    unittest.main()
