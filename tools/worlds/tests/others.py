"""What other programs say: GDAL, a validator of JSON schemas, and a reader of GLB files."""
import json
import math
import random
import shlex
import shutil
import subprocess
import sys
from pathlib import Path
from typing import List, Tuple

from ..building import Build, build_world
from ..earth import on_earth
from ..form import World, WorldFault
from ..progress import Work
from ..tiles3d import FILE, Export, write_tiles3d
from .common import SIMPLIFY, VDPM, WithWorld, field_faces, grid_text, needs_simplify, random_field
from .tiles import glb_parts, mesh_of

SCHEMAS = Path(__file__).resolve().parent / "schemas"
_VALIDATE = """
import json, sys
import jsonschema
schema = json.load(open(sys.argv[1]))
for name in sys.argv[2:]:
    jsonschema.Draft7Validator(schema).validate(json.load(open(name)))
"""


def with_schemas() -> List[str]:
    """A Python that has jsonschema; empty where there is none."""
    for python in (sys.executable, "/usr/bin/python3"):
        words = [python, "-c", "import jsonschema"]
        if shutil.which(python) and not subprocess.run(words, capture_output=True).returncode:
            return [python]
    return []


class WithOthers(WithWorld):
    def ran(self, *words: object) -> str:
        done = subprocess.run(
            list(map(str, words)), cwd=self.room, capture_output=True, text=True, check=False
        )
        self.assertEqual(done.returncode, 0, done.stderr)
        return done.stdout

    def needs(self, name: str) -> None:
        if shutil.which(name) is None:
            self.skipTest(f"there is no {name}")


class Gdal(WithOthers):
    """What GDAL itself makes and reads."""

    def setUp(self) -> None:
        super().setUp()
        self.needs("gdal_translate")

    def test_a_geotiff_is_cut_as_its_grid(self) -> None:
        field = random_field(random.Random(31), 9, 12, 0.05)
        path = self.file("field.asc", grid_text(field, 30))
        tif = self.room / "field.tif"
        self.ran("gdal_translate", "-q", "-a_srs", "EPSG:32632", path, tif)
        world = self.cut(tif, 40)
        self.check_whole(world, field_faces(field, 30))
        self.assertEqual(world.origin[:2], (15.0, 15.0))
        self.assertFalse((world.folder / "raster").exists())

    def test_an_hgt_in_degrees_is_warped_by_the_line_that_is_told(self) -> None:
        """One arc of three seconds a point, as SRTM has it; a corner of it is cut."""
        rows = (" ".join(str((i * j) // 99 % 900) for j in range(1201)) for i in range(1201))
        head = f"ncols 1201\nnrows 1201\nxllcenter 7\nyllcenter 46\ncellsize {1 / 1200!r}\n"
        path = self.file("srtm.asc", head + "\n".join(rows) + "\n")
        hgt = self.room / "N46E007.hgt"
        self.ran("gdal_translate", "-q", "-of", "SRTMHGT", "-ot", "Int16", "-a_srs", "EPSG:4326",
                 path, hgt)
        with self.assertRaisesRegex(WorldFault, "is in degrees: .* 7 to 8 and 46 to 47") as told:
            self.cut(hgt, 1000, unit=0.0)
        line = str(told.exception).strip().splitlines()[-1]
        self.ran(*shlex.split(line))
        whole, corner = self.room / "N46E007_metres.tif", self.room / "corner.tif"
        self.ran("gdal_translate", "-q", "-srcwin", 0, 0, 60, 60, whole, corner)
        world = self.cut(corner, 1000, unit=0.0)
        faces = sum(tile.faces for tile in world.level(0))
        self.assertTrue(0 < faces < 2 * 59 * 59, faces)  # beside the field nothing is known
        west, south = world.origin[:2]
        self.assertTrue(340_000 < west < 350_000 and 5_200_000 < south < 5_210_000)
        self.check_tiles(world, 1000)

    def test_the_earth_is_where_gdal_has_it(self) -> None:
        (place,) = on_earth("EPSG:32632", [(500_000.0, 5_200_000.0, 400.0)])
        self.assertAlmostEqual(math.dist(place, (0, 0, 0)), 6_367_000, delta=2_000)
        turn = math.degrees(math.atan2(place[1], place[0]))
        self.assertAlmostEqual(turn, 9.0, places=6)  # the middle of the zone
        for crs in ("EPSG:0", "no system"):
            with self.assertRaisesRegex(WorldFault, "nowhere on the Earth by --crs"):
                on_earth(crs, [(1.0, 2.0, 3.0)])


@needs_simplify
class Schemas(WithOthers):
    def exported(self, crs: str = "") -> Tuple[World, Path]:
        field = random_field(random.Random(22), 17, 21, 0.02)
        text = grid_text(field, 30).replace("corner 0", "corner 400000", 1)
        text = text.replace("yllcorner 0", "yllcorner 5200000")
        world = self.cut(self.file("field.asc", text), 150, unit=0.5)
        build_world(Build(world, SIMPLIFY, VDPM, 200, 1, Work(self.said.append)))
        out = self.room / "out"
        write_tiles3d(Export(world, VDPM, out, 3, Work(self.said.append), crs))
        return world, out

    def validated(self, out: Path) -> None:
        python = with_schemas()
        if not python:
            self.skipTest("there is no jsonschema")
        parts = []
        for path in sorted(out.glob("*.glb")):
            told, _ = glb_parts(path)
            parts.append(self.file(path.stem + ".gltf.json", json.dumps(told)))
        self.ran(*python, "-c", _VALIDATE, SCHEMAS / "tileset.json", out / FILE)
        self.ran(*python, "-c", _VALIDATE, SCHEMAS / "gltf.json", *parts)

    def test_all_files_keep_to_the_schemas(self) -> None:
        _, out = self.exported()
        self.validated(out)

    def test_another_program_reads_what_is_there(self) -> None:
        self.needs("assimp")
        _, out = self.exported()
        for path in sorted(out.glob("*.glb"))[:4]:
            points, faces = mesh_of(path)
            told = self.ran("assimp", "info", path)
            counts = {
                words[0]: int(words[1]) for words in (
                    line.split(":") for line in told.splitlines()
                ) if len(words) == 2 and words[0] in ("Vertices", "Faces")
            }
            self.assertEqual(counts, {"Vertices": len(points), "Faces": len(faces)})

    def test_on_the_earth_each_vertex_is_where_gdal_has_it(self) -> None:
        self.needs("gdaltransform")
        world, out = self.exported("EPSG:32632")
        self.validated(out)
        told = json.loads((out / FILE).read_text())
        self.assertNotIn("transform", told["root"])
        finest = sorted(out.glob("t*-0.glb"), key=lambda path: -len(path.name))[0]
        tile = world.tiles[finest.name.split("-")[0]]
        corner = [world.unit * (a + b) for a, b in zip(tile.offset, (0, 0, 0))]
        (middle,) = on_earth("EPSG:32632", [tuple(
            a + b for a, b in zip(corner, world.origin)
        )])  # type: ignore[list-item]
        points, _ = mesh_of(finest)
        far = max(math.dist(point, middle) for point in points)
        self.assertLess(far, world.unit * math.dist(tile.low, tile.high))
        box = told["root"]["boundingVolume"]["box"]
        for point in points:
            for axis in range(3):
                self.assertLessEqual(abs(point[axis] - box[axis]), box[3 + 4 * axis] + 0.01)
