"""3D Tiles: by the rules of OGC 22-025r4 (3D Tiles 1.1), and beside the world that they are of."""
import json
import math
import random
import struct
from pathlib import Path
from typing import Any, Dict, Iterator, List, Set, Tuple

from ..building import Build, build_world
from ..form import World, WorldFault, moved
from ..progress import Work
from ..tiles3d import FILE, Export, write_tiles3d
from .common import (
    SIMPLIFY, VDPM, Triangle, WithWorld, grid_text, needs_simplify, random_field, read_obj, turned,
)
from .cutting import ball, obj_text

Node = Dict[str, Any]
Point = Tuple[float, ...]


def glb_parts(path: Path) -> Tuple[Node, bytes]:
    data = path.read_bytes()
    magic, version, size = struct.unpack_from("<4sII", data)
    assert (magic, version, size) == (b"glTF", 2, len(data)), path
    length, kind = struct.unpack_from("<I4s", data, 12)
    assert kind == b"JSON" and length % 4 == 0
    binary, other = struct.unpack_from("<I4s", data, 20 + length)
    assert other == b"BIN\0" and 28 + length + binary == len(data)
    return json.loads(data[20 : 20 + length]), data[28 + length :]


def mesh_of(path: Path) -> Tuple[List[Point], List[Tuple[int, int, int]]]:
    """What a reader shows of a GLB: its y is z of the tileset, and its z is -y."""
    told, data = glb_parts(path)
    (node,), views = told["nodes"], told["bufferViews"]
    count, corners = (told["accessors"][i]["count"] for i in (0, 2))
    flat = struct.unpack_from(f"<{3 * count}f", data, views[0]["byteOffset"])
    named = struct.unpack_from(f"<{corners}I", data, views[2]["byteOffset"])
    x, y, z = node["translation"]
    points = [(a + x, -(c + z), b + y) for a, b, c in zip(flat[::3], flat[1::3], flat[2::3])]
    low, high = told["accessors"][0]["min"], told["accessors"][0]["max"]
    for axis in range(3):
        assert (min(flat[axis::3]), max(flat[axis::3])) == (low[axis], high[axis])
    return points, list(zip(named[::3], named[1::3], named[2::3]))


@needs_simplify
class Tilesets(WithWorld):
    def exported(self, world: World, faces: int) -> Node:
        build_world(Build(world, SIMPLIFY, VDPM, faces, 1, Work(self.said.append)))
        self.out = self.room / "out"
        self.count = write_tiles3d(Export(world, VDPM, self.out, 3, Work(self.said.append)))
        told: Node = json.loads((self.out / FILE).read_text())
        return told

    def nodes(self, node: Node) -> Iterator[Node]:
        yield node
        for child in node.get("children", []):
            yield from self.nodes(child)

    def check_box(self, node: Node, points: List[Point]) -> None:
        """Points are within the bounding volume, whose axes are those of the coordinates."""
        box = node["boundingVolume"]["box"]
        self.assertEqual(len(box), 12)
        self.assertTrue(all(map(math.isfinite, box)))
        for axis in range(3):
            half = box[3 + 4 * axis]
            self.assertGreater(half, 0)
            for point in points:
                self.assertLessEqual(abs(point[axis] - box[axis]), half * (1 + 1e-6) + 1e-6)

    def corners(self, node: Node) -> List[Point]:
        box = node["boundingVolume"]["box"]
        return [tuple(box[i] + s * box[3 + 4 * i] for i in range(3)) for s in (-1, 1)]

    def check_node(self, node: Node, within: float) -> None:
        error = node["geometricError"]
        self.assertTrue(0 <= error <= within)
        self.assertIn(node.get("refine", "REPLACE"), ("ADD", "REPLACE"))
        uri = node["content"]["uri"]
        self.assertFalse(uri.startswith("/") or ":" in uri)
        self.check_box(node, mesh_of(self.out / uri)[0])
        for child in node.get("children", []):
            self.assertNotIn("transform", child)
            self.check_box(node, self.corners(child))
            self.check_node(child, error)
        if not node.get("children"):
            self.assertEqual(error, 0)

    def check_tileset(self, told: Node) -> None:
        self.assertEqual(told["asset"]["version"], "1.1")
        root = told["root"]
        self.assertEqual(len(root["transform"]), 16)
        self.assertLessEqual(root["geometricError"], told["geometricError"])
        self.assertIn(root["refine"], ("ADD", "REPLACE"))
        for top in [root] if "content" in root else root["children"]:
            self.check_node(top, root["geometricError"])
        files = {node["content"]["uri"] for node in self.nodes(root) if "content" in node}
        self.assertEqual(files, {path.name for path in self.out.glob("*.glb")})
        self.assertEqual(len(files), self.count)

    def check_finest(self, told: Node, world: World) -> None:
        """The tiles without children show the faces that were cut, at their places."""
        wanted: Set[Triangle] = set()
        for tile in world.level(0):
            places, faces = read_obj(world.mesh(tile))
            places = [moved(place, tile.offset) for place in places]
            wanted |= {turned(places[a], places[b], places[c]) for a, b, c in faces}
        found: Set[Triangle] = set()
        for node in self.nodes(told["root"]):
            if "children" not in node:
                points, faces = mesh_of(self.out / node["content"]["uri"])
                units = [tuple(round(c / world.unit) for c in point) for point in points]
                found |= {turned(units[a], units[b], units[c]) for a, b, c in faces}
        self.assertEqual(found, wanted)
        self.assertEqual(told["root"]["transform"][12:15], list(world.origin))

    def test_a_height_field_keeps_to_the_rules(self) -> None:
        field = random_field(random.Random(21), 25, 29, 0.02)
        world = self.cut(self.file("field.asc", grid_text(field, 10)), 200, unit=0.5)
        told = self.exported(world, 300)
        self.check_tileset(told)
        self.check_finest(told, world)
        self.assertGreater(self.count, len(world.tiles))

    def test_a_world_without_one_last_parent_has_a_root_without_content(self) -> None:
        points, faces = ball(7, 9)
        text = obj_text([tuple(90 * c for c in point) for point in points], faces)
        world = self.cut(self.file("ball.obj", text), 30, unit=1.0)
        self.assertNotIn("t", world.tiles)
        told = self.exported(world, 30)
        self.assertNotIn("content", told["root"])
        self.check_tileset(told)
        self.check_finest(told, world)

    def test_a_world_that_is_not_built_is_told(self) -> None:
        world = self.cut(self.file("a.obj", "v 0 0 0\nv 9 0 0\nv 0 9 0\nf 1 2 3\n"), 30)
        with self.assertRaisesRegex(WorldFault, "1 streams aren't built, t the first: .*build"):
            write_tiles3d(Export(world, VDPM, self.room, 3, Work(self.said.append)))
