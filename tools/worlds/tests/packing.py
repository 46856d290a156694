"""Worlds whose streams are packed."""
import json
import os
import random
import subprocess
import unittest
from dataclasses import replace
from typing import Dict, List

from ..building import Build, build_world
from ..checking import check_world
from ..form import FORM, PACKED_FORM, World, WorldFault, read_world, write_world
from ..fronts import stream_of
from ..progress import Work
from ..tiles3d import Export, write_tiles3d
from .commands import called
from .common import (
    SIMPLIFY, TOP, VDPM, WithWorld, grid_text, needs_simplify, program, random_field,
)

needs_pack = unittest.skipUnless(program("pack").is_file(), "there is no program pack")


def built(world: World, said: List[str]) -> int:
    """How many streams had to be made."""
    with Work(said.append) as work:
        return build_world(Build(world, SIMPLIFY, VDPM, 40, 2, work))


def as_packed(world: World, packed: bool = True) -> World:
    """The same, as its world.json then tells it."""
    write_world(replace(world, packed=packed))
    return read_world(world.folder)


@needs_simplify
@needs_pack
class Packing(WithWorld):
    def setUp(self) -> None:
        super().setUp()
        field = random_field(random.Random(12), 9, 9)
        self.source = self.file("field.asc", grid_text(field, 10))
        self.world = self.cut(self.source, 32)

    def texts(self, world: World) -> Dict[str, bytes]:
        return {name: stream_of(VDPM, world, tile) for name, tile in world.tiles.items()}

    def times(self, world: World) -> Dict[str, int]:
        return {
            name: world.stream(tile).stat().st_mtime_ns for name, tile in world.tiles.items()
        }

    def endings(self) -> Dict[str, int]:
        """How many files there are of each kind, but for meshes and what is told of parents."""
        found = [path.suffix for path in self.world.folder.glob("*/*")]
        return {kind: found.count(kind) for kind in found if kind not in (".obj", ".json")}

    def exported(self, world: World) -> Dict[str, bytes]:
        folder = self.room / ("packed" if world.packed else "plain")
        with Work(self.said.append) as work:
            write_tiles3d(Export(world, VDPM, folder, 3, work))
        return {path.name: path.read_bytes() for path in folder.iterdir()}

    def test_what_was_built_is_packed_and_unpacked_again(self) -> None:
        built(self.world, self.said)
        told = (self.world.folder / "world.json").read_bytes()
        texts, times = self.texts(self.world), self.times(self.world)
        packed = as_packed(self.world)
        self.assertEqual(built(packed, self.said), 0)
        self.assertEqual(self.endings(), {".vdpz": 5})
        self.assertEqual((self.texts(packed), self.times(packed)), (texts, times))
        for name, tile in packed.tiles.items():
            self.assertLess(packed.stream(tile).stat().st_size, len(texts[name]))
        plain = as_packed(packed, False)
        self.assertEqual(built(plain, self.said), 0)
        self.assertEqual(self.endings(), {".vdpm": 5})
        self.assertEqual((self.texts(plain), self.times(plain)), (texts, times))
        self.assertEqual((self.world.folder / "world.json").read_bytes(), told)

    def test_a_packed_world_says_what_a_plain_one_says(self) -> None:
        built(self.world, self.said)
        texts, checked = self.texts(self.world), check_world(VDPM, self.world, 1)
        files = self.exported(self.world)
        for tile in self.world.tiles.values():
            self.world.stream(tile).unlink()
        packed = as_packed(self.world)
        self.assertEqual([built(packed, self.said), built(packed, self.said)], [5, 0])
        self.assertEqual(self.endings(), {".vdpz": 5})
        self.assertEqual(self.texts(packed), texts)
        self.assertEqual(check_world(VDPM, packed, 2), checked)
        self.assertEqual(self.exported(packed), files)

    def test_the_latest_stream_is_kept_where_both_are_there(self) -> None:
        built(self.world, self.said)
        texts, packed = self.texts(self.world), as_packed(self.world)
        built(packed, self.said)
        first, other = (self.world.stream(self.world.tiles[name]) for name in ("t00", "t01"))
        first.write_bytes(texts["t01"])  # a later one
        other.write_bytes(b"no stream, but an older one")
        os.utime(other, (1, 1))
        built(packed, self.said)
        self.assertEqual(self.endings(), {".vdpz": 5})
        found = self.texts(packed)
        self.assertEqual((found["t00"], found["t01"]), (texts["t01"], texts["t01"]))

    def test_damage_is_told(self) -> None:
        packed = as_packed(self.world)
        built(packed, self.said)
        path = packed.stream(packed.tiles["t01"])
        path.write_bytes(path.read_bytes()[:-9])
        with self.assertRaisesRegex(WorldFault, "t01: .*pack --unpack .*fault 35.*: build it anew"):
            check_world(VDPM, packed, 1)
        with self.assertRaisesRegex(WorldFault, "pack --unpack ended with status 1: .*fault 35"):
            self.exported(packed)
        with self.assertRaisesRegex(WorldFault, "t01: pack: fault 35.*copy the file"):
            built(as_packed(packed, False), self.said)
        self.assertTrue(path.is_file())
        self.assertNotIn(".part", self.endings())

    def test_a_world_that_is_cut_again_stays_packed(self) -> None:
        built(as_packed(self.world), self.said)
        world = self.cut(self.source, 32)
        self.assertTrue(world.packed)
        self.assertEqual(built(world, self.said), 0)

    def test_the_words_of_the_command(self) -> None:
        words = ("build", self.world.folder, "--faces", 40, "--program", VDPM)
        for form, said in (("--packed", "5 streams made, 0"), ("--plain", "0 streams made, 5")):
            done = called(*words, form)
            self.assertEqual((done.returncode, done.stdout), (0, f"{said} were there\n"))
            self.assertEqual(read_world(self.world.folder).packed, form == "--packed")
        self.assertEqual(called(*words, "--packed", "--plain").returncode, 2)

    def test_the_script_leaves_packed_worlds_to_the_tool(self) -> None:
        as_packed(self.world)
        script = str(TOP / "examples" / "world" / "build.sh")
        done = subprocess.run(
            ["sh", script, str(self.world.folder)], capture_output=True, text=True, check=False
        )
        self.assertEqual(done.returncode, 1)
        self.assertIn("are packed: tools/world.py build makes these", done.stderr)


class Forms(WithWorld):
    """What world.json says of packing, and how it is read."""

    def setUp(self) -> None:
        super().setUp()
        self.world = World(self.room, 1.0, (0.0, 0.0, 0.0), 0)

    def told(self, world: World) -> Dict[str, object]:
        write_world(world)
        told: Dict[str, object] = json.loads((self.room / "world.json").read_text())
        return told

    def test_who_knows_plain_worlds_alone_refuses_a_packed_one(self) -> None:
        plain, packed = self.told(self.world), self.told(replace(self.world, packed=True))
        self.assertEqual(plain["form"], FORM)
        self.assertNotIn("packed", plain)
        self.assertEqual((packed["form"], packed["packed"]), (PACKED_FORM, True))

    def test_what_no_tool_writes_is_refused_by_a_sentence(self) -> None:
        packed = self.told(replace(self.world, packed=True))
        path = self.room / "world.json"
        for change, said in (
            ({"form": "cushionwren world 3"}, "has another form than .*: cut it again"),
            ({"packed": 1}, "is no world.json: packed is 1"),
            ({"packed": None}, "is no world.json: packed is None"),
        ):
            path.write_text(json.dumps({**packed, **change}))
            with self.assertRaisesRegex(WorldFault, said):
                read_world(path)
        path.write_text(json.dumps({key: packed[key] for key in packed if key != "packed"}))
        with self.assertRaisesRegex(WorldFault, "is no world.json: 'packed'"):
            read_world(path)
        path.write_text(json.dumps({**packed, "packed": False}))
        self.assertFalse(read_world(self.room).packed)
