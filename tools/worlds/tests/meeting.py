"""Meeting: whatever neighbours show, each border side of one has its partner in the other."""
import os
import random
import shutil
from typing import Dict, List, Set

from ..checking import check_world, sum_of
from ..form import Side, Tile, World, WorldFault, read_world
from ..fronts import border_of_frame, frame_of, places_in_world, run
from ..making import border_places
from ..parents import error_of, make_parent, together
from .common import (
    SIMPLIFY, VDPM, WithWorld, build, grid_text, needs_simplify, random_field, read_obj, some_cut,
)
from .cutting import ball, obj_text

PAIRS = int(os.environ.get("WORLD_TESTS_PAIRS", "20"))


def random_script(chance: random.Random, world: World, tile: Tile) -> str:
    """A script that leads to some front: splits in any order, or a view."""
    if chance.random() < 0.3:
        eye = [chance.randrange(-400, 400) for _ in range(3)]
        numbers = [*eye, 1000, chance.choice((0, 20, 200, 2000))]
        return "v " + " ".join(map(str, numbers)) + "\nw\n"
    data = world.stream(tile).read_bytes()
    records = int.from_bytes(data[20:24], "little")
    tries = [chance.randrange(records) for _ in range(chance.randrange(4 * records + 1))]
    return "".join(f"s {record}\n" for record in tries) + "w\n" if records else "w\n"


@needs_simplify
class Meeting(WithWorld):
    def check_fronts(self, world: World, seed: int, pairs: int) -> None:
        """Random fronts of tiles of random levels that make up the world: what is left of their
        border sides is always the outline, and each is one of its own tile alone. Put together they
        are a manifold without any mending."""
        chance = random.Random(seed)
        cut, tried = world.level(0), 0
        outline: Set[Side] = set()
        while tried < pairs:
            frames = [
                frame_of(VDPM, world, tile, random_script(chance, world, tile)) for tile in cut
            ]
            shown = [(places_in_world(f, tile.offset), f.faces) for f, tile in zip(frames, cut)]
            whole = together(shown)
            self.assertEqual((whole.dropped, whole.split), (0, 0))
            borders = [border_of_frame(f, tile.offset) for f, tile in zip(frames, cut)]
            outline = outline or set(sum_of(borders))
            self.assertEqual(set(border_places(whole)), outline)
            self.assertEqual(set(sum_of(borders)), outline)
            self.assertEqual(len(outline), world.outline)
            cut = some_cut(chance, world)
            owner = {side: n for n, sides in enumerate(borders) for side in sides}
            met = {
                frozenset((number, owner[end, start]))
                for (start, end), number in owner.items() if (end, start) in owner
            }
            self.assertTrue(all(len(pair) == 2 for pair in met))
            tried += max(1, len(met))

    def test_random_fronts_of_a_height_field_meet(self) -> None:
        field = random_field(random.Random(5), 17, 21, 0.02)
        world = self.cut(self.file("field.asc", grid_text(field, 10)), 60)
        build(world, 80)
        self.assertGreater(world.levels, 2)
        check_world(VDPM, world, 1)
        self.check_fronts(world, 6, PAIRS)

    def test_random_fronts_of_a_closed_surface_meet(self) -> None:
        world = self.cut(self.file("ball.obj", obj_text(*ball(12, 17))), 50)
        build(world, 80)
        self.assertEqual(world.outline, 0)
        self.assertEqual(len(check_world(VDPM, world, 1)), len(world.tiles))
        self.check_fronts(world, 7, PAIRS)


@needs_simplify
class Checking(WithWorld):
    """What stands in the way of meeting is told."""

    def setUp(self) -> None:
        super().setUp()
        field = random_field(random.Random(8), 9, 9)
        self.world = self.cut(self.file("field.asc", grid_text(field, 10)), 32)
        build(self.world, 40)
        self.tile = self.world.tiles["t01"]

    def refused(self, said: str) -> None:
        with self.assertRaisesRegex(WorldFault, said):
            check_world(VDPM, read_world(self.world.folder), 1)

    def test_a_stream_whose_border_may_be_collapsed(self) -> None:
        mesh = self.world.mesh(self.tile).read_bytes()
        self.world.stream(self.tile).write_bytes(run([str(VDPM), "build"], mesh))
        self.refused("t01: .* vertices of the border may be collapsed, the first at .*keep-border")

    def test_a_stream_of_another_border(self) -> None:
        mesh = self.world.mesh(self.tile)
        mesh.write_bytes(mesh.read_bytes().rpartition(b"f ")[0])
        self.refused("t01: the border of its stream isn't that of t01.obj: .* from .* to .* anew")

    def test_an_outline_that_was_not_cut(self) -> None:
        path = self.world.folder / "outline.txt"
        lines = path.read_text().splitlines()
        path.write_text("\n".join(lines[1:]))
        self.refused("its side from .* has no partner and isn't in the outline")
        path.write_text("\n".join([*lines, "0 0 0 9 9 9"]))
        self.refused("no tile has the side from .0, 0, 0. to .9, 9, 9. of the outline")
        path.unlink()
        self.refused("outline.txt can't be read: cut the world anew")

    def test_a_stream_of_another_tile(self) -> None:
        shutil.copy(self.world.stream(self.world.tiles["t10"]), self.world.stream(self.tile))
        shutil.copy(self.world.mesh(self.world.tiles["t10"]), self.world.mesh(self.tile))
        self.refused("its side from .* has no partner and isn't in the outline")

    def test_a_damaged_stream_and_a_missing_one(self) -> None:
        path = self.world.stream(self.tile)
        path.write_bytes(path.read_bytes()[:-4])
        self.refused("t01: .*check ended with status 1.*fault 22 .*: build it anew")
        path.unlink()
        self.refused("t01.vdpm can't be read")

    def test_a_parent_of_other_children(self) -> None:
        parent = self.world.tiles["t"]
        self.world.mesh(parent).write_bytes(self.world.mesh(self.tile).read_bytes())
        mesh = self.world.mesh(parent).read_bytes()
        self.world.stream(parent).write_bytes(run([str(SIMPLIFY), "--keep-border"], mesh))
        self.refused("t: its border isn't that of its children")


@needs_simplify
class Parents(WithWorld):
    def setUp(self) -> None:
        super().setUp()
        field = random_field(random.Random(9), 13, 13)
        self.world = self.cut(self.file("field.asc", grid_text(field, 10)), 72)
        build(self.world, 150)
        self.parent = self.world.tiles["t"]

    def points(self, tile: Tile) -> List[List[int]]:
        places, _ = read_obj(self.world.mesh(tile))
        return [[a + b for a, b in zip(place, tile.offset)] for place in places]

    def test_a_parent_has_as_many_faces_as_it_may_and_no_more(self) -> None:
        counts: Dict[int, int] = {}
        for most in (0, 120, 150, 10**6):
            counts[most] = make_parent(VDPM, self.world, self.parent, most).faces
        inner = sum(tile.faces for tile in self.world.level(0))
        self.assertLessEqual(counts[120], 120)
        self.assertLess(120, counts[150])
        self.assertLessEqual(counts[150], 150)
        self.assertEqual(counts[10**6], inner)
        self.assertLess(counts[0], counts[120])

    def test_no_vertex_is_farther_than_the_error(self) -> None:
        made = make_parent(VDPM, self.world, self.parent, 100)
        self.assertEqual(made.error, error_of(self.world, self.parent))
        own = self.points(self.parent)
        for tile in self.world.level(0):
            for point in self.points(tile):
                squared = min(sum((a - b) ** 2 for a, b in zip(point, other)) for other in own)
                self.assertLessEqual(squared, made.error**2)

    def test_a_tile_that_was_cut_has_no_children(self) -> None:
        with self.assertRaisesRegex(WorldFault, "t00 was cut from the input"):
            make_parent(VDPM, self.world, self.world.tiles["t00"], 10)
