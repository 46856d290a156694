"""Whether the tiles that were cut are pieces of one manifold, seen from outside: by their files
alone, and by the model of the definitions."""
import os
import random
from typing import Dict, List, Tuple
from unittest import mock

from .. import soups
from ..checking import check_world
from ..form import Corners, Place, World, WorldFault, moved
from ..parting import Parted
from .common import (
    VDPM, WithWorld, build, is_oriented_manifold, needs_simplify, read_obj,
)
from .cutting import ball, obj_text

ROUNDS = int(os.environ.get("WORLD_TESTS_CUTS", "12"))
Points = List[Tuple[float, ...]]
Polygons = List[Tuple[int, ...]]
Key = Tuple[str, int]  # a tile and its vertex


def glued(world: World) -> Tuple[List[Corners], Dict[Key, int], List[Place]]:
    """The faces of all tiles over one set of vertices: two border sides at the same places, in two
    tiles and in no third, have the same ends."""
    meshes = {tile.name: read_obj(world.mesh(tile)) for tile in world.level(0)}
    faces = [
        [(name, v) for v in face] for name, (_, corners) in meshes.items() for face in corners
    ]
    at = {
        (name, v): moved(place, world.tiles[name].offset)
        for name, (places, _) in meshes.items() for v, place in enumerate(places)
    }
    sides = {(f[i], f[(i + 1) % 3]) for f in faces for i in range(3)}
    groups: Dict[frozenset, List[Tuple[Key, Key]]] = {}
    for a, b in sides:
        if (b, a) not in sides:
            groups.setdefault(frozenset((at[a], at[b])), []).append((a, b))
    same = {key: key for key in at}

    def find(key: Key) -> Key:
        return key if same[key] == key else find(same[key])

    for pair in groups.values():
        if len(pair) == 2 and pair[0][0][0] != pair[1][0][0] and at[pair[0][0]] == at[pair[1][1]]:
            (a, b), (c, d) = pair
            same[find(a)] = find(d)
            same[find(b)] = find(c)
    numbers = {key: n for n, key in enumerate(sorted(set(map(find, at))))}
    vertex = {key: numbers[find(key)] for key in at}
    whole = [(vertex[a], vertex[b], vertex[c]) for a, b, c in faces]
    return whole, vertex, [at[key] for key in sorted(numbers)]


def random_surface(chance: random.Random) -> Tuple[Points, Polygons]:
    """A ball with holes, and with fins now and then."""
    points, faces = ball(chance.randrange(4, 12), chance.randrange(4, 16))
    faces = [face for face in faces if chance.random() > chance.choice((0, 0.02, 0.2))]
    for _ in range(chance.choice((0, 0, 3))):
        face = chance.choice(faces)
        faces.append((face[0], face[1], chance.randrange(len(points))))
    return points, faces


WALL: Points = [(x, 0, z) for x in range(0, 50, 10) for z in range(0, 50, 10)]
WALL_FACES: Polygons = [
    (5 * i + j, 5 * i + j + 5, 5 * i + j + 6, 5 * i + j + 1) for i in range(4) for j in range(4)
]


class WithPieces(WithWorld):
    def check_pieces(self, world: World) -> None:
        faces, vertex, _ = glued(world)
        self.assertTrue(is_oriented_manifold(faces))
        for tile in world.level(0):
            own = [vertex[tile.name, v] for v in range(tile.vertices)]
            self.assertEqual(len(set(own)), len(own), "a tile has one vertex of the whole twice")

    def fin(self, along: int, turned: bool) -> World:
        """A wall, and a fin on some of its edges in the line that parts tiles, cut in two."""
        points = WALL + [(20.0, 15.0, z) for z in (10.0, 20.0, 30.0)]
        at = [10 + j for j in range(1, 4)]
        faces = list(WALL_FACES)
        for j in range(along):
            both = [(at[j], at[j + 1], 25 + j + 1), (at[j], 25 + j + 1, 25 + j)]
            faces += [face[::-1] for face in both] if turned else both
        return self.cut(self.file("fin.obj", obj_text(points, faces)), 20)


class Pieces(WithPieces):
    def test_random_cuts_are_pieces_of_one_manifold(self) -> None:
        chance = random.Random(11)
        for _ in range(ROUNDS):
            surface = self.file("some.obj", obj_text(*random_surface(chance)))
            self.check_pieces(self.cut(surface, chance.choice((3, 8, 20, 60))))
            self.assertNotIn("touches itself: take", " ".join(self.said))

    def test_a_fin_on_the_line_between_tiles_is_cut_open_in_both(self) -> None:
        for along, turned in ((1, False), (1, True), (2, False), (2, True)):
            self.said.clear()
            world = self.fin(along, turned)
            self.assertGreater(len(world.level(0)), 1)
            self.assertIn(f"{along} edges between tiles are cut open in all", " ".join(self.said))
            self.check_pieces(world)

    @needs_simplify
    def test_worlds_with_fins_pass_the_check(self) -> None:
        for turned in (False, True):
            world = self.fin(2, turned)
            build(world, 10)
            check_world(VDPM, world, 1)

    @needs_simplify
    def test_a_tile_that_touches_itself_is_named(self) -> None:
        """As planes part faces, without moving any."""
        with mock.patch.object(soups, "parted", lambda _, sides, __: Parted(sides, 0)):
            world = self.cut(self.file("ball.obj", obj_text(*ball(9, 13))), 9)
            build(world, 10)
            with self.assertRaisesRegex(WorldFault, "it touches itself at .*more faces a tile"):
                check_world(VDPM, world, 1)
            world = self.fin(1, False)
            build(world, 10)
            with self.assertRaisesRegex(WorldFault, "both have the side .* three faces or more"):
                check_world(VDPM, world, 1)
