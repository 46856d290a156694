"""Cutting: nothing is lost, and each tile is fit to be simplified by itself."""
import random
import struct
from math import cos, pi, sin
from typing import List, Tuple

from ..cutting import Grid, cut_grid
from ..form import Corners, Place, Side, WorldFault, below, box_of
from ..heights import read_heights
from ..mending import border_sides, mended
from ..parents import together
from .common import (
    Field, WithWorld, field_faces, grid_text, is_oriented_manifold, random_field, triangles, turned,
)


def obj_text(points: List[Tuple[float, ...]], faces: List[Tuple[int, ...]]) -> str:
    lines = ["v " + " ".join(f"{c:g}" for c in point) for point in points]
    lines += ["f " + " ".join(str(corner + 1) for corner in face) for face in faces]
    return "\n".join(lines) + "\n"


def ball(rings: int, around: int) -> Tuple[List[Tuple[float, ...]], List[Tuple[int, ...]]]:
    """A closed surface of quads and triangles, of whole coordinates."""
    points: List[Tuple[float, ...]] = [(0, 0, 1000), (0, 0, -1000)]
    for i in range(1, rings):
        for j in range(around):
            high, turn = pi * i / rings, 2 * pi * j / around
            x, y, z = sin(high) * cos(turn), sin(high) * sin(turn), cos(high)
            points.append((round(1000 * x), round(1000 * y), round(1000 * z)))

    def at(i: int, j: int) -> int:
        return 2 + (i - 1) * around + j % around

    faces: List[Tuple[int, ...]] = []
    for j in range(around):
        faces += [(0, at(1, j), at(1, j + 1)), (1, at(rings - 1, j + 1), at(rings - 1, j))]
        faces += [
            (at(i, j), at(i + 1, j), at(i + 1, j + 1), at(i, j + 1)) for i in range(1, rings - 1)
        ]
    return points, faces


class Fields(WithWorld):
    def test_tiles_of_random_height_fields_have_its_faces(self) -> None:
        chance = random.Random(1)
        for holes in (0.0, 0.0, 0.05, 0.3):
            rows, columns = chance.randrange(2, 20), chance.randrange(2, 20)
            field = random_field(chance, rows, columns, holes)
            faces = field_faces(field, 10)
            if not faces:
                continue
            most = chance.choice((2, 7, 30, 10**6))
            world = self.cut(self.file("field.asc", grid_text(field, 10)), most)
            self.check_tiles(world, most)
            self.check_whole(world, faces)

    def test_a_world_is_cut_where_coordinates_would_be_too_great(self) -> None:
        field = random_field(random.Random(2), 5, 9)
        world = self.cut(self.file("field.asc", grid_text(field, 20_000)), 10**6)
        self.check_tiles(world, 10**6)
        self.check_whole(world, field_faces(field, 20_000))
        self.assertEqual(len(world.level(0)), 8)  # two rows, and four columns of two cells
        spans = [b - a for t in world.tiles.values() for a, b in zip(t.low, t.high)]
        self.assertLessEqual(max(spans), 65_534)

    def test_the_border_of_a_field_without_holes_is_known(self) -> None:
        for rows, columns in ((2, 2), (2, 7), (6, 2), (4, 5)):
            field = random_field(random.Random(rows), rows, columns)
            heights = read_heights(self.file("field.asc", grid_text(field, 10)), 1, 1)
            grid = Grid(heights, 1.0, (0.0, 0.0, 0.0))
            (half,) = cut_grid(grid, 1000, ())
            assert half.piece is not None and half.piece.border is not None
            done = mended(half.piece.places, half.piece.faces)
            self.assertEqual(sorted(done.border), sorted(half.piece.border))
            self.assertEqual((done.dropped, done.split), (0, 0))

    def test_tiles_beside_one_another_are_neighbours(self) -> None:
        field = random_field(random.Random(3), 5, 5)
        world = self.cut(self.file("field.asc", grid_text(field, 10)), 8)
        beside = {tile.name: tile.neighbours for tile in world.level(0)}
        self.assertEqual(beside["t00"], ("t01", "t10"))
        self.assertEqual(beside["t11"], ("t01", "t10"))
        self.assertEqual((world.outline, world.tiles["t"].children), (16, tuple(sorted(beside))))

    def test_parents_are_there_as_far_as_they_fit(self) -> None:
        field = random_field(random.Random(12), 5, 17)
        world = self.cut(self.file("field.asc", grid_text(field, 8_000)), 16)
        self.check_tiles(world, 16)
        parents = [tile for tile in world.tiles.values() if tile.level]
        self.assertEqual({(t.level, len(t.children)) for t in parents}, {(1, 2)})
        self.assertEqual(len(world.parents()), len(world.level(0)))  # and the root has none
        self.assertNotIn("t", world.tiles)

    def test_a_tile_alone_beside_a_void_has_a_parent_too(self) -> None:
        field: Field = [[1 if row < 6 else None] * 9 for row in range(9)]
        field[8][7] = field[8][8] = field[7][8] = 1
        world = self.cut(self.file("field.asc", grid_text(field, 10)), 8)
        roots = set(world.tiles) - set(world.parents())
        self.assertEqual(roots, {"t"})

    def test_a_field_of_which_nothing_is_known_is_refused(self) -> None:
        with self.assertRaisesRegex(WorldFault, "no point of the height field has a height"):
            self.cut(self.file("field.asc", grid_text([[None, None]] * 2, 1)), 2)

    def test_a_unit_longer_than_a_step_is_refused(self) -> None:
        with self.assertRaisesRegex(WorldFault, "nearer than a unit"):
            self.cut(self.file("field.asc", grid_text([[1, 1]] * 2, 1)), 2, unit=2.0)


class Soups(WithWorld):
    def test_tiles_of_a_closed_surface_have_its_faces(self) -> None:
        points, polygons = ball(9, 13)
        path = self.file("ball.obj", obj_text(points, polygons))
        places = [(int(x), int(y), int(z)) for x, y, z in points]
        low, _ = box_of(places)
        fans = []
        for named in polygons:
            least = min(range(len(named)), key=lambda i: places[named[i]])
            first, *rest = named[least:] + named[:least]
            fans += [(first, b, c) for b, c in zip(rest, rest[1:])]
        wanted = triangles([below(place, low) for place in places], fans)
        for most in (2, 11, 60, 1000):
            world = self.cut(path, most)
            self.check_tiles(world, most)
            self.check_whole(world, wanted)
            self.assertEqual(world.outline, 0)

    def test_an_stl_file_is_cut_as_its_triangles(self) -> None:
        points, polygons = ball(5, 7)
        low, _ = box_of([(int(x), int(y), int(z)) for x, y, z in points])
        data, wanted = bytes(80), set()
        fans = [(p[0], b, c) for p in polygons for b, c in zip(p[1:], p[2:])]
        data += struct.pack("<I", len(fans))
        for fan in fans:
            data += struct.pack("<12fH", 0, 0, 0, *(c for corner in fan for c in points[corner]), 0)
            a, b, c = ((int(x), int(y), int(z)) for x, y, z in (points[corner] for corner in fan))
            wanted.add(turned(below(a, low), below(b, low), below(c, low)))
        path = self.room / "ball.stl"
        path.write_bytes(data)
        world = self.cut(path, 20)
        self.check_tiles(world, 20)
        self.check_whole(world, wanted)

    def test_decimals_become_whole_numbers_of_units(self) -> None:
        path = self.file("one.obj", "v 0.25 -1.5 0\nv 2.25 -1.5 0\nv 0.25 3 1e-2\nf 1/1 2//2 -1\n")
        world = self.cut(path, 2, unit=0.01)
        self.assertEqual(world.origin, (0.25, -1.5, 0.0))
        self.check_whole(world, {turned((0, 0, 0), (200, 0, 0), (0, 450, 1))})

    def test_without_a_unit_the_world_fits_into_one_tile(self) -> None:
        text = "v 0 0 0\nv 1000 0 0\nv 0 700 0\nf 1 2 3\n"
        world = self.cut(self.file("one.obj", text), 2, unit=0.0)
        self.assertEqual(world.unit, 0.02)
        self.assertEqual(world.tiles["t"].high, (50_000, 35_000, 0))

    def test_faults_of_a_file_are_named(self) -> None:
        for text, said in (
            ("v 1 2\n", "bad.obj: line 1: a vertex has three"), ("v 1 2 3\n", "has no faces"),
            ("v 1 2 3\nf 1 1\n", "line 2: a face has three"), ("v 1 2 x\n", "line 1: a coord"),
            ("v 1 2 3\nf 1 2 3\n", "line 2: vertex 2 is named, and 1 are read so far"),
            ("v nan 2 3\n", "line 1: a coordinate is NaN"),
        ):
            with self.assertRaisesRegex(WorldFault, said):
                self.cut(self.file("bad.obj", text), 2)

    def test_faces_that_cant_be_parted_are_named(self) -> None:
        long = "v 0 0 0\nv 70000 0 0\nv 0 1 0\nf 1 2 3\n"
        with self.assertRaisesRegex(WorldFault, "a face is longer than 65,534 units"):
            self.cut(self.file("long.obj", long), 2)
        star = "".join(f"v {x} {y} 0\nv {-x} {-y} 0\n" for x, y in ((1, 0), (2, 1), (0, 3)))
        star += "v 0 0 0\nf 1 2 7\nf 3 4 7\nf 5 6 7\n"
        with self.assertRaisesRegex(WorldFault, "have one middle"):
            self.cut(self.file("star.obj", star), 2)

    def test_a_face_that_stands_often_is_one(self) -> None:
        text = "v 0 0 0\nv 6 0 0\nv 0 9 0\nv 9 9 0\n" + 3 * "f 1 2 3\nf 2 3 1\nf 3 2 1\n"
        more = text + "f 2 4 3\n" + 5 * "f 1 1 1\n"
        for text, dropped, faces in (
            (text, 8, [((0, 0, 0), (6, 0, 0), (0, 9, 0))]),
            (more, 13, [((0, 0, 0), (6, 0, 0), (0, 9, 0)), ((6, 0, 0), (9, 9, 0), (0, 9, 0))]),
        ):
            self.said.clear()
            world = self.cut(self.file("often.obj", text), 2)
            self.assertEqual(
                self.said, [f"{dropped} degenerate or duplicate faces were left out"]
            )
            self.check_tiles(world, 2)
            self.check_whole(world, {turned(*face) for face in faces})
        long = "v 0 0 0\nv 70000 0 0\nv 0 1 0\n" + 3 * "f 1 2 3\n"
        with self.assertRaisesRegex(WorldFault, "a face is longer than 65,534 units"):
            self.cut(self.file("long.obj", long), 2)


SQUARE: List[Place] = [(0, 0, 0), (1, 0, 0), (1, 1, 0), (0, 1, 0)]


class Mending(WithWorld):
    """Shapes that a cut leaves now and then."""

    def mend(self, places: List[Place], faces: List[Corners]) -> Tuple[int, int, int]:
        """How many vertices, faces and border sides come out, which are a manifold."""
        done = mended(places, faces)
        self.assertTrue(is_oriented_manifold(done.mesh.faces))
        self.assertEqual(sorted(border_sides(done.mesh.faces)), sorted(done.border))
        return len(done.mesh.places), len(done.mesh.faces), len(done.border)

    def test_coarse_fronts_that_fold_are_joined_at_their_borders_alone(self) -> None:
        fan = [(0, 1, 4), (1, 2, 4), (2, 3, 4), (3, 0, 4)]
        beside = [(2, 0, 0), (1, 0, 0), (1, 1, 0), (2, 1, 0), (1, 0, 0)]
        turned = [(c, b, a) for a, b, c in fan]
        whole = together([([*SQUARE, SQUARE[0]], fan), (beside, turned)])
        self.assertTrue(is_oriented_manifold(whole.mesh.faces))
        came = len(whole.mesh.places), len(whole.mesh.faces), len(whole.border)
        self.assertEqual((came, whole.dropped, whole.split), ((8, 8, 6), 0, 0))
        edge: Side = ((1, 0, 0), (1, 1, 0))
        opened = together([([*SQUARE, SQUARE[0]], fan), (beside, turned)], [edge])
        self.assertEqual((len(opened.border), opened.split), (8, 2))

    def test_a_tile_that_touches_itself_in_a_vertex(self) -> None:
        tie = SQUARE + [(2, 2, 0), (1, 2, 0)]
        self.assertEqual(self.mend(tie, [(0, 1, 2), (2, 4, 5)]), (6, 2, 6))

    def test_a_hole_and_one_that_touches_the_outer_border(self) -> None:
        steps = [(i, j, 0) for j in range(4) for i in range(4)]
        # Point 5 is a corner of both the hole and the cell that is missing at the outside.
        for missing, came in (([5], (16, 16, 16)), ([5, 0], (16, 14, 16))):
            faces: List[Corners] = []
            for a in range(11):
                if a % 4 < 3 and a not in missing:
                    faces += [(a, a + 1, a + 5), (a, a + 5, a + 4)]
            self.assertEqual(self.mend(steps, faces), came)

    def test_a_tile_that_is_all_border(self) -> None:
        self.assertEqual(self.mend(SQUARE, [(0, 1, 2), (0, 2, 3)]), (4, 2, 4))
        self.assertEqual(self.mend(SQUARE, [(0, 1, 2)]), (3, 1, 3))

    def test_three_faces_at_a_side_and_two_that_turn_against_each_other(self) -> None:
        more = SQUARE + [(0, 0, 1)]
        self.assertEqual(self.mend(more, [(0, 1, 2), (0, 2, 3), (0, 2, 4)]), (9, 3, 9))
        self.assertEqual(self.mend(SQUARE, [(0, 1, 2), (2, 3, 0)]), (4, 2, 4))
        self.assertEqual(self.mend(SQUARE, [(0, 1, 2), (0, 3, 2)]), (6, 2, 6))

    def test_faces_that_stand_twice_or_became_edges(self) -> None:
        twice = SQUARE + [(0, 0, 0)]
        self.assertEqual(self.mend(twice, [(0, 1, 2), (1, 2, 4), (2, 1, 0), (0, 4, 3)]), (3, 1, 3))

    def test_a_strip_with_half_a_turn(self) -> None:
        ring = [(i, j, i * j) for i in range(5) for j in range(2)]
        faces: List[Corners] = []
        for i in range(5):
            a, b = 2 * i, 2 * i + 1
            c, d = (2 * i + 2, 2 * i + 3) if i < 4 else (1, 0)
            faces += [(a, c, b), (b, c, d)]
        vertices, count, border = self.mend(ring, faces)
        self.assertEqual((vertices, count, border), (12, 10, 12))

    def test_random_soups(self) -> None:
        chance = random.Random(4)
        for _ in range(200):
            count = chance.randrange(3, 9)
            places = [(chance.randrange(3), chance.randrange(3), 0) for _ in range(count)]
            faces = [
                (chance.randrange(count), chance.randrange(count), chance.randrange(count))
                for _ in range(chance.randrange(1, 14))
            ]
            self.mend(places, faces)
