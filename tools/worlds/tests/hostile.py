"""Hostile worlds: each is cut, built and met, or refused by name. Fronts are compared from outside,
by the frames of `vdpm view` alone."""
import os
import random
from typing import Dict, List, Set, Tuple

from ..checking import check_world
from ..form import Side, World, WorldFault
from ..fronts import border_of_frame, frame_of
from .common import VDPM, Field, build, grid_text, needs_simplify
from .cutting import ball, obj_text
from .meeting import random_script
from .whole import WALL, WALL_FACES, Points, Polygons, WithPieces, random_surface

FRONTS = int(os.environ.get("WORLD_TESTS_FRONTS", "3"))


def sheet(rows: int, columns: int) -> Tuple[Points, Polygons]:
    """A bent sheet of quads."""
    points: Points = [
        (100 * i, 100 * j, (37 * i * i + 61 * j) % 50) for i in range(rows) for j in range(columns)
    ]
    faces: Polygons = [
        (a, a + columns, a + columns + 1, a + 1)
        for i in range(rows - 1) for a in range(i * columns, (i + 1) * columns - 1)
    ]
    return points, faces


@needs_simplify
class Hostile(WithPieces):
    def meet(self, world: World) -> None:
        """Each front of each tile has the border sides of its file, whatever was played on it; and
        what is left of all together is the outline."""
        self.check_pieces(world)
        build(world, 30)
        check_world(VDPM, world, 1)
        chance = random.Random(5)
        wanted: Dict[str, List[Side]] = {}
        for _ in range(FRONTS):
            for tile in world.level(0):
                frame = frame_of(VDPM, world, tile, random_script(chance, world, tile))
                border = sorted(border_of_frame(frame, tile.offset))
                self.assertEqual(wanted.setdefault(tile.name, border), border)
        self.assertEqual(self.left(wanted), self.outline(world))

    def left(self, borders: Dict[str, List[Side]]) -> Set[Side]:
        """The sides that none runs back beside, each as often as it stands."""
        sides = [side for border in borders.values() for side in border]
        left = set(sides)
        return {(a, b) for a, b in left if sides.count((a, b)) > sides.count((b, a))}

    def outline(self, world: World) -> Set[Side]:
        rows = (world.folder / "outline.txt").read_text().splitlines()
        numbers = [tuple(map(int, row.split())) for row in rows]
        return {((a, b, c), (d, e, f)) for a, b, c, d, e, f in numbers}

    def of_mesh(self, points: Points, faces: Polygons, most: int) -> World:
        return self.cut(self.file("some.obj", obj_text(points, faces)), most)

    def of_field(self, field: Field, most: int) -> World:
        return self.cut(self.file("field.asc", grid_text(field, 10)), most)

    def test_1_a_fin_on_the_line_between_tiles(self) -> None:
        for turned in (False, True):
            self.meet(self.fin(2, turned))

    def test_2_fins_everywhere(self) -> None:
        points, faces = WALL + [(7.0, 20.0, 7.0), (33.0, 20.0, 31.0)], list(WALL_FACES)
        for a, b in zip(range(20), range(1, 21)):
            if b % 5:
                faces.append((a, b, 25 + a % 2))
        self.meet(self.of_mesh(points, faces, 12))

    def test_3_bow_ties_on_the_line(self) -> None:
        """Two sheets that touch in their corners, and so in a line of points."""
        points, faces = sheet(9, 9)
        kept = [face for k, face in enumerate(faces) if (k // 8 + k % 8) % 2 == 0]
        self.meet(self.of_mesh(points, kept, 20))

    def test_4_t_junctions_are_cracks_of_the_input(self) -> None:
        points, faces = sheet(5, 5)
        points += [(200, 150, 30)]
        faces = [face for face in faces if face != (11, 16, 17, 12)] + [(11, 16, 17, 12, 25)]
        self.meet(self.of_mesh(points, faces, 10))

    def test_5_a_hole_through_the_corner_of_tiles(self) -> None:
        points, faces = sheet(9, 9)
        self.meet(self.of_mesh(points, [f for f in faces if 40 not in f], 32))
        field: Field = [[(i * j) % 7 for j in range(9)] for i in range(9)]
        field[4][4] = None
        self.meet(self.of_field(field, 32))

    def test_6_islands_without_data(self) -> None:
        chance = random.Random(6)
        field: Field = [
            [None if chance.random() < 0.35 else chance.randrange(90) for _ in range(17)]
            for _ in range(17)
        ]
        self.meet(self.of_field(field, 24))

    def test_7_strips_of_one_cell(self) -> None:
        self.meet(self.of_field([[3, 1, 4, 1, 5, 9, 2, 6], [2, 7, 1, 8, 2, 8, 1, 8]], 4))
        points, faces = sheet(2, 12)
        self.meet(self.of_mesh(points, faces, 3))

    def test_8_degrees_are_refused(self) -> None:
        text = "ncols 2\nnrows 2\nxllcorner 7\nyllcorner 46\ncellsize 0.0003\n1 2 3 400\n"
        with self.assertRaisesRegex(WorldFault, "in degrees(.|\n)*gdalwarp .*EPSG:32632"):
            self.cut(self.file("alps.asc", text), 10, unit=0.0)

    def test_9_a_ball_of_the_full_range(self) -> None:
        points, faces = ball(9, 14)
        wide = [tuple(round(32.767 * c) for c in point) for point in points]
        self.meet(self.of_mesh(wide, faces, 60))

    def test_10_faces_that_stand_twice_or_look_both_ways(self) -> None:
        points, faces = sheet(6, 6)
        faces += [face[::-1] for face in faces[4:9]] + faces[7:12] + [(0, 0, 1), (3, 3, 3)]
        self.meet(self.of_mesh(points, faces, 9))

    def test_11_a_strip_with_half_a_turn(self) -> None:
        ring: Points = [
            (400 * (i % 5), 300 * (i * i % 7), 90 * j) for i in range(8) for j in (0, 1)
        ]
        faces: Polygons = []
        for i in range(8):
            a, b = 2 * i, 2 * i + 1
            c, d = (2 * i + 2, 2 * i + 3) if i < 7 else (1, 0)
            faces += [(a, c, b), (b, c, d)]
        self.meet(self.of_mesh(ring, faces, 5))

    def test_12_numbers_that_are_none_and_far_points(self) -> None:
        points, faces = sheet(3, 3)
        text = obj_text(points, faces)
        for line, said in (("v nan 0 0", "line 14: a coord"), ("v 0 0 -inf", "line 14: a coord")):
            with self.assertRaisesRegex(WorldFault, said):
                self.cut(self.file("bad.obj", text + line + "\n"), 4)
        with self.assertRaisesRegex(WorldFault, "units across: take a larger unit"):
            self.cut(self.file("far.obj", text + "v 1e12 0 0\nf 1 2 10\n"), 4)
        for coordinate, unit, said in (
            ("1e308 0 0\nv -1e308", 1.0, "wider or higher than the largest number"),
            ("1e308", 0.001, r"1e\+308 is too far in units of 0.001: take a larger unit"),
        ):
            far = f"v {coordinate} 0 0\nf 1 2 10\n"
            with self.assertRaisesRegex(WorldFault, said):
                self.cut(self.file("far.obj", text + far), 4, unit=unit)
        field = "ncols 2\nnrows 2\ncellsize 1\n1e308 2\n3 "
        for last, unit, said in (("-1e308", 0.0, "largest number"),
                                 ("4", 1e-3, "too far in units")):
            with self.assertRaisesRegex(WorldFault, said):
                self.cut(self.file("far.asc", field + last), 4, unit=unit)

    def test_random_surfaces_in_random_tiles(self) -> None:
        chance = random.Random(13)
        for _ in range(FRONTS):
            self.meet(self.of_mesh(*random_surface(chance), chance.choice((8, 20, 60))))
