"""What the tests of worlds have in common: small inputs, and a world made of one."""
import os
import random
import sys
import tempfile
import unittest
from pathlib import Path
from typing import Dict, Iterable, List, Optional, Set, Tuple

from mesh_files.reading import read_soup

from ..form import Corners, Place, Tile, World, moved, read_world
from ..fronts import run
from ..inputs import Asked
from ..making import make_world
from ..parents import make_parent

TOP = Path(__file__).resolve().parent.parent.parent.parent
sys.path.insert(0, str(TOP / "tests"))

from model.mesh import is_oriented_manifold as _is_manifold  # noqa: E402

VDPM = Path(os.environ.get("VIEWER_TESTS_PROGRAM", TOP / "vdpm"))
Triangle = Tuple[Place, Place, Place]


def program(name: str) -> Path:
    """A program beside vdpm, or else at the top of the repository."""
    beside = VDPM.parent / name
    return beside if beside.is_file() else TOP / name


SIMPLIFY = Path(os.environ.get("WORLD_TESTS_SIMPLIFY", program("simplify")))
needs_simplify = unittest.skipUnless(SIMPLIFY.is_file(), "there is no program simplify")


def is_oriented_manifold(faces: List[Corners]) -> bool:
    """Whether a tile's faces are what `simplify` takes, by the model of the definitions."""
    return _is_manifold(faces)


def turned(a: Place, b: Place, c: Place) -> Triangle:
    """A triangle from its least corner on, so that equal ones are equal."""
    return min((a, b, c), (b, c, a), (c, a, b))


def triangles(places: List[Place], faces: Iterable[Corners]) -> Set[Triangle]:
    return {turned(places[a], places[b], places[c]) for a, b, c in faces}


def read_obj(path: Path) -> Tuple[List[Place], List[Corners]]:
    soup = read_soup(path)
    numbers, corners = map(int, soup.points), iter(soup.corners)
    return list(zip(numbers, numbers, numbers)), list(zip(corners, corners, corners))


def tile_faces(world: World, tile: Tile) -> Set[Triangle]:
    """A tile's faces by places of the world."""
    places, faces = read_obj(world.mesh(tile))
    return triangles([moved(place, tile.offset) for place in places], faces)


class WithWorld(unittest.TestCase):
    """A folder for each test, and what worlds have to be whatever was cut."""

    def setUp(self) -> None:
        room = tempfile.TemporaryDirectory()
        self.addCleanup(room.cleanup)
        self.room = Path(room.name)
        self.said: List[str] = []

    def file(self, name: str, text: str) -> Path:
        path = self.room / name
        path.write_text(text)
        return path

    def cut(self, source: Path, faces: int, unit: float = 1.0, **more: float) -> World:
        folder = self.room / "world"
        make_world(Asked(source, folder, faces, unit, **more), self.said.append)
        return read_world(folder)

    def check_tiles(self, world: World, most: int) -> None:
        """Each tile is fit for `simplify`, and what world.json says of it is so."""
        for tile in world.level(0):
            places, faces = read_obj(world.mesh(tile))
            self.assertTrue(is_oriented_manifold(faces), tile.name)
            self.assertLessEqual(len(faces), most)
            self.assertEqual((len(places), len(faces)), (tile.vertices, tile.faces))
            self.assertLessEqual(max(abs(c) for place in places for c in place), 32767)
            for name in tile.neighbours:
                self.assertIn(tile.name, world.tiles[name].neighbours)

    def check_whole(self, world: World, wanted: Set[Triangle]) -> None:
        """All tiles together have each of these faces once, and no other."""
        parts = [tile_faces(world, tile) for tile in world.level(0)]
        self.assertEqual(set().union(*parts), wanted)
        self.assertEqual(sum(map(len, parts)), len(wanted))


Field = List[List[Optional[int]]]


def random_field(chance: random.Random, rows: int, columns: int, holes: float = 0.0) -> Field:
    """Heights in rows from the south, None where one isn't known."""
    return [
        [None if chance.random() < holes else chance.randrange(-40, 40) for _ in range(columns)]
        for _ in range(rows)
    ]


def grid_text(field: Field, spacing: int) -> str:
    head = (
        f"ncols {len(field[0])}\nnrows {len(field)}\nxllcorner 0\nyllcorner 0\n"
        f"cellsize {spacing}\nNODATA_value -9999\n"
    )
    rows = [" ".join("-9999" if h is None else str(h) for h in row) for row in reversed(field)]
    return head + "\n".join(rows) + "\n"


def field_faces(field: Field, spacing: int) -> Set[Triangle]:
    """The faces of a height field, with its first point and its lowest height at 0."""
    lowest = min(height for row in field for height in row if height is not None)
    found = set()
    for row in range(len(field) - 1):
        for column in range(len(field[0]) - 1):
            south, north = field[row], field[row + 1]
            steps = ((0, 0), (0, 1), (1, 1), (1, 0))  # row, column, counterclockwise
            heights = (south[column], south[column + 1], north[column + 1], north[column])
            a, b, c, d = (
                None if h is None else ((column + j) * spacing, (row + i) * spacing, h - lowest)
                for (i, j), h in zip(steps, heights)
            )
            for p, q, r in ((a, b, c), (a, c, d)):
                if p is not None and q is not None and r is not None:
                    found.add(turned(p, q, r))
    return found


def build(world: World, parent_faces: int) -> None:
    """Makes the streams of all tiles, and the parents, level by level."""
    for level in range(world.levels):
        for tile in world.level(level):
            if level:
                make_parent(VDPM, world, tile, parent_faces)
            mesh = world.mesh(tile).read_bytes()
            world.stream(tile).write_bytes(run([str(SIMPLIFY), "--keep-border"], mesh))


def some_cut(chance: random.Random, world: World) -> List[Tile]:
    """Tiles of any levels that make up the whole world."""
    parents: Dict[str, str] = world.parents()
    waiting = [tile for tile in world.tiles.values() if tile.name not in parents]
    found = []
    while waiting:
        tile = waiting.pop()
        if tile.children and chance.random() < 0.6:
            waiting += [world.tiles[name] for name in tile.children]
        else:
            found.append(tile)
    return found
