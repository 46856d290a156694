"""Height fields as meshes: one of few enough points is an OBJ text of whole numbers, as world.py
cuts it, with a first line as `prepare` writes it, which leads back to the file's coordinates."""
import tempfile
from pathlib import Path
from typing import Callable, NamedTuple

from worlds.form import MOST_FACES, WorldFault
from worlds.heights import FIELDS
from worlds.inputs import Asked
from worlds.making import make_world
from worlds.rasters import is_raster

from .program import ProgramEnded

CUT = "./viewer --world cuts it into tiles"


class Steps(NamedTuple):
    """How far the points of a PGM picture are apart, and how high a step of its grey is."""

    spacing: float = 1.0
    rise: float = 1.0


ONE = Steps()


def is_field(path: Path) -> bool:
    return path.suffix.lower() in FIELDS or is_raster(path)


def without_name(path: Path, fault: WorldFault) -> str:
    """What is wrong with a file, which is named by who tells it."""
    name, told = f"{path}: ", str(fault)
    return told[len(name) :] if told.startswith(name) else told


def field_text(path: Path, steps: Steps, say: Callable[[str], None]) -> bytes:
    """The text of a field; ProgramEnded where it has a fault, or is too large for one mesh."""
    with tempfile.TemporaryDirectory(prefix="field-") as room:
        try:
            world = make_world(Asked(path, Path(room), MOST_FACES, 0.0, *steps), say)
        except WorldFault as fault:
            raise ProgramEnded(without_name(path, fault)) from None
        tiles = world.level(0)
        if len(tiles) > 1:
            faces = sum(tile.faces for tile in tiles)
            raise ProgramEnded(f"it has {faces:,} faces, too many for one mesh", CUT)
        places = (world.unit * place for place in tiles[0].offset)
        x, y, z = (start + place for start, place in zip(world.origin, places))
        head = f"# coordinate = {world.unit!r} / 1 * place + ({x!r} {y!r} {z!r})\n"
        return head.encode("ascii") + world.mesh(tiles[0]).read_bytes()
