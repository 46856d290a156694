"""A picture that lies over a terrain as seen from above: a PNG or JPEG file, by where its edges are
in the input's coordinates or by a world file beside it, or what GDAL makes such a file of.

Where a place is in the picture is a sum of products each way, u to the right and v downwards, from
0 to 1: four numbers each, which hold at each level of detail, and in each tile of a world.
"""
import struct
import subprocess
import tempfile
from math import isfinite
from pathlib import Path
from typing import List, NamedTuple, Optional, Sequence, Tuple

from lods.levels import levels_of
from worlds.rasters import GDAL, is_raster

from .model import Model

PNG, JPEG = b"\x89PNG\r\n\x1a\n", b"\xff\xd8"
_WORLD_FILES = (".wld", ".pgw", ".pngw", ".jgw", ".jpgw")
_FRAMES = {*range(0xC0, 0xD0)} - {0xC4, 0xC8, 0xCC}  # of a JPEG file, which tell its size
Row = Tuple[float, float, float, float]  # by x, y and z, and what is added


class BadDrape(Exception):
    """Why a picture can't be laid over a terrain."""


class Drape(NamedTuple):
    """A picture, and where a place of the input is in it."""

    data: bytes
    kind: str
    across: Row
    down: Row

    def rows(self, unit: float, origin: Sequence[float]) -> List[Row]:
        """The same for places in units from an origin."""
        found = []
        for x, y, z, more in (self.across, self.down):
            more += x * origin[0] + y * origin[1] + z * origin[2]
            found.append((unit * x, unit * y, unit * z, more))
        return found


def _kind_and_size(data: bytes) -> Tuple[str, int, int]:
    if data.startswith(PNG):
        return ("image/png", *struct.unpack_from(">2I", data, 16))
    at = 2
    while data.startswith(JPEG) and at + 9 <= len(data) and data[at] == 0xFF:
        if data[at + 1] in _FRAMES:
            high, wide = struct.unpack_from(">2H", data, at + 5)
            return "image/jpeg", wide, high
        at += 2 + int.from_bytes(data[at + 2 : at + 4], "big")
    raise BadDrape("the picture is no PNG or JPEG file")


def _by_extent(west: float, south: float, east: float, north: float) -> Tuple[Row, Row]:
    if not (west < east and south < north and all(map(isfinite, (west, south, east, north)))):
        raise BadDrape("the picture's edges are told as west, south, east and north")
    wide, high = east - west, north - south
    return (1 / wide, 0.0, 0.0, -west / wide), (0.0, -1 / high, 0.0, north / high)


def _by_world_file(path: Path, wide: int, high: int) -> Tuple[Row, Row]:
    """Its six numbers lead from columns and rows to the middles of pixels."""
    try:
        a, d, b, e, c, f = map(float, path.read_text(encoding="latin-1").split())
        whole = a * e - b * d
        across = (e / whole / wide, -b / whole / wide, 0.0)
        down = (-d / whole / high, a / whole / high, 0.0)
    except (ValueError, ZeroDivisionError):
        raise BadDrape(f"{path} isn't the six numbers of a world file") from None
    return (
        (*across, 0.5 / wide - across[0] * c - across[1] * f),
        (*down, 0.5 / high - down[0] * c - down[1] * f),
    )


def _beside(path: Path) -> Optional[Path]:
    found = (path.with_suffix(ending) for ending in _WORLD_FILES)
    return next((one for one in found if one.is_file()), None)


def drape_of(words: Sequence[str]) -> Drape:
    """Of a picture's path, with its four edges or a world file beside it."""
    path = Path(words[0])
    try:
        if is_raster(path):
            return _by_gdal(path, words[1:])
        data = path.read_bytes()
    except OSError as fault:
        raise BadDrape(f"{path} can't be read: {fault.strerror}") from fault
    kind, wide, high = _kind_and_size(data)
    if len(words) == 1:
        beside = _beside(path)
        if beside is None:
            raise BadDrape(
                f"{path} has no world file beside it, as {path.with_suffix('.wld').name}: tell its"
                " edges, --drape IMAGE WEST SOUTH EAST NORTH"
            )
        return Drape(data, kind, *_by_world_file(beside, wide, high))
    try:
        west, south, east, north = map(float, words[1:])
    except ValueError:
        raise BadDrape("--drape takes a picture, and four numbers or none") from None
    return Drape(data, kind, *_by_extent(west, south, east, north))


def _by_gdal(path: Path, edges: Sequence[str]) -> Drape:
    """GDAL writes the picture, and the world file beside it."""
    with tempfile.TemporaryDirectory() as room:
        made = Path(room) / "drape.png"
        words = [GDAL, "-q", "-of", "PNG", "-co", "WORLDFILE=YES", str(path), str(made)]
        try:
            done = subprocess.run(words, capture_output=True, text=True, check=False)
        except OSError:
            raise BadDrape(f"{path} is read by {GDAL}, which isn't installed") from None
        if done.returncode or not made.is_file():
            raise BadDrape(f"{path}: {GDAL}: {done.stderr.strip().rpartition(chr(10))[2]}")
        return drape_of([str(made), *edges])


def rows_over(drape: Drape, model: Model) -> List[Row]:
    """For places of a model's stream."""
    if model.scale:
        return drape.rows(model.scale.unit, model.scale.middle)
    return drape.rows(1 / 10 ** levels_of(model.stream).digits, (0.0, 0.0, 0.0))
