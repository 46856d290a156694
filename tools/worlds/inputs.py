"""What is cut: a height field or a mesh, in whole numbers of the world's unit."""
from functools import partial
from math import inf, isfinite
from pathlib import Path
from typing import Callable, Container, Iterable, List, NamedTuple, Tuple

from mesh_files.obj import scale_of
from mesh_files.reading import read_soup
from mesh_files.soup import MeshFault, Soup, blocks_of, filed_soup

from .cutting import Grid, Half, cut_grid
from .form import LONGEST_SPAN, WorldFault
from .heights import FIELDS, Heights, read_heights
from .progress import Say, Work
from .rasters import Extent, grid_of, is_raster, refuse_degrees
from .soups import cut_soup, rounded

RASTER = "raster"  # the folder of a grid that GDAL made, until the world is cut
_DIGITS = (1.0, 2.0, 5.0, 10.0)
Point = Tuple[float, float, float]


class Asked(NamedTuple):
    """How an input is to be cut. Without a unit one is taken for which the whole world fits into
    one tile, so that parents can be made up to the last."""

    source: Path
    folder: Path
    faces: int
    unit: float = 0.0
    spacing: float = 1.0
    rise: float = 1.0


def _nice(least: float) -> float:
    """The least number of the form 1, 2 or 5 times a power of ten that isn't below this one."""
    power = 1.0
    while power > least:
        power /= 10
    while power * 10 < least:
        power *= 10
    return next(float(f"{digit * power:.12g}") for digit in _DIGITS if digit * power >= least)


def _unit(asked: Asked, extent: float) -> float:
    if not isfinite(extent):
        raise WorldFault("the input is wider or higher than the largest number")
    if asked.unit > 0:
        return asked.unit
    return _nice(extent / LONGEST_SPAN) if extent > 0 else 1.0


def _refuse_far(farthest: float, unit: float) -> None:
    """WorldFault where a place can't be counted in units."""
    if not isfinite(farthest / unit):
        raise WorldFault(f"{farthest:g} is too far in units of {unit:g}: take a larger unit")


class Cut(NamedTuple):
    """An input that is being cut: how many faces it may have, and the tree of those of which the
    leaves aren't known. In the input's measure a place p is at unit * p + origin."""

    unit: float
    origin: Point
    faces: int
    halves: Callable[[Container[str]], Iterable[Half]]


def _extent_of(field: Heights, rise: float) -> Extent:
    east = field.west + (field.columns - 1) * field.across
    north = field.south + (field.rows - 1) * field.along
    step = max(field.across, field.along)
    return Extent(field.west, field.south, east, north, step, rise)


def _cut_heights(asked: Asked, say: Say, work: Work) -> Cut:
    grid = asked.source
    if is_raster(grid):
        grid = grid_of(grid, asked.folder / RASTER, say)
    watch = work.read(grid.name, grid.stat().st_size)
    field = read_heights(grid, asked.spacing, asked.rise, watch)
    low, high = field.low, field.high
    if grid.suffix.lower() != ".pgm":
        refuse_degrees(grid, asked.source, _extent_of(field, high - low))
    extent = max((field.columns - 1) * field.across, (field.rows - 1) * field.along, high - low)
    unit = _unit(asked, extent)
    _refuse_far(extent, unit)
    if min(field.across, field.along) < unit:
        raise WorldFault(f"points {field.across:g} apart are nearer than a unit of {unit:g}")
    origin = (field.west, field.south, low)
    faces = 2 * (field.rows - 1) * (field.columns - 1)
    return Cut(unit, origin, faces, partial(cut_grid, Grid(field, unit, origin), asked.faces))


def _scale_of(path: Path) -> Tuple[float, Point]:
    """How the coordinates of a file lead to those that it was prepared from; they are its own where
    `prepare` didn't scale it."""
    with path.open("rb") as file:
        found = scale_of(file.readline(1000))
    return found or (1.0, (0.0, 0.0, 0.0))


def _box(soup: Soup) -> Tuple[List[float], List[float]]:
    lows, highs = [inf] * 3, [-inf] * 3
    for block in blocks_of(soup.points):
        for axis in range(3):
            lows[axis] = min(lows[axis], min(block[axis::3]))
            highs[axis] = max(highs[axis], max(block[axis::3]))
    return lows, highs


def _cut_mesh(asked: Asked, say: Say, work: Work) -> Cut:
    watch = work.read(asked.source.name, asked.source.stat().st_size)
    try:
        soup = read_soup(asked.source, watch, filed_soup())
    except MeshFault as fault:
        raise WorldFault(f"{asked.source}: {fault}") from None
    for note in soup.notes():
        say(note)
    work.begin("parts the faces", 0)
    lows, highs = _box(soup)
    step, middle = _scale_of(asked.source)
    unit = _unit(asked, step * max(b - a for a, b in zip(lows, highs))) / step
    _refuse_far(max(map(abs, lows + highs)), unit)
    # A whole number of units, so that coordinates which are whole numbers of units stay so.
    x, y, z = (unit * round(low / unit) for low in lows)
    origin = (step * x + middle[0], step * y + middle[1], step * z + middle[2])
    whole = rounded(soup, unit, (x, y, z))
    halves = partial(cut_soup, whole, asked.faces)
    return Cut(step * unit, origin, soup.faces, lambda known: halves(known, say))


def cut_of(asked: Asked, say: Say, work: Work) -> Cut:
    is_field = asked.source.suffix.lower() in FIELDS or is_raster(asked.source)
    return (_cut_heights if is_field else _cut_mesh)(asked, say, work)
