"""Writes a world as OGC 3D Tiles 1.1, which CesiumJS and others read: tileset.json, and a GLB for
each tile and level.

A tile of the world is a chain of tiles there, each with twice the faces of the one that it
replaces; below its finest come its children. The geometric error of each is how far a vertex of the
input may be from the one that is shown for it, by the streams and the parents' own errors. Borders
are kept, so all levels meet. The root is put to the world's origin; in it coordinates are the
input's, with z up, and glTF's y is that z. With the system of the input's coordinates told, all is
written round the middle of the Earth (earth).
"""
import json
import math
from pathlib import Path
from typing import Any, Dict, List, NamedTuple, Sequence, Tuple

from lods.gltf import glb
from lods.levels import levels_of
from lods.shown import Grid, Level, levels_shown

from .earth import on_earth, sagitta
from .form import Tile, World, WorldFault, moved
from .fronts import stream_of
from .parents import error_of
from .progress import Work

FILE = "tileset.json"
_FEWEST = 32  # faces of a level

Node = Dict[str, Any]


Point = Tuple[float, float, float]


class Box(NamedTuple):
    """In the tileset's coordinates."""

    low: Point
    high: Point

    def with_others(self, others: Sequence["Box"]) -> "Box":
        lows, highs = zip(self, *others)
        x, y, z = (min(low[axis] for low in lows) for axis in range(3))
        a, b, c = (max(high[axis] for high in highs) for axis in range(3))
        return Box((x, y, z), (a, b, c))

    def volume(self, unit: float) -> List[float]:
        """The middle and the three half axes, none of which is shorter than half a unit."""
        middle = [(a + b) / 2 for a, b in zip(self.low, self.high)]
        halves = [max(unit, b - a) / 2 for a, b in zip(self.low, self.high)]
        axes = [[halves[i] if i == j else 0.0 for j in range(3)] for i in range(3)]
        return middle + [number for axis in axes for number in axis]


class Written(NamedTuple):
    """A level of a tile that is in a file."""

    name: str
    faces: int
    error: float  # with that of the tile itself
    box: Box


class Export(NamedTuple):
    """What is written, where, and by which program. `crs` is the system of the input's coordinates,
    where the tileset stands on the Earth."""

    world: World
    vdpm: Path
    folder: Path
    levels: int  # of a tile at most
    work: Work
    crs: str = ""


class Shown(NamedTuple):
    """A level in the tileset's coordinates: as glTF has it, whose y is z here and whose z is -y;
    its box, and what it is off beyond its error."""

    mesh: Level
    box: Box
    off: float


def _box_of(points: Sequence[Point]) -> Box:
    xs, ys, zs = zip(*points)
    return Box((min(xs), min(ys), min(zs)), (max(xs), max(ys), max(zs)))


def _shown(export: Export, tile: Tile, level: Level) -> Shown:
    unit = export.world.unit
    points = [tuple(unit * c for c in moved(place, tile.offset)) for place in level.places]
    if export.crs:
        return _shown_on_earth(export, points, level)
    x, y, z = (unit * number for number in tile.offset)
    places = [(a, c, -b) for a, b, c in level.places]
    mesh = level._replace(places=places, grid=Grid(unit, (x, z, -y)))
    return Shown(mesh, _box_of(points), 0.0)


def _shown_on_earth(export: Export, points: Sequence[Sequence[float]], level: Level) -> Shown:
    (x, y, z) = export.world.origin
    found = on_earth(export.crs, [(a + x, b + y, c + z) for a, b, c in points])
    box = _box_of(found)
    x, y, z = (round((a + b) / 2) for a, b in zip(box.low, box.high))
    places = [(a - x, c - z, y - b) for a, b, c in found]
    mesh = level._replace(places=places, grid=Grid(1.0, (x, z, -y)))
    return Shown(mesh, box, sagitta(found, level.faces))


def _records_of(stream: bytes, most: int, above: float) -> Tuple[List[int], List[int]]:
    """The levels of a tile that have an error below that of the one above, the coarsest first: how
    many records each has, and its error."""
    levels = levels_of(stream)
    found = [
        count for count in levels.halves(most)
        if not levels.errors[count]
        or levels.errors[count] < above and levels.faces[count] >= _FEWEST
    ]
    records = sorted(found or [len(levels.faces) - 1])
    return records, [levels.errors[count] for count in records]


def _write_tile(export: Export, tile: Tile, above: float) -> List[Written]:
    """The files of a tile, the coarsest first."""
    world = export.world
    stream, own = stream_of(export.vdpm, world, tile), error_of(world, tile)
    records, errors = _records_of(stream, export.levels, above / world.unit - own)
    shown = levels_shown(export.vdpm, stream, Grid(world.unit, (0.0, 0.0, 0.0)), records)
    found = []
    for number, (level, error) in enumerate(zip(shown, errors)):
        name = f"{tile.name}-{len(shown) - 1 - number}.glb"
        mesh, box, off = _shown(export, tile, level)
        (export.folder / name).write_bytes(glb(mesh))
        found.append(Written(name, len(level.faces), world.unit * (error + own) + off, box))
    return found


def _node(export: Export, tile: Tile, above: float) -> Tuple[Node, Box, float]:
    """A tile and what is under it; its box, and its coarsest error. `above` is that of the level
    that it is put in place of."""
    written = _write_tile(export, tile, above)
    export.work.done += 1
    finest = written[-1].error
    below = [_node(export, export.world.tiles[name], finest) for name in tile.children]
    children, box = [node for node, _, _ in below], written[-1].box
    box = box.with_others([other for _, other, _ in below])
    error = max((error for _, _, error in below), default=0.0)
    for level in reversed(written):
        box, error = box.with_others([level.box]), max(error, level.error)
        node: Node = {
            "boundingVolume": {"box": box.volume(export.world.unit)},
            "geometricError": error,
            "refine": "REPLACE",
            "content": {"uri": level.name},
        }
        if children:
            node["children"] = children
        children = [node]
    return children[0], box, error


def _count(node: Node) -> int:
    """How many files a node and those under it have."""
    return ("content" in node) + sum(map(_count, node.get("children", [])))


def _told(export: Export, nodes: List[Tuple[Node, Box, float]]) -> Node:
    """The document: one root, at the world's origin, where it isn't on the Earth."""
    world = export.world
    box = nodes[0][1].with_others([other for _, other, _ in nodes])
    size = math.dist(box.low, box.high)
    root = nodes[0][0]
    if len(nodes) > 1:
        root = {
            "boundingVolume": {"box": box.volume(world.unit)}, "geometricError": size,
            "refine": "REPLACE", "children": [node for node, _, _ in nodes],
        }
    if not export.crs:
        root["transform"] = [1, 0, 0, 0, 0, 1, 0, 0, 0, 0, 1, 0, *world.origin, 1]
    return {
        "asset": {"version": "1.1", "tilesetVersion": "1"},
        "geometricError": max(size, root["geometricError"]),
        "root": root,
    }


def _judge(world: World) -> None:
    missing = [tile.name for tile in world.tiles.values() if not world.stream(tile).is_file()]
    if missing:
        raise WorldFault(
            f"{len(missing)} streams aren't built, {missing[0]} the first:"
            f" `python3 tools/world.py build {world.folder}`"
        )


def write_tiles3d(export: Export) -> int:
    """Writes all files, tileset.json last, and answers how many GLB files there are."""
    world = export.world
    _judge(world)
    export.folder.mkdir(parents=True, exist_ok=True)
    export.work.begin(f"writes {len(world.tiles)} tiles and parents", len(world.tiles))
    parents = world.parents()
    roots = [tile for tile in world.tiles.values() if tile.name not in parents]
    nodes = [_node(export, tile, math.inf) for tile in roots]
    part = export.folder / (FILE + ".part")
    part.write_text(json.dumps(_told(export, nodes)) + "\n", encoding="ascii")
    part.replace(export.folder / FILE)
    return sum(_count(node) for node, _, _ in nodes)
