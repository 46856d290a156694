"""Makes a parent: one coarse mesh of its children's fronts, for views from far away.

Each child is shown as coarse as one tolerance allows, so that all of them together have at most so
many faces; the fronts are put together at their borders. The border of what comes out is that of
the children, so a parent that keeps it meets every tile beside it.
"""
import json
from pathlib import Path
from typing import Dict, Iterable, List, NamedTuple, Set, Tuple

from .form import (
    GREATEST_COORDINATE, OPENED, Corners, Place, Side, Tile, World, WorldFault, sides_of,
    write_whole,
)
from .fronts import frames_of, places_in_world, splits, stream_of
from .making import write_mesh
from .mending import Mended, Mesh, border_sides, cut_open
from .streams import Stream, closed, distance_up, errors_of, face_count, read_stream


class Child(NamedTuple):
    tile: Tile
    text: bytes
    stream: Stream
    errors: List[int]

    def front(self, tolerance: int) -> Set[int]:
        """The records of all nodes with a greater error, and what they need."""
        records = enumerate(self.stream.records)
        wanted = {k for k, record in records if self.errors[record.node] > tolerance}
        return closed(self.stream, wanted)


class Made(NamedTuple):
    """What was made of a parent. No vertex of the input is farther than `error` units from the
    vertex that stands for it."""

    vertices: int
    faces: int
    error: int


def read_child(vdpm: Path, world: World, name: str) -> Child:
    tile = world.tiles[name]
    text = stream_of(vdpm, world, tile)
    stream = read_stream(text)
    return Child(tile, text, stream, errors_of(stream))


def faces_at(children: List[Child], tolerance: int) -> int:
    return sum(face_count(child.stream, child.front(tolerance)) for child in children)


def least_tolerance(children: List[Child], most: int) -> int:
    """A tolerance with at most so many faces, where one less has more; the greatest error where
    kept borders leave more even then."""
    low, high = -1, max((max(child.errors, default=0) for child in children), default=0)
    while high - low > 1:
        tolerance = (low + high) // 2
        if faces_at(children, tolerance) <= most:
            high = tolerance
        else:
            low = tolerance
    return high


def together(
    parts: List[Tuple[List[Place], List[Corners]]], opened: Iterable[Side] = ()
) -> Mended:
    """Meshes in places of the world as one, which is cut open at the opened edges. Vertices of
    their borders at one place are one; no other is joined, since what is coarse may fold onto
    itself."""
    places: List[Place] = []
    faces: List[Corners] = []
    at: Dict[Place, int] = {}  # of vertices on borders
    for own, corners in parts:
        on_border = {end for side in border_sides(corners) for end in side}
        number: List[int] = []
        for vertex, place in enumerate(own):
            new = len(places)
            number.append(at.setdefault(place, new) if vertex in on_border else new)
            if number[-1] == new:
                places.append(place)
        faces += [(number[a], number[b], number[c]) for a, b, c in corners]
    edges = [(at[a], at[b]) for a, b in opened if a in at and b in at]
    return cut_open(Mesh(places, faces), edges)


def within_reach(mesh: Mesh, middle: Place) -> Tuple[Mesh, int]:
    """The mesh with each vertex as near to the parent's middle as its coordinates go, and by how
    many units one was moved at most. A coarse front bulges out of its box at times; what is on the
    border stands where the input has it, and never moves."""
    def moved_in(place: Place) -> Place:
        a, b, c = (
            max(m - GREATEST_COORDINATE, min(m + GREATEST_COORDINATE, x))
            for x, m in zip(place, middle)
        )
        return a, b, c

    places = [moved_in(place) for place in mesh.places]
    beyond = max((distance_up(p, q) for p, q in zip(places, mesh.places)), default=0)
    return Mesh(places, mesh.faces), beyond


def told_path(world: World, tile: Tile) -> Path:
    return world.path(tile, "json")


def error_of(world: World, tile: Tile) -> int:
    """How far a tile's full mesh may be from the input; 0 for one that was cut from it."""
    if tile.level == 0:
        return 0
    try:
        return int(json.loads(told_path(world, tile).read_text(encoding="ascii"))["error"])
    except (OSError, ValueError, KeyError) as fault:
        raise WorldFault(f"{told_path(world, tile)} isn't there: make the parent anew") from fault


def _shown(vdpm: Path, child: Child, tolerance: int) -> Tuple[List[Place], List[Corners]]:
    """What a child shows at a tolerance, in places of the world."""
    front = child.front(tolerance)
    frame = frames_of(vdpm, child.text, splits(front))[-1]
    if len(frame.faces) != face_count(child.stream, front):
        raise WorldFault(f"{child.tile.name}: a split of its front was refused: check the world")
    return places_in_world(frame, child.tile.offset), frame.faces


def make_parent(vdpm: Path, world: World, tile: Tile, most: int) -> Made:
    """Writes the parent's OBJ file, and its counts and error beside it."""
    if tile.level == 0:
        raise WorldFault(f"{tile.name} was cut from the input and has no children")
    children = [read_child(vdpm, world, name) for name in tile.children]
    tolerance = least_tolerance(children, most)
    shown = [_shown(vdpm, child, tolerance) for child in children]
    mesh = together(shown, sides_of(world, OPENED)).mesh
    mesh, beyond = within_reach(mesh, tile.offset)
    error = tolerance + beyond + max(error_of(world, child.tile) for child in children)
    made = Made(len(mesh.places), len(mesh.faces), error)
    write_mesh(world.mesh(tile), mesh, tile.offset)
    world.mesh(tile).touch()  # one that says the same is as new as what it was made of
    write_whole(told_path(world, tile), json.dumps(made._asdict()) + "\n")
    return made
