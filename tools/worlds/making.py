"""Writes a world: an OBJ file for each tile, and world.json with what is known of all.

Coordinates of a tile are whole numbers round its own middle. Border sides of all tiles are
matched by their places in the world: a side of one tile that another tile has the other way round
is a part of a seam, and one that none has is a part of the world's outline. In memory are the input
and the border sides that haven't been matched yet, some 400 bytes each.
"""
import shutil
from dataclasses import replace
from pathlib import Path
from typing import Dict, Iterable, List, Set

from .cutting import Half, parts_for
from .form import (
    FORM, JOURNAL, MOST_FACES, OPENED, OUTLINE, Place, Side, Tile, World, WorldFault, box_of, fits,
    is_packed, middle, set_aside, write_sides, write_world,
)
from .inputs import RASTER, Asked, Cut, cut_of
from .journal import Journal, Recorded
from .mending import Mended, Mesh, mended
from .progress import Say, Work


class Seams:
    """Matches border sides: which tiles are neighbours, and which sides stay alone."""

    def __init__(self) -> None:
        self.alone: Dict[Side, List[str]] = {}
        self.neighbours: Dict[str, Set[str]] = {}

    def add(self, name: str, border: Iterable[Side]) -> None:
        beside = self.neighbours.setdefault(name, set())
        for start, end in border:
            waiting = self.alone.get((end, start))
            if waiting is None:
                self.alone.setdefault((start, end), []).append(name)
                continue
            other = waiting.pop()
            if not waiting:
                del self.alone[end, start]
            if other != name:
                beside.add(other)
                self.neighbours[other].add(name)

    @property
    def outline(self) -> int:
        return sum(map(len, self.alone.values()))


def obj_text(mesh: Mesh, offset: Place) -> str:
    """The canonical text of a mesh, as `vdpm canon` writes it, moved so that the offset is 0."""
    x, y, z = offset
    lines = [f"v {a - x} {b - y} {c - z}" for a, b, c in mesh.places]
    lines += [f"f {a + 1} {b + 1} {c + 1}" for a, b, c in mesh.faces]
    return "\n".join(lines) + "\n"


def border_places(done: Mended) -> List[Side]:
    places = done.mesh.places
    return [(places[start], places[end]) for start, end in done.border]


def write_mesh(path: Path, mesh: Mesh, offset: Place) -> None:
    """Writes a file that has its name only once it is whole. One that says the same stays, so that
    what was made of it needn't be made anew."""
    path.parent.mkdir(parents=True, exist_ok=True)
    text = obj_text(mesh, offset).encode("ascii")
    if path.is_file() and path.stat().st_size == len(text) and path.read_bytes() == text:
        return
    part = path.with_suffix(".part")
    part.write_bytes(text)
    part.replace(path)


def _made_tile(world: World, name: str, done: Mended) -> Tile:
    low, high = box_of(done.mesh.places)
    mesh = done.mesh
    tile = Tile(
        name, 0, middle(low, high), low, high, len(mesh.places), len(mesh.faces), len(done.border)
    )
    write_mesh(world.mesh(tile), mesh, tile.offset)
    return tile


def name_of(way: str) -> str:
    return "t" + way


def _parent(way: str, children: List[Tile]) -> Tile:
    low, _ = box_of([tile.low for tile in children])
    _, high = box_of([tile.high for tile in children])
    level = 1 + max(tile.level for tile in children)
    names = tuple(tile.name for tile in children)
    return Tile(name_of(way), level, middle(low, high), low, high, children=names)


def parents_of(ways: List[str], tiles: Dict[str, Tile]) -> List[Tile]:
    """The parents of tiles: the nodes of even depth in the tree, each over the tiles and parents
    nearest below it, as far as their boxes fit. `ways` go from the root to each inner node."""
    heads = {name: [tile] for name, tile in tiles.items()}  # of what is below a node
    found: List[Tile] = []
    for way in sorted(ways, key=len, reverse=True):
        under = [tile for step in "01" for tile in heads.get(name_of(way + step), [])]
        if len(way) % 2 == 0 and len(under) > 1:
            parent = _parent(way, under)
            if fits(parent.low, parent.high):
                found.append(parent)
                under = [parent]
        heads[name_of(way)] = under
    return found


def _leaf(world: World, half: Half) -> Recorded:
    """Writes the tile of a leaf, where it has faces."""
    assert half.piece is not None
    done = mended(*half.piece)
    tile = _made_tile(world, name_of(half.name), done) if done.mesh.faces else None
    opened = [(min(edge), max(edge)) for edge in half.piece.opened]
    dropped = half.dropped + done.dropped
    return Recorded(tile, border_places(done), opened, dropped, done.split)


class _Leaves:
    """The tiles of a world that is being cut."""

    def __init__(self) -> None:
        self.seams = Seams()
        self.tiles: Dict[str, Tile] = {}
        self.ways: List[str] = []
        self.opened: Set[Side] = set()
        self.dropped = self.split = 0

    def add(self, found: Recorded) -> None:
        self.dropped, self.split = self.dropped + found.dropped, self.split + found.split
        self.opened.update(found.opened)
        if found.tile:
            self.seams.add(found.tile.name, found.border)
            self.tiles[found.tile.name] = found.tile

    def tell(self, say: Say) -> None:
        if self.dropped:
            say(f"{self.dropped} degenerate or duplicate faces were left out")
        if self.split:
            say(
                f"{self.split} vertices were split off where the surface touches itself or is no"
                " manifold"
            )


def _cut_leaves(cut: Cut, world: World, asked: Asked, work: Work) -> _Leaves:
    """Cuts the tiles that the journal doesn't know from a cut of the same that was stopped."""
    source = asked.source.resolve()
    told = source.stat()
    identity = [FORM, str(source), told.st_size, told.st_mtime_ns, asked.faces]
    identity += [cut.unit, *cut.origin]
    world.folder.mkdir(parents=True, exist_ok=True)
    journal = Journal(world.folder / JOURNAL, identity)
    leaves, is_whole = _Leaves(), False
    about = parts_for(cut.faces, asked.faces)
    work.begin(f"cuts tile 1 of about {about}", cut.faces)
    try:
        for half in cut.halves(journal):
            if not half.is_leaf:
                leaves.ways.append(half.name)
                continue
            if half.piece is None:
                found = journal.known(half.name)
                work.skip(half.faces)
            else:
                set_aside(world.folder)
                found = _leaf(world, half)
                journal.add(half.name, found)
                work.done += half.faces
            leaves.add(found)
            number = len(leaves.tiles) + 1
            work.doing = f"cuts tile {number} of about {max(about, number)}"
        is_whole = True
    finally:
        journal.close(is_whole)
    return leaves


def make_world(asked: Asked, say: Say) -> World:
    """Cuts the input, writes the tiles, and world.json last."""
    if not 2 <= asked.faces <= MOST_FACES:
        raise WorldFault(f"a tile has from 2 to {MOST_FACES:,} faces")
    with Work(say) as work:
        cut = cut_of(asked, say, work)
        world = World(asked.folder, cut.unit, cut.origin, 0, packed=is_packed(asked.folder))
        leaves = _cut_leaves(cut, world, asked, work)
    leaves.tell(say)
    return _finished(world, leaves)


def _finished(world: World, leaves: _Leaves) -> World:
    tiles, seams = leaves.tiles, leaves.seams
    if not tiles:
        raise WorldFault("no faces are left of the input")
    beside = seams.neighbours
    known = [
        replace(tile, neighbours=tuple(sorted(beside[tile.name]))) for tile in tiles.values()
    ]
    everything = {tile.name: tile for tile in known + parents_of(leaves.ways, tiles)}
    done = replace(world, outline=seams.outline, tiles=everything)
    write_sides(done, OUTLINE, (side for side, names in seams.alone.items() for _ in names))
    write_sides(done, OPENED, sorted(leaves.opened))
    write_world(done)
    shutil.rmtree(world.folder / RASTER, ignore_errors=True)
    return done
