"""Makes the streams of a world: of each tile by `simplify --keep-border`, and level by level of the
parents, of which the meshes are made first. What is newer than what it was made of stays, so a
build that was stopped goes on, and after a change of one tile that tile and its parents are made.
Streams that were built before the world became packed, or plain again, are packed or unpacked, and
keep their times, so that nothing is made anew.
"""
import os
import subprocess
import sys
from concurrent.futures import FIRST_EXCEPTION, Future, ThreadPoolExecutor, wait
from dataclasses import replace
from itertools import count
from pathlib import Path
from typing import Callable, Iterator, List, NamedTuple

from viewer import manual
from viewer.program import UNPROVED, beside, end_of, is_notice

from .form import Tile, World, WorldFault
from .parents import make_parent, told_path
from .progress import Work

TOOL = Path(__file__).resolve().parent.parent / "world.py"


class Build(NamedTuple):
    """What is built, and by which programs."""

    world: World
    simplify: Path
    vdpm: Path
    faces: int  # of a parent at most
    jobs: int
    work: Work
    apart: bool = True  # a parent is made by a process of its own, so that several are at a time


def is_fresh(world: World, tile: Tile) -> bool:
    """Whether a tile's stream is newer than its mesh, and that than its children's streams."""
    try:
        made = world.stream(tile).stat().st_mtime_ns
        mesh = world.mesh(tile).stat().st_mtime_ns
        if tile.level:
            told_path(world, tile).stat()
        below = [world.stream(world.tiles[name]).stat().st_mtime_ns for name in tile.children]
    except OSError:
        return False
    return made >= mesh >= max(below, default=0)


def _ended(tile: Tile, said: bytes, status: int, heading: str) -> WorldFault:
    lines = said.decode("utf-8", "replace").strip().splitlines()
    words = [line for line in lines if not is_notice(line)]
    return WorldFault(f"{tile.name}: {end_of(words[-1] if words else '', status, heading)}")


def _make_parent(build: Build, tile: Tile) -> None:
    if not build.apart:
        make_parent(build.vdpm, build.world, tile, build.faces)
        return
    words = [sys.executable, str(TOOL), "parent", str(build.world.folder), tile.name]
    words += ["--faces", str(build.faces), "--program", str(build.vdpm)]
    done = subprocess.run(words, capture_output=True, check=False)
    if done.returncode != 0:
        said = done.stderr.decode("utf-8", "replace").strip()
        raise WorldFault(f"{tile.name}: {said}")


def _make(tile: Tile, words: List[str], source: Path, part: Path, heading: str) -> None:
    """Writes what a program makes of a file; nothing where it fails."""
    try:
        with source.open("rb") as given, part.open("wb") as out:
            done = subprocess.run(
                words, stdin=given, stdout=out, stderr=subprocess.PIPE, check=False
            )
    except OSError as fault:
        raise WorldFault(f"{tile.name}: {fault.filename}: {fault.strerror}") from fault
    for line in done.stderr.decode("utf-8", "replace").splitlines():
        if UNPROVED in line and line not in _told:
            _told.append(line)
            print(line, file=sys.stderr, flush=True)
    if done.returncode != 0:
        part.unlink()
        raise _ended(tile, done.stderr, done.returncode, heading)


_told: List[str] = []  # notices, which each run of a program gives again


def build_tile(build: Build, tile: Tile) -> None:
    """Makes a tile's stream, which has its name once it is whole."""
    if tile.level:
        _make_parent(build, tile)
    path = build.world.stream(tile)
    part = path.with_suffix(".vdpm.part")
    words = [str(build.simplify), "--keep-border"]
    _make(tile, words, build.world.mesh(tile), part, manual.OBJ)
    if build.world.packed:
        plain, part = part, path.with_suffix(".vdpz.part")
        try:
            _make(tile, [str(beside(build.vdpm, "pack"))], plain, part, manual.STREAM)
        finally:
            plain.unlink()
    part.replace(path)


def _convert(build: Build, tile: Tile, before: Path) -> None:
    """Packs a stream that stands plain in a packed world, or unpacks one in a plain world, where it
    is the latest."""
    world, path = build.world, build.world.stream(tile)
    told = before.stat()
    if not path.is_file() or path.stat().st_mtime_ns < told.st_mtime_ns:
        part = path.with_suffix(f"{path.suffix}.part")
        words = [str(beside(build.vdpm, "pack"))] + ([] if world.packed else ["--unpack"])
        _make(tile, words, before, part, manual.STREAM if world.packed else manual.PACK)
        os.utime(part, ns=(told.st_atime_ns, told.st_mtime_ns))
        part.replace(path)
    before.unlink()


def _convert_all(build: Build) -> None:
    """Packs or unpacks what was built before the world became packed, or plain again."""
    world = build.world
    other = replace(world, packed=not world.packed)
    tiles = [tile for tile in world.tiles.values() if other.stream(tile).is_file()]
    build.work.begin(f"{'packs' if world.packed else 'unpacks'} {len(tiles)} streams", len(tiles))

    def one(tile: Tile) -> None:
        _convert(build, tile, other.stream(tile))
        build.work.done += 1

    _side_by_side(build, tiles, one)


def _work_of(tile: Tile) -> int:
    """How much longer it takes to build than a tile without children, as was measured."""
    return 1 + 5 * len(tile.children)


def _build_level(build: Build, tiles: List[Tile], numbers: Iterator[int]) -> None:
    whole, work = len(build.world.tiles), build.work

    def one(tile: Tile) -> None:
        build_tile(build, tile)
        work.done += _work_of(tile)
        work.doing = f"built {next(numbers)} of {whole} tiles and parents"

    _side_by_side(build, tiles, one)


def _side_by_side(build: Build, tiles: List[Tile], one: Callable[[Tile], None]) -> None:
    """Does something with each tile; no more are begun once one has a fault, or the user stops."""
    with ThreadPoolExecutor(build.jobs) as pool:
        tasks: List["Future[None]"] = [pool.submit(one, tile) for tile in tiles]
        try:
            wait(tasks, return_when=FIRST_EXCEPTION)
        finally:
            for task in tasks:
                task.cancel()
    faults = [str(task.exception()) for task in tasks if not task.cancelled() and task.exception()]
    if faults:
        raise WorldFault("\n".join(faults))


def build_world(build: Build) -> int:
    """Makes all streams that aren't fresh, and answers how many these were."""
    world, made, done = build.world, 0, 0
    _convert_all(build)
    whole = sum(map(_work_of, world.tiles.values()))
    build.work.begin(f"builds {len(world.tiles)} tiles and parents", whole)
    for level in range(world.levels):
        tiles = world.level(level)
        stale = [tile for tile in tiles if not is_fresh(world, tile)]
        # Large tiles first, so that no long one is left at the end.
        stale.sort(key=lambda tile: -tile.faces)
        build.work.skip(sum(map(_work_of, tiles)) - sum(map(_work_of, stale)))
        _build_level(build, stale, count(1 + done + len(tiles) - len(stale)))
        done, made = done + len(tiles), made + len(stale)
    return made
