"""Measures a world of tiles beside one mesh, and prints tables.

    python3 benches/world.py CELLS TILES [--builds] [--simplify PATH] [--vdpm PATH]

A terrain of CELLS by CELLS cells (benches/terrain.py) is cut into TILES tiles, or some more where
they come out uneven. Each tile is built by one process: the first table has the seconds that all
take with 1, 2 and 4 processes side by side, their processor time, and the greatest peak of one.
Where the whole terrain fits into one mesh too (1,048,576 faces, so 724 cells), and --builds doesn't
say that builds are enough, the second table has the faces of both at the same tolerance of nodes,
and how far the heights are off at the points of the grid (root of the mean square). What is shown
by the mesh doesn't reach all points, since its outline may be collapsed; those are left out and
counted.
"""
import argparse
import os
import subprocess
import sys
import tempfile
import threading
import time
from math import ceil, floor, sqrt
from pathlib import Path
from queue import Empty, SimpleQueue
from typing import Dict, List, NamedTuple, Optional, Tuple

TOP = Path(__file__).resolve().parent.parent
sys.path.insert(0, str(TOP / "tools"))

from mesh_files.reading import read_soup  # noqa: E402
from worlds.form import (  # noqa: E402
    MOST_FACES, Corners, Place, Tile, World, moved, read_world,
)
from worlds.fronts import frame_of, places_in_world, splits  # noqa: E402
from worlds.parents import Child, read_child  # noqa: E402

TOLERANCES = (64, 128, 256, 512, 1024, 2048, 4096, 8192)


class Cost(NamedTuple):
    wall: float
    processor: float
    peak: float  # megabytes of the greatest process


def cut(field: Path, folder: Path, faces: int) -> World:
    words = [sys.executable, str(TOP / "tools" / "world.py"), "cut", str(field), str(folder)]
    subprocess.run([*words, "--faces", str(faces)], check=True, stdout=subprocess.DEVNULL)
    return read_world(folder)


def build_one(words: List[str], world: World, tile: Tile) -> Tuple[float, float]:
    """Processor seconds and peak of one process."""
    with world.mesh(tile).open("rb") as mesh, world.stream(tile).open("wb") as stream:
        process = subprocess.Popen(words, stdin=mesh, stdout=stream, stderr=subprocess.DEVNULL)
        _, status, usage = os.wait4(process.pid, 0)
        process.returncode = os.WEXITSTATUS(status)
    if status:
        sys.exit(f"{words[0]} ended with status {process.returncode} on {tile.name}")
    return usage.ru_utime + usage.ru_stime, usage.ru_maxrss / 1024


def build(words: List[str], world: World, jobs: int) -> Cost:
    """Builds all tiles, so many at a time, the largest first."""
    waiting: "SimpleQueue[Tile]" = SimpleQueue()
    for tile in sorted(world.level(0), key=lambda tile: -tile.faces):
        waiting.put(tile)
    done: List[Tuple[float, float]] = []

    def work() -> None:
        while True:
            try:
                tile = waiting.get_nowait()
            except Empty:
                return
            done.append(build_one(words, world, tile))

    begun = time.monotonic()
    threads = [threading.Thread(target=work) for _ in range(jobs)]
    for thread in threads:
        thread.start()
    for thread in threads:
        thread.join()
    wall = time.monotonic() - begun
    return Cost(wall, sum(seconds for seconds, _ in done), max(peak for _, peak in done))


class Grid:
    """Sums up how far meshes are off the heights of a grid of whole numbers."""

    def __init__(self, world: World) -> None:
        self.heights: Dict[Tuple[int, int], int] = {}
        for tile in world.level(0):
            numbers = map(int, read_soup(world.mesh(tile)).points)
            for place in zip(numbers, numbers, numbers):
                x, y, z = moved(place, tile.offset)
                self.heights[x, y] = z
        xs, ys = zip(*self.heights)
        self.xs, self.ys = sorted(set(xs)), sorted(set(ys))
        self.off: Dict[Tuple[int, int], float] = {}

    def add(self, places: List[Place], faces: List[Corners]) -> None:
        for a, b, c in faces:
            self._add_face(places[a], places[b], places[c])

    def _add_face(self, p: Place, q: Place, r: Place) -> None:
        """The points of the grid under a face, by its plane."""
        area = (q[0] - p[0]) * (r[1] - p[1]) - (q[1] - p[1]) * (r[0] - p[0])
        if area <= 0:
            return
        for x in self._between(self.xs, min(p[0], q[0], r[0]), max(p[0], q[0], r[0])):
            for y in self._between(self.ys, min(p[1], q[1], r[1]), max(p[1], q[1], r[1])):
                u = (q[0] - x) * (r[1] - y) - (q[1] - y) * (r[0] - x)
                v = (r[0] - x) * (p[1] - y) - (r[1] - y) * (p[0] - x)
                if u >= 0 and v >= 0 and u + v <= area:
                    z = (u * p[2] + v * q[2] + (area - u - v) * r[2]) / area
                    self.off[x, y] = z - self.heights[x, y]

    @staticmethod
    def _between(numbers: List[int], low: int, high: int) -> List[int]:
        """Those of evenly spaced numbers from low to high."""
        step = (numbers[-1] - numbers[0]) / (len(numbers) - 1)
        first = max(0, floor((low - numbers[0]) / step))
        last = min(len(numbers) - 1, ceil((high - numbers[0]) / step))
        return [n for n in numbers[first : last + 1] if low <= n <= high]

    def told(self) -> Tuple[float, int]:
        """The root of the mean square, and how many points no face covers."""
        squares = sum(off * off for off in self.off.values())
        return sqrt(squares / max(1, len(self.off))), len(self.heights) - len(self.off)


def shown(vdpm: Path, world: World, children: List[Child], tolerance: int) -> Tuple[int, str]:
    """The faces at a tolerance, and their row's cell."""
    grid, faces = Grid(world), 0
    for child in children:
        frame = frame_of(vdpm, world, child.tile, splits(child.front(tolerance)))
        grid.add(places_in_world(frame, child.tile.offset), frame.faces)
        faces += len(frame.faces)
    off, bare = grid.told()
    return faces, f"{faces:,} / {off:.2f} / {bare:,}"


def compare(vdpm: Path, whole: World, tiles: World) -> None:
    one = [read_child(vdpm, whole, tile.name) for tile in whole.level(0)]
    many = [read_child(vdpm, tiles, tile.name) for tile in tiles.level(0)]
    print("| tolerance | one mesh: faces / rms / bare | tiles: faces / rms / bare | tiles to one |")
    print("|---|---|---|---|")
    for tolerance in TOLERANCES:
        a, first = shown(vdpm, whole, one, tolerance)
        b, second = shown(vdpm, tiles, many, tolerance)
        print(f"| {tolerance:,} | {first} | {second} | {b / a:.2f} |", flush=True)
    least = sum(child.stream.base for child in many)
    print(f"\nleast faces of the tiles: {least:,}")


def arguments(words: Optional[List[str]] = None) -> argparse.Namespace:
    parser = argparse.ArgumentParser(description="Measures a world of tiles beside one mesh.")
    parser.add_argument("cells", type=int)
    parser.add_argument("tiles", type=int)
    parser.add_argument("--builds", action="store_true", help="measure the tiles' builds alone")
    parser.add_argument("--simplify", type=Path, default=TOP / "proved" / "simplify")
    parser.add_argument("--vdpm", type=Path, default=TOP / "proved" / "vdpm")
    return parser.parse_args(words)


def print_row(what: str, jobs: int, cost: Cost) -> None:
    seconds = f"{cost.wall:.1f} | {cost.processor:.1f}"
    print(f"| {what} | {jobs} | {seconds} | {cost.peak:.0f} |", flush=True)


def measure(asked: argparse.Namespace, room: Path) -> None:
    faces, field = 2 * asked.cells**2, room / "field.asc"
    with field.open("wb") as out:
        words = [sys.executable, str(TOP / "benches" / "terrain.py"), str(asked.cells), "grid"]
        subprocess.run(words, check=True, stdout=out)
    begun = time.monotonic()
    tiles = cut(field, room / "tiles", ceil(faces / asked.tiles))
    border = sum(tile.border for tile in tiles.level(0))
    print(f"{len(tiles.level(0))} tiles, {faces:,} faces, {border:,} border sides,"
          f" cut in {time.monotonic() - begun:.1f} s\n")
    print("| what | processes | seconds | processor seconds | MB of one |\n|---|---|---|---|---|")
    for jobs in (1, 2, 4):
        print_row("tiles", jobs, build([str(asked.simplify), "--keep-border"], tiles, jobs))
    if faces <= MOST_FACES and not asked.builds:
        whole = cut(field, room / "whole", MOST_FACES)
        print_row("one mesh", 1, build([str(asked.simplify)], whole, 1))
        print()
        compare(asked.vdpm, whole, tiles)


def main() -> None:
    with tempfile.TemporaryDirectory() as room:
        measure(arguments(), Path(room))


if __name__ == "__main__":
    main()
