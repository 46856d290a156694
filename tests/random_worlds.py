"""Cuts random surfaces into worlds, shows random fronts of their tiles, and looks from outside
whether these meet.

    python3 tests/random_worlds.py SEED COUNT [--vdpm PATH] [--processes N]

World I of a seed is always the same one. Each is an oriented manifold whose vertices stand at
different places; it is cut, and its streams and parents are built, by what `tools/world.py` calls
(in one process, since many starts would take most of the time), and tiles of any levels that make
up the world are shown, each by a random script. What is looked at are the frames
of `vdpm view` alone, moved to where world.json has each tile, beside the surface itself: a vertex
on the border of a frame is the one of the world at its place, each other one is of its own; over
these all faces together are an oriented manifold, and its border is that of the surface. The last
line is `N passed, M failed`, and the status is 0 exactly where none failed and N isn't 0.
"""
import argparse
import json
import multiprocessing
import subprocess
import sys
import tempfile
from functools import partial
from pathlib import Path
from random import Random
from typing import Dict, List, Set, Tuple

from model.mesh import Corners, Mesh, Point, is_oriented_manifold
from random_meshes import base_surface, large_surface, patch, refined, shuffled, tube
from random_meshes import with_center, with_flips, with_holes

TOP = Path(__file__).resolve().parent.parent
sys.path.insert(0, str(TOP / "tools"))

from frames import Frame, read_frames  # noqa: E402
from viewer.main import programs_of  # noqa: E402
from worlds.building import Build, build_world  # noqa: E402
from worlds.form import WorldFault, read_world  # noqa: E402
from worlds.making import Asked, make_world  # noqa: E402
from worlds.progress import Work  # noqa: E402

ALL_MOVES = str((1 << 32) - 1)
FRONTS = 3  # of each world
Vertex = Tuple[object, ...]
Side = Tuple[Point, Point]


def random_surface(rng: Random) -> Mesh:
    """Some ten to a thousand faces over different places."""
    kind = rng.random()
    if kind < 0.3:
        faces = refined(base_surface(rng))
    elif kind < 0.5:
        faces = refined(large_surface(rng))
    elif kind < 0.6:
        faces = tube(rng.randint(2, 9), rng.randint(4, 12))
    else:
        faces = patch(rng.randint(2, 15), rng.randint(2, 15))
    if rng.random() < 0.6:
        faces = with_flips(rng, faces, rng.randint(1, 20))
    if rng.random() < 0.6:
        faces = with_holes(rng, faces, rng.randint(1, 9))
    if rng.random() < 0.3:
        faces = with_center(rng, faces, rng.randint(1, 6))
    count = 1 + max((corner for face in faces for corner in face), default=-1)
    return shuffled(rng, different_points(rng, count), faces)


def different_points(rng: Random, count: int) -> List[Point]:
    step, width = rng.choice((1, 9, 200, 2000)), max(2, round(count**0.5))
    found: Set[Point] = set()
    points = []
    for i in range(count):
        at = (step * (i % width), step * (i // width), rng.randint(-step, step))
        while at in found:
            at = (at[0] + rng.randint(0, step), at[1], at[2] + rng.randint(-1, 1))
        found.add(at)
        points.append(at)
    return points


def text_of(mesh: Mesh) -> str:
    lines = ["v {} {} {}".format(*point) for point in mesh.points]
    lines += ["f {} {} {}".format(*(corner + 1 for corner in face)) for face in mesh.faces]
    return "\n".join(lines) + "\n"


def border_of(faces: List[Tuple[Vertex, ...]]) -> Set[Tuple[Vertex, Vertex]]:
    sides = {(f[i], f[(i + 1) % 3]) for f in faces for i in range(3)}
    return {(a, b) for a, b in sides if (b, a) not in sides}


class Wrong(Exception):
    pass


def make(source: Path, folder: Path, most: int, parent: int, vdpm: Path) -> None:
    """Cuts a surface into tiles of so many faces, and builds them and their parents."""
    programs = programs_of(vdpm)
    try:
        make_world(Asked(source, folder, most, unit=1), say_nothing)
        world = read_world(folder)
        with Work(say_nothing) as work:
            build_world(
                Build(world, programs.simplify, programs.vdpm, parent, 1, work, apart=False)
            )
    except WorldFault as fault:
        raise Wrong(str(fault)) from fault


def say_nothing(_: str) -> None:
    pass


class World:
    """What world.json has, and the tiles whose streams stand beside it."""

    def __init__(self, folder: Path, vdpm: Path) -> None:
        told = json.loads((folder / "world.json").read_text())
        self.vdpm, self.folder = vdpm, folder
        self.origin = [round(c) for c in told["origin"]]
        self.tiles = {tile["name"]: tile for tile in told["tiles"]}

    def some_cut(self, rng: Random) -> List[str]:
        """Names of tiles of any levels that make up the world."""
        under = {child for tile in self.tiles.values() for child in tile["children"]}
        waiting, found = [name for name in self.tiles if name not in under], []
        while waiting:
            name = waiting.pop()
            children = self.tiles[name]["children"]
            if children and rng.random() < 0.6:
                waiting += children
            else:
                found.append(name)
        return found

    def frame(self, rng: Random, name: str) -> Frame:
        """The last frame of a random script."""
        kind = "parents" if self.tiles[name]["level"] else "tiles"
        stream = (self.folder / kind / f"{name}.vdpm").read_bytes()
        script = random_front(rng, int.from_bytes(stream[20:24], "little"))
        words = [str(self.vdpm), "view", ALL_MOVES]
        done = subprocess.run(words, input=stream + script, capture_output=True, check=False)
        if done.returncode:
            raise Wrong(f"{name}: view ended with status {done.returncode}")
        return list(read_frames(done.stdout.decode("ascii").splitlines()))[-1]

    def faces(self, rng: Random, name: str) -> List[Tuple[Vertex, ...]]:
        """What a tile shows: a vertex on its border is its place in the surface."""
        frame = self.frame(rng, name)
        offset = [a + b for a, b in zip(self.tiles[name]["offset"], self.origin)]
        on_border = {v for side in border_of(list(frame.faces)) for v in side}
        vertices: List[Vertex] = [
            tuple(a + b for a, b in zip(point, offset)) if v in on_border else (name, v)
            for v, point in enumerate(frame.points)
        ]
        if len(set(vertices)) != len(vertices):
            raise Wrong(f"{name}: two vertices of its border stand at one place")
        return [tuple(vertices[corner] for corner in face) for face in frame.faces]


def random_front(rng: Random, records: int) -> bytes:
    """Splits in any order, merges too, or views."""
    lines = []
    if rng.random() < 0.3:
        for _ in range(rng.randint(1, 3)):
            eye = [rng.randrange(-3000, 3000) for _ in range(3)]
            numbers = [*eye, 1000, rng.choice((0, 20, 200, 2000))]
            lines.append("v " + " ".join(map(str, numbers)))
    elif records:
        tries = rng.randrange(4 * records + 1)
        lines = [f"{rng.choice('sssc')} {rng.randrange(records)}" for _ in range(tries)]
    return "".join(line + "\n" for line in [*lines, "w"]).encode("ascii")


def judge(shown: List[Tuple[Vertex, ...]], outline: Set[Side]) -> None:
    number: Dict[Vertex, int] = {}
    faces: List[Corners] = []
    for face in shown:
        a, b, c = (number.setdefault(vertex, len(number)) for vertex in face)
        faces.append((a, b, c))
    if not is_oriented_manifold(faces):
        raise Wrong("what is shown is no oriented manifold")
    if border_of(shown) != outline:
        raise Wrong("the border of what is shown isn't that of the surface")


def tried(vdpm: Path, seed: str, number: int) -> str:
    """What is wrong with a world; empty where nothing is."""
    rng = Random(f"{seed} {number}")
    surface = random_surface(rng)
    places = [tuple(point) for point in surface.points]
    outline = border_of([tuple(places[corner] for corner in face) for face in surface.faces])
    with tempfile.TemporaryDirectory(prefix="worlds-") as room:
        source, folder = Path(room) / "surface.obj", Path(room) / "world"
        source.write_text(text_of(surface))
        most, parent = rng.choice((3, 8, 20, 60, 200)), rng.choice((10, 40, 150))
        try:
            if not surface.faces:
                return ""
            make(source, folder, most, parent, vdpm)
            world = World(folder, vdpm)
            for _ in range(FRONTS):
                names = world.some_cut(rng)
                judge([face for name in names for face in world.faces(rng, name)], outline)
        except Wrong as wrong:
            return f"world {number} of seed {seed}, {len(surface.faces)} faces by {most}: {wrong}"
    return ""


def main() -> int:
    parser = argparse.ArgumentParser(description="Random worlds, and random fronts of them.")
    parser.add_argument("seed")
    parser.add_argument("count", type=int)
    parser.add_argument("--vdpm", type=Path, default=TOP / "vdpm")
    parser.add_argument("--processes", type=int, default=multiprocessing.cpu_count())
    asked = parser.parse_args()
    failed = 0
    with multiprocessing.Pool(asked.processes) as pool:
        task = partial(tried, asked.vdpm.resolve(), asked.seed)
        for wrong in pool.imap(task, range(asked.count)):
            failed += bool(wrong)
            if wrong:
                print(wrong, flush=True)
    print(f"{asked.count - failed} passed, {failed} failed")
    return 0 if asked.count and not failed else 1


if __name__ == "__main__":
    sys.exit(main())
