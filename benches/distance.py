"""How far what a view shows is from the mesh that it stands for, in pixels, by samples:

    python3 benches/distance.py MESH.obj STREAM --eye X Y Z [--focal F] [--tolerances 1 4 16]
        [--program PATH]

For each tolerance the stream is opened twice, and looked at by `v` and by `vd`. A row has the
number of shown faces, and the greatest and the root mean square of the distances: from the corners
and from places of the input's faces to the shown faces (`from input`), and from places of shown
faces to those of the input (`from shown`). A distance is as it looks from the eye: units times the
focal length over the way to the eye. What is turned away from the eye doesn't count, since `v`
leaves it coarse, and `vd` on a closed surface. Samples don't show what lies between them: no row
is a bound.
"""
import argparse
import random
import subprocess
import sys
from math import sqrt
from pathlib import Path
from typing import Callable, Iterator, List, NamedTuple, Tuple

TOP = Path(__file__).resolve().parent.parent
sys.path.insert(0, str(TOP / "tools"))

from frames import read_frames  # noqa: E402
from mesh_files.reading import read_soup  # noqa: E402
from vectors import cross, dot, minus  # noqa: E402

ALL_MOVES = 4294967295
FEW = 4  # triangles of a box that isn't parted any more

Place = Tuple[float, float, float]
Triangle = Tuple[Place, Place, Place]


class Mesh(NamedTuple):
    points: List[Place]
    faces: List[Tuple[int, int, int]]

    def triangles(self) -> List[Triangle]:
        return [(self.points[a], self.points[b], self.points[c]) for a, b, c in self.faces]


def read_obj(path: Path) -> Mesh:
    soup = read_soup(path)
    numbers, corners = iter(soup.points), iter(soup.corners)
    return Mesh(list(zip(numbers, numbers, numbers)), list(zip(corners, corners, corners)))


def plus(p: Place, q: Place, part: float) -> Place:
    return (p[0] + part * q[0], p[1] + part * q[1], p[2] + part * q[2])


def squared_way(p: Place, triangle: Triangle) -> float:
    """The squared distance from a place to a triangle (Ericson, Real-Time Collision Detection)."""
    a, b, c = triangle
    ab, ac, ap = minus(b, a), minus(c, a), minus(p, a)
    d1, d2 = dot(ab, ap), dot(ac, ap)
    if d1 <= 0 and d2 <= 0:
        return dot(ap, ap)
    bp = minus(p, b)
    d3, d4 = dot(ab, bp), dot(ac, bp)
    if d3 >= 0 and d4 <= d3:
        return dot(bp, bp)
    cp = minus(p, c)
    d5, d6 = dot(ab, cp), dot(ac, cp)
    if d6 >= 0 and d5 <= d6:
        return dot(cp, cp)
    areas = d1 * d4 - d3 * d2, d5 * d2 - d1 * d6, d3 * d6 - d5 * d4
    return squared_way_within(p, triangle, areas, (d1, d2, d3, d4, d5, d6))


def squared_way_within(
    p: Place, triangle: Triangle, areas: Tuple[float, float, float], d: Tuple[float, ...]
) -> float:
    """The same where no corner is nearest: by a side, or by the inside."""
    a, b, c = triangle
    ab, ac = minus(b, a), minus(c, a)
    d1, d2, d3, d4, d5, d6 = d
    vc, vb, va = areas
    if vc <= 0 <= d1 and d3 <= 0:
        nearest = plus(a, ab, d1 / (d1 - d3) if d1 > d3 else 0)
    elif vb <= 0 <= d2 and d6 <= 0:
        nearest = plus(a, ac, d2 / (d2 - d6) if d2 > d6 else 0)
    elif va <= 0 and d4 >= d3 and d5 >= d6:
        nearest = plus(b, minus(c, b), (d4 - d3) / ((d4 - d3) + (d5 - d6) or 1))
    else:
        whole = va + vb + vc or 1
        nearest = plus(plus(a, ab, vb / whole), ac, vc / whole)
    way = minus(p, nearest)
    return dot(way, way)


class Box(NamedTuple):
    low: Place
    high: Place
    triangles: List[int]  # of a box that isn't parted
    parts: Tuple["Box", ...]

    def squared_way(self, p: Place) -> float:
        total = 0.0
        for low, value, high in zip(self.low, p, self.high):
            off = max(low - value, 0.0, value - high)
            total += off * off
        return total


class Tree:
    """Triangles in boxes, each parted in halves along its longest axis."""

    def __init__(self, triangles: List[Triangle]) -> None:
        self.triangles = triangles
        self.middles = [tuple(sum(axis) for axis in zip(*t)) for t in triangles]
        self.top = self.box_of(list(range(len(triangles))))

    def box_of(self, few: List[int]) -> Box:
        columns = list(zip(*(corner for t in few for corner in self.triangles[t])))
        low, high = tuple(map(min, columns)), tuple(map(max, columns))
        if len(few) <= FEW:
            return Box(low, high, few, ())
        axis = max(range(3), key=lambda i: high[i] - low[i])
        few.sort(key=lambda t: self.middles[t][axis])
        half = len(few) // 2
        return Box(low, high, [], (self.box_of(few[:half]), self.box_of(few[half:])))

    def nearest(self, p: Place) -> Tuple[float, int]:
        """The squared distance to the nearest triangle, and its number."""
        best, which = float("inf"), -1
        stack = [(0.0, self.top)]
        while stack:
            way, box = stack.pop()
            if way >= best:
                continue
            for t in box.triangles:
                way = squared_way(p, self.triangles[t])
                if way < best:
                    best, which = way, t
            ways = sorted(((b.squared_way(p), b) for b in box.parts), key=lambda w: -w[0])
            stack.extend(ways)
        return best, which


def is_seen(triangle: Triangle, eye: Place) -> bool:
    """The triangle is turned to the eye."""
    a, b, c = triangle
    return dot(cross(minus(b, a), minus(c, a)), minus(a, eye)) < 0


def places(triangles: List[Triangle], count: int, chance: random.Random) -> Iterator[Place]:
    """Places of some of the triangles: a corner, the middle and one at random of each."""
    for t in chance.sample(range(len(triangles)), min(count, len(triangles))):
        a, b, c = triangles[t]
        yield a
        u, v = sorted((chance.random(), chance.random()))
        for i, j, k in ((1 / 3, 1 / 3, 1 / 3), (u, v - u, 1 - v)):
            yield tuple(i * x + j * y + k * z for x, y, z in zip(a, b, c))


class Found(NamedTuple):
    greatest: float
    rms: float


def looked(ways: List[Tuple[Place, float]], eye: Place, focal: int) -> Found:
    pixels = [focal * sqrt(w) / sqrt(dot(minus(p, eye), minus(p, eye))) for p, w in ways]
    if not pixels:
        return Found(0.0, 0.0)
    return Found(max(pixels), sqrt(sum(n * n for n in pixels) / len(pixels)))


def shown_by(asked: argparse.Namespace, line: str) -> Mesh:
    """The mesh that the stream's hierarchy shows after a line."""
    command = "live" if line.startswith("vd") else "view"
    script = asked.stream.read_bytes() + f"{line}\nw\nq\n".encode("ascii")
    done = subprocess.run(
        [asked.program, command, str(ALL_MOVES)], input=script, stdout=subprocess.PIPE, check=True
    )
    (frame,) = read_frames(done.stdout.decode("ascii").splitlines())
    return Mesh(frame.points, frame.faces)


def row(asked: argparse.Namespace, whole: Tree, word: str, tolerance: int) -> str:
    eye = tuple(asked.eye)
    line = " ".join(str(n) for n in (word, *asked.eye, asked.focal, tolerance))
    mesh = shown_by(asked, line)
    shown = Tree(mesh.triangles())
    chance = random.Random(1)
    near: Callable[[int], bool] = lambda t: is_seen(whole.triangles[t], eye)
    seen = [t for t in whole.triangles if is_seen(t, eye)]
    there = [(p, shown.nearest(p)[0]) for p in places(seen, asked.samples, chance)]
    back = [(p, *whole.nearest(p)) for p in places(shown.triangles, asked.samples, chance)]
    ways = [(p, w) for p, w, t in back if near(t)]
    cells = [word, str(tolerance), f"{len(mesh.faces):,}"]
    for found in (looked(there, eye, asked.focal), looked(ways, eye, asked.focal)):
        cells += [f"{found.greatest:.2f}", f"{found.rms:.2f}"]
    return f"| {' | '.join(cells)} |"


def arguments() -> argparse.Namespace:
    parser = argparse.ArgumentParser(description="Measures how far views are from their mesh.")
    parser.add_argument("mesh", type=Path)
    parser.add_argument("stream", type=Path)
    parser.add_argument("--eye", type=int, nargs=3, required=True)
    parser.add_argument("--focal", type=int, default=1000)
    parser.add_argument("--tolerances", type=int, nargs="*", default=[1, 4, 16])
    parser.add_argument("--words", nargs="*", default=["v", "vd"])
    parser.add_argument("--samples", type=int, default=10000, help="triangles, three places each")
    parser.add_argument("--program", type=Path, default=TOP / "vdpm")
    return parser.parse_args()


def main() -> None:
    asked = arguments()
    whole = Tree(read_obj(asked.mesh).triangles())
    print("| by | px | faces | from input: greatest | rms | from shown: greatest | rms |")
    print("|" + "---|" * 7)
    for tolerance in asked.tolerances:
        for word in asked.words:
            print(row(asked, whole, word, tolerance), flush=True)


if __name__ == "__main__":
    main()
