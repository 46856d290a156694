"""Compares what `prepare` makes of raw models with what assimp reads in them.

    python3 tests/raw_models.py FOLDER.. [--prepare PATH] [--only TEXT]

Each OBJ, PLY and STL file below the folders, one packed by gzip too, goes through `prepare` and
through `assimp export` to OBJ, a file with the bytes of an earlier one left out. The two are the
same where each corner that assimp tells is within half a step of a place on each axis, and assimp's
faces over these places are those that came out: a triangle as the three places, without order,
but for those with two equal ones; of a polygon the triangles among its places, which have its
boundary, where it has no place twice. assimp reads with 24 bits, so that a corner may be off by so
much more.

A line tells of each file that isn't the same: that `prepare` refused it, with the fault and what
assimp said, that assimp alone did, or how they differ. The last line is `N same, M refused, K not
read by assimp, L differ`, and the status is 0 exactly where some are the same and none differs.
Where there is no assimp that is said, with status 0.

Debian 12 has models in four packages: `apt-get download` them, and `dpkg-deb -x PACKAGE.deb
FOLDER`. Assimp itself, 5.2.5, is in assimp-utils. How many of them were the same / refused:

    |                   | OBJ    | PLY   | STL |
    | assimp-testmodels | 17 / 8 | 4 / 5 |   8 |
    | cura              | 31     |       |  57 |
    | openfoam-examples | 35 / 1 |       |  66 |
    | prusa-slicer      |        |       |  70 |

None differs. Of the fourteen, seven have no faces, two of them no bytes; the others have 16 bits a
letter, a number `3.1+e2`, an index beyond the vertices, an `f` alone, lists in the element
`vertex`, a line that is none of a PLY head, and lost bytes. assimp reads faces in three of these,
those with the number, the `f` and the line.
"""
import argparse
import gzip
import hashlib
import shutil
import subprocess
import sys
import tempfile
from collections import Counter
from itertools import product
from math import ceil, floor
from pathlib import Path
from typing import Dict, FrozenSet, Iterator, List, NamedTuple, Optional, Sequence, Set, Tuple

from programs import without_notice

TOP = Path(__file__).resolve().parent.parent
sys.path.insert(0, str(TOP / "tools"))

from mesh_files.obj import scale_of  # noqa: E402
from mesh_files.reading import polygons_of, read_soup  # noqa: E402
from mesh_files.soup import MeshFault  # noqa: E402

KINDS = (".obj", ".ply", ".stl")
SECONDS = 300
# Of a coordinate, what a float of 24 bits that was read from a text may be off.
SINGLE = 2.0**-22
Point = Tuple[float, float, float]
Place = Tuple[int, int, int]
Triangle = FrozenSet[Place]
Outcome = Tuple[str, str]  # what came of a file, and what is told of it


class Mesh(NamedTuple):
    points: List[Point]
    polygons: List[List[int]]


class Prepared(NamedTuple):
    """The triangles over places, and how these lead to coordinates."""

    triangles: Set[Triangle]
    step: float
    middle: Point


class Differs(Exception):
    """How what came out isn't what assimp reads."""


def read_mesh(path: Path) -> Mesh:
    soup = read_soup(path)
    numbers = iter(soup.points)
    return Mesh(list(zip(numbers, numbers, numbers)), list(polygons_of(soup)))


def read_prepared(path: Path) -> Prepared:
    with path.open("rb") as file:
        step, middle = scale_of(file.readline()) or (1.0, (0.0, 0.0, 0.0))
    mesh = read_mesh(path)
    places = [(round(x), round(y), round(z)) for x, y, z in mesh.points]
    triangles = {frozenset(places[corner] for corner in face) for face in mesh.polygons}
    if len(triangles) != len(mesh.polygons):
        raise Differs("a triangle came out twice")
    return Prepared(triangles, step, middle)


def places_near(point: Point, prepared: Prepared) -> List[Place]:
    """The places that are within half a step of a point on each axis, as far as is known."""
    axes = []
    for coordinate, middle in zip(point, prepared.middle):
        off = 0.5 + SINGLE * abs(coordinate) / prepared.step
        at = (coordinate - middle) / prepared.step
        axes.append(range(ceil(at - off), floor(at + off) + 1))
    xs, ys, zs = axes
    return [(x, y, z) for x in xs for y in ys for z in zs]


class Comparison:
    """Which triangles that came out are those of a face that assimp tells."""

    def __init__(self, mesh: Mesh, prepared: Prepared) -> None:
        self.mesh, self.prepared = mesh, prepared
        self.found: Set[Triangle] = set()
        self.known = {place for triangle in prepared.triangles for place in triangle}
        self.at: Dict[Place, List[Triangle]] = {}
        for triangle in prepared.triangles:
            for place in triangle:
                self.at.setdefault(place, []).append(triangle)
        self.near = [self.known_near(point) for point in mesh.points]

    def known_near(self, point: Point) -> List[Place]:
        """The places near a point, those of vertices alone where there are some."""
        near = places_near(point, self.prepared)
        return [place for place in near if place in self.known] or near

    def told(self, polygon: Sequence[int]) -> str:
        points = (self.mesh.points[corner] for corner in polygon[:4])
        return ", ".join("({:.9g} {:.9g} {:.9g})".format(*point) for point in points)

    def take_triangle(self, corners: Sequence[int]) -> None:
        degenerate = False
        for places in product(*(self.near[corner] for corner in corners)):
            triangle = frozenset(places)
            if triangle in self.prepared.triangles:
                self.found.add(triangle)
                return
            degenerate = degenerate or len(triangle) < 3
        if not degenerate:
            raise Differs(f"the triangle {self.told(corners)} didn't come out")

    def take_polygon(self, corners: Sequence[int], single: Set[Triangle]) -> None:
        """The triangles among its places, or those that are none by themselves: their sides that
        an odd number has are the polygon's."""
        places = [self.near[corner][0] for corner in corners]
        inside = set(places)
        among = {one for place in inside for one in self.at.get(place, []) if one <= inside}
        wanted = (odd_sides(among), odd_sides(among - single))
        if len(inside) == len(places) and odd_sides_of(places) not in wanted:
            raise Differs(f"the polygon {self.told(corners)} ({len(corners)}) came out otherwise")
        self.found |= among

    def judge(self) -> None:
        for polygon in self.mesh.polygons:
            if len(polygon) == 3:
                self.take_triangle(polygon)
        single = set(self.found)
        for polygon in self.mesh.polygons:
            if len(polygon) > 3:
                self.take_polygon(polygon, single)
        more = self.prepared.triangles - self.found
        if more:
            raise Differs(f"{len(more)} triangles came out that assimp doesn't tell")


def odd_sides(triangles: Set[Triangle]) -> Set[FrozenSet[Place]]:
    """The sides that an odd number of the triangles have."""
    count = Counter(triangle - {corner} for triangle in triangles for corner in triangle)
    return {side for side, times in count.items() if times % 2}


def odd_sides_of(places: Sequence[Place]) -> Set[FrozenSet[Place]]:
    """The same of a polygon."""
    count = Counter(frozenset(side) for side in zip(places, [*places[1:], places[0]]))
    return {side for side, times in count.items() if times % 2 and len(side) == 2}


def ran(words: List[str], given: Optional[bytes] = None) -> "subprocess.CompletedProcess[bytes]":
    return subprocess.run(words, input=given, capture_output=True, timeout=SECONDS, check=False)


def assimp_mesh(path: Path, room: Path) -> Mesh:
    """What assimp reads in a file; MeshFault where it can't."""
    target = room / "assimp.obj"
    target.unlink(missing_ok=True)
    done = ran(["assimp", "export", str(path), str(target)])
    if done.returncode or not target.exists():
        said = (done.stdout + done.stderr).decode(errors="replace").split("\n")
        faults = [line.strip() for line in said if "ERROR" in line or "Failed" in line]
        raise MeshFault(faults[-1] if faults else f"status {done.returncode}")
    return read_mesh(target)


def compared(path: Path, prepare: Path, room: Path) -> Outcome:
    """What came of a file, and what is told of it."""
    done = ran([str(prepare)], path.read_bytes())
    try:
        mesh, fault = assimp_mesh(path, room), ""
    except MeshFault as found:
        mesh, fault = Mesh([], []), str(found)
    if done.returncode:
        told = without_notice("prepare", done.stderr).decode(errors="replace").strip()
        reads = f"assimp: {fault}" if fault else f"assimp reads {len(mesh.polygons)} faces"
        return "refused", f"{told}; {reads}"
    if fault:
        return "not read by assimp", fault
    target = room / "prepared.obj"
    target.write_bytes(done.stdout)
    try:
        Comparison(mesh, read_prepared(target)).judge()
    except Differs as how:
        return "differ", str(how)
    return "same", f"{len(mesh.polygons)} faces"


def models(folders: Sequence[Path], only: str) -> Iterator[Tuple[Path, bytes]]:
    """The files of the folders, each with its bytes, and none that an earlier one has."""
    seen: Set[bytes] = set()
    for folder in folders:
        for path in sorted(folder.rglob("*")):
            plain = path.name[:-3] if path.suffix == ".gz" else path.name
            if not (path.is_file() and plain.lower().endswith(KINDS) and only in str(path)):
                continue
            data = path.read_bytes()
            data = gzip.decompress(data) if path.suffix == ".gz" else data
            digest = hashlib.sha256(plain[-4:].lower().encode() + data).digest()
            if digest not in seen:
                seen.add(digest)
                yield path, data


def main() -> int:
    parser = argparse.ArgumentParser(description=(__doc__ or "").split("\n\n")[0])
    parser.add_argument("folders", nargs="+", type=Path)
    parser.add_argument("--prepare", type=Path, default=TOP / "prepare", metavar="PATH")
    parser.add_argument("--only", default="", metavar="TEXT", help="files whose path has TEXT")
    asked = parser.parse_args()
    if shutil.which("assimp") is None:
        print("LEFT OUT: there is no assimp (apt-get install assimp-utils)")
        return 0
    count: Dict[str, int] = Counter()
    with tempfile.TemporaryDirectory(prefix="models-") as room:
        for path, data in models(asked.folders, asked.only):
            plain = path.stem if path.suffix == ".gz" else path.name
            given = Path(room) / f"model{Path(plain).suffix.lower()}"
            given.write_bytes(data)
            outcome, told = compared(given, asked.prepare.resolve(), Path(room))
            count[outcome] += 1
            if outcome != "same":
                print(f"{outcome}: {path}: {told}", flush=True)
    names = ("same", "refused", "not read by assimp", "differ")
    print(", ".join(f"{count[name]} {name}" for name in names))
    return 0 if count["same"] and not count["differ"] else 1


if __name__ == "__main__":
    sys.exit(main())
