"""Meshes for measurements, as OBJ texts of whole numbers. Each is an oriented manifold.

    python3 meshes.py KIND SIZE > mesh.obj

KIND is grid, ramp, sphere, cylinder, cone, block, towers or a fan (see FANS); SIZE is the number of
cells or segments along one way.
"""
import sys
from math import cos, pi, sin
from typing import Callable, Dict, List, Tuple

Point = Tuple[int, int, int]
Mesh = Tuple[List[Point], List[Point]]  # points, and faces by the numbers of points from 0


def grid(n: int) -> Mesh:
    """A hilly square of n by n cells, two faces each, with a border."""
    step = max(1, 60000 // n)

    def point(r: int, c: int) -> Point:
        grain = (r * r * 31 + c * 17 + r * c * 13) % 41
        height = round(900 * sin(9 * r / n) * cos(7 * c / n) + grain)
        return c * step - 30000, r * step - 30000, height

    points = [point(r, c) for r in range(n + 1) for c in range(n + 1)]
    faces: List[Point] = []
    for r in range(n):
        for c in range(n):
            a = r * (n + 1) + c
            faces += [(a, a + 1, a + n + 2), (a, a + n + 2, a + n + 1)]
    return points, faces


def ramp(n: int) -> Mesh:
    """A square of n by n cells whose roughness grows from one side to the other, from 1 to 30,000.

    The costs of its pairs spread over many powers of two, so a queue that parts near keys from far
    ones moves the bound between them often: where it moves too little at a time, the time grows
    with the square of the faces.
    """
    points, faces = grid(n)

    def rough(x: int, z: int) -> int:
        share = (x + 30000) / 60000
        return round((z % 41 - 20) / 20 * 2 ** (15 * share) * 0.9)

    return [(x, y, rough(x, z)) for x, y, z in points], faces


def sphere(n: int) -> Mesh:
    """A ball of n rings and 2 n segments, uneven by a little, with two poles of 2 n faces."""
    around = 2 * n
    points = [(0, 0, 30000)]
    for i in range(1, n):
        for j in range(around):
            a, b = pi * i / n, 2 * pi * j / around
            r = 30000 + (i * 37 + j * 101 + i * j * 7) % 97
            x, y, z = r * sin(a) * cos(b), r * sin(a) * sin(b), r * cos(a)
            points.append((round(x), round(y), round(z)))
    points.append((0, 0, -30000))
    last = len(points) - 1

    def at(i: int, j: int) -> int:
        return 1 + (i - 1) * around + j % around

    faces = [(0, at(1, j), at(1, j + 1)) for j in range(around)]
    for i in range(1, n - 1):
        for j in range(around):
            a, b, c, d = at(i, j), at(i + 1, j), at(i + 1, j + 1), at(i, j + 1)
            faces += [(a, b, c), (a, c, d)]
    faces += [(last, at(n - 1, j + 1), at(n - 1, j)) for j in range(around)]
    return points, faces


def circle(n: int, z: int) -> List[Point]:
    ways = [2 * pi * i / n for i in range(n)]
    return [(round(20000 * cos(way)), round(20000 * sin(way)), z) for way in ways]


def cylinder(n: int) -> Mesh:
    """A closed cylinder whose two caps are fans of n faces, as modelling programs make them."""
    points = [(0, 0, 10000), (0, 0, -10000)] + circle(n, 10000) + circle(n, -10000)
    faces: List[Point] = []
    for i in range(n):
        a, b = 2 + i, 2 + (i + 1) % n
        c, d = a + n, b + n
        faces += [(0, a, b), (a, c, d), (a, d, b), (1, d, c)]
    return points, faces


def cone(n: int) -> Mesh:
    """A double cone: two tips of n faces each."""
    points = [(0, 0, 10000), (0, 0, -10000)] + circle(n, 0)
    faces: List[Point] = []
    for i in range(n):
        a, b = 2 + i, 2 + (i + 1) % n
        faces += [(0, a, b), (1, b, a)]
    return points, faces


def rough(points: List[Point], most: int) -> List[Point]:
    """The points, each moved by at most so much along each axis."""

    def moved(k: int, value: int) -> int:
        return value + (k * k * 37 + k * 101) % (2 * most + 1) - most

    def moved_point(k: int, x: int, y: int, z: int) -> Point:
        return moved(3 * k, x), moved(3 * k + 1, y), moved(3 * k + 2, z)

    return [moved_point(k, *point) for k, point in enumerate(points)]


def fan(tip: Point, rim: List[Point]) -> Mesh:
    """Faces round a tip, with the rim for a border."""
    n = len(rim)
    return [tip] + rim, [(0, 1 + i, 1 + (i + 1) % n) for i in range(n)]


def open_cone(n: int) -> Mesh:
    """A cone of n faces without a bottom: the rim is a border."""
    return fan((0, 0, 10000), circle(n, 0))


def rough_cone(n: int) -> Mesh:
    """The same with a rough rim."""
    return fan((0, 0, 10000), rough(circle(n, 0), 300))


def disc(n: int) -> Mesh:
    """A flat fan of n faces, whose rim is a border."""
    return fan((0, 0, 0), circle(n, 0))


def rough_disc(n: int) -> Mesh:
    """The same with a rough rim, so that it isn't flat."""
    return fan((0, 0, 0), rough(circle(n, 0), 30))


def half_cone(n: int) -> Mesh:
    """An open cone cut in two: its tip is on the border, too."""
    ways = [pi * i / n for i in range(n + 1)]
    rim = [(round(20000 * cos(way)), round(20000 * sin(way)), 0) for way in ways]
    return [(0, 0, 10000)] + rim, [(0, 1 + i, 2 + i) for i in range(n)]


def double_cone(n: int) -> Mesh:
    """A closed double cone of n faces."""
    return cone(n // 2)


def hubs(n: int) -> Mesh:
    """A square with a border, of four by four cells that are fans: some n faces in all."""
    m = n // 64
    step = 15000 // m
    number: Dict[Tuple[int, int], int] = {}
    points: List[Point] = []
    faces: List[Point] = []

    def at(x: int, y: int) -> int:
        if (x, y) not in number:
            number[(x, y)] = len(points)
            points.append((x, y, (x * 7 + y * 13) % 31))
        return number[(x, y)]

    side = m * step
    for left in range(-2 * side, 2 * side, side):
        for low in range(-2 * side, 2 * side, side):
            steps = range(0, side, step)
            ring = [at(left + d, low) for d in steps] + [at(left + side, low + d) for d in steps]
            ring += [at(left + side - d, low + side) for d in steps]
            ring += [at(left, low + side - d) for d in steps]
            middle = at(left + side // 2 + 1, low + side // 2 + 1)
            faces += [(middle, ring[i], ring[(i + 1) % len(ring)]) for i in range(len(ring))]
    return points, faces


def block(n: int) -> Mesh:
    """A closed part with flat sides: a cube of n by n cells a side, with a boss on its top."""
    step = 40000 // n
    number: Dict[Tuple[int, ...], int] = {}
    points: List[Point] = []
    faces: List[Point] = []

    def at(*cell: int) -> int:
        if cell not in number:
            number[cell] = len(points)
            x, y, z = (i * step - step * n // 2 for i in cell)
            on_boss = z > 0 and cell[2] == n and all(n <= 3 * i <= 2 * n for i in cell[:2])
            points.append((x, y, z + 6000 if on_boss else z))
        return number[cell]

    def side(place: Callable[[int, int], Point]) -> None:
        for i in range(n):
            for j in range(n):
                cells = (i, j), (i + 1, j), (i + 1, j + 1), (i, j + 1)
                a, b, c, d = (at(*place(*cell)) for cell in cells)
                faces.extend([(a, b, c), (a, c, d)])

    side(lambda i, j: (i, j, n))
    side(lambda i, j: (j, i, 0))
    side(lambda i, j: (i, 0, j))
    side(lambda i, j: (j, n, i))
    side(lambda i, j: (n, i, j))
    side(lambda i, j: (0, j, i))
    return points, faces


def towers(n: int) -> Mesh:
    """Rolling ground of n by n cells with thin towers on it, one cell wide, and a border."""
    points, faces = grid(n)

    def is_raised(i: int) -> bool:
        return 0 < i < n - 1 and i % (n // 4) in (n // 8, n // 8 + 1)

    def raised(k: int, x: int, y: int, z: int) -> Point:
        is_tower = all(is_raised(i) for i in divmod(k, n + 1))
        return x, y, z + 12000 if is_tower else z

    return [raised(k, *p) for k, p in enumerate(points)], faces


# Fans of many faces round one vertex. SIZE is the number of faces.
FANS: Dict[str, Callable[[int], Mesh]] = {
    "open_cone": open_cone,
    "rough_cone": rough_cone,
    "half_cone": half_cone,
    "double_cone": double_cone,
    "disc": disc,
    "rough_disc": rough_disc,
    "hubs": hubs,
}

KINDS: Dict[str, Callable[[int], Mesh]] = {
    **FANS,
    "grid": grid,
    "ramp": ramp,
    "sphere": sphere,
    "cylinder": cylinder,
    "cone": cone,
    "block": block,
    "towers": towers,
}


def text(kind: str, size: int) -> str:
    points, faces = KINDS[kind](size)
    lines = [f"v {x} {y} {z}" for x, y, z in points]
    lines += [f"f {a + 1} {b + 1} {c + 1}" for a, b, c in faces]
    return "\n".join(lines) + "\n"


if __name__ == "__main__":
    sys.stdout.write(text(sys.argv[1], int(sys.argv[2])))
