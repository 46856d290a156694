"""Small random meshes for tests, each an oriented manifold with or without border.

A surface is a list of faces over vertex numbers; points are laid on it afterwards, so that flat,
crowded and far-flung ones all come. All chance comes from the generator that is handed in.
"""
from random import Random
from typing import Callable, Dict, List, Tuple

from model.mesh import GREATEST_COORDINATE, Corners, Mesh, Point, first_broken, is_oriented_manifold

Faces = List[Corners]


def patch(rows: int, columns: int) -> Faces:
    """A sheet of rows times columns cells, two faces each."""
    width, faces = columns + 1, []
    for r in range(rows):
        for c in range(columns):
            a, b = r * width + c, (r + 1) * width + c
            faces += [(a, a + 1, b + 1), (a, b + 1, b)]
    return faces


def torus(rows: int, columns: int) -> Faces:
    """A sheet that is closed both ways; three cells or more go round each way."""
    faces = []
    for r in range(rows):
        for c in range(columns):
            a, b = r * columns + c, (r + 1) % rows * columns + c
            right = (c + 1) % columns - c
            faces += [(a, a + right, b + right), (a, b + right, b)]
    return faces


def tube(rings: int, around: int) -> Faces:
    """A sheet that is closed one way, with two borders."""
    return torus(rings + 1, around)[: 2 * rings * around]


def tetrahedron() -> Faces:
    return [(0, 2, 1), (0, 1, 3), (1, 2, 3), (0, 3, 2)]


def double_cone(around: int) -> Faces:
    """Two tips over one ring; with four round it, an octahedron."""
    rim = [(i + 2, (i + 1) % around + 2) for i in range(around)]
    return [(0, a, b) for a, b in rim] + [(1, b, a) for a, b in rim]


def chain(count: int) -> Faces:
    """An open fan round vertex 0: its records hang on each other one by one."""
    return [(0, i + 1, i + 2) for i in range(count)]


def refined(faces: Faces) -> Faces:
    """Each face cut into four by the middles of its sides."""
    middle: Dict[Tuple[int, ...], int] = {}
    count = 1 + max((corner for face in faces for corner in face), default=-1)
    finer = []
    for face in faces:
        sides = [tuple(sorted((face[i], face[(i + 1) % 3]))) for i in range(3)]
        for side in sides:
            middle.setdefault(side, count + len(middle))
        ab, bc, ca = [middle[side] for side in sides]
        a, b, c = face
        finer += [(a, ab, ca), (ab, b, bc), (ca, bc, c), (ab, bc, ca)]
    return finer


def large_surface(rng: Random) -> Faces:
    """One of some hundred faces."""
    kinds: List[Callable[[], Faces]] = [
        lambda: patch(rng.randint(5, 9), rng.randint(5, 9)),
        lambda: torus(rng.randint(5, 8), rng.randint(5, 8)),
        lambda: refined(refined(double_cone(rng.randint(3, 5)))),
        lambda: chain(rng.randint(30, 90)),
    ]
    return rng.choice(kinds)()


def base_surface(rng: Random) -> Faces:
    kinds: List[Callable[[], Faces]] = [
        lambda: patch(rng.randint(1, 4), rng.randint(1, 4)),
        lambda: torus(rng.randint(3, 4), rng.randint(3, 5)),
        lambda: tube(rng.randint(1, 3), rng.randint(3, 5)),
        tetrahedron,
        lambda: double_cone(rng.randint(3, 8)),
        lambda: chain(rng.randint(1, 12)),
        lambda: refined(tetrahedron()),
        lambda: refined(double_cone(rng.randint(3, 4))),
    ]
    return rng.choice(kinds)()


def with_flips(rng: Random, faces: Faces, tries: int) -> Faces:
    """Turns the side between two faces into their other diagonal, where that leaves a manifold."""
    for _ in range(tries):
        i, j = rng.sample(range(len(faces)), 2) if len(faces) > 1 else (0, 0)
        shared = set(faces[i]) & set(faces[j])
        if len(shared) != 2:
            continue
        at = next(k for k in range(3) if faces[i][k] not in shared)
        a, b, c = faces[i][at], faces[i][(at + 1) % 3], faces[i][(at + 2) % 3]
        [d] = set(faces[j]) - shared
        flipped = list(faces)
        flipped[i], flipped[j] = (a, b, d), (a, d, c)
        if is_oriented_manifold(flipped):
            faces = flipped
    return faces


def with_holes(rng: Random, faces: Faces, count: int) -> Faces:
    """Takes faces out, and then more, until each vertex that is used has a fan."""
    left = rng.sample(faces, max(0, len(faces) - count))
    while True:
        vertex = first_broken(left)
        if vertex is None:
            return left
        left.remove(rng.choice([face for face in left if vertex in face]))


def with_center(rng: Random, faces: Faces, count: int) -> Faces:
    """Cuts faces into three by a new vertex within."""
    for _ in range(count):
        if faces:
            a, b, c = faces.pop(rng.randrange(len(faces)))
            new = 1 + max(corner for face in faces + [(a, b, c)] for corner in face)
            faces += [(a, b, new), (b, c, new), (c, a, new)]
    return faces


def surface(rng: Random) -> Faces:
    """Up to three base surfaces side by side, changed at random."""
    faces = large_surface(rng) if rng.random() < 0.08 else []
    for _ in range(rng.choice([1, 1, 1, 1, 2, 3]) if not faces else 0):
        first = 1 + max((corner for face in faces for corner in face), default=-1)
        faces += [(a + first, b + first, c + first) for a, b, c in base_surface(rng)]
    if rng.random() < 0.5:
        faces = with_flips(rng, faces, rng.randint(1, 20))
    if rng.random() < 0.4:
        faces = with_holes(rng, faces, rng.randint(1, 4))
    if rng.random() < 0.3:
        faces = with_center(rng, faces, rng.randint(1, 4))
    return faces


def points_for(rng: Random, count: int) -> List[Point]:
    """Places for so many vertices: on a rough sheet, crowded, on a line, or anywhere."""
    kind = rng.choice(["sheet", "sheet", "crowd", "flat", "line", "far", "edge"])
    step, most = rng.choice([1, 7, 100, 900]), GREATEST_COORDINATE
    width = max(2, round(count**0.5))

    def point(i: int) -> Point:
        if kind == "sheet":
            rough = step // 3 + 1
            x, y = step * (i % width), step * (i // width)
            return x + rng.randint(0, rough), y + rng.randint(0, rough), rng.randint(0, 3 * rough)
        if kind == "crowd":
            return rng.randint(-3, 3), rng.randint(-3, 3), rng.randint(-3, 3)
        if kind == "flat":
            return step * (i % width), step * (i // width), 0
        if kind == "line":
            return step * i, 0, 0
        if kind == "edge":
            x, y, z = [rng.choice((-most, 0, most)) for _ in range(3)]
            return x, y, z
        return rng.randint(-most, most), rng.randint(-most, most), rng.randint(-most, most)

    return [point(i) for i in range(count)]


def shuffled(rng: Random, points: List[Point], faces: Faces) -> Mesh:
    """Vertices and faces in another order, and each face begun at any corner."""
    order = list(range(len(points)))
    rng.shuffle(order)
    turned: List[Tuple[int, ...]] = []
    for face in rng.sample(faces, len(faces)):
        first = rng.randrange(3)
        turned.append(tuple(order[face[(first + i) % 3]] for i in range(3)))
    placed = sorted(zip(order, points))
    return Mesh([point for _, point in placed], [(a, b, c) for a, b, c in turned])


def random_mesh(rng: Random) -> Mesh:
    """A mesh of some 60 faces at most, seldom of some hundred; some vertices may have no face."""
    faces = surface(rng)
    used = 1 + max((corner for face in faces for corner in face), default=-1)
    points = points_for(rng, used + rng.choice([0, 0, 0, 1, 3]))
    return shuffled(rng, points, faces) if rng.random() < 0.7 else Mesh(points, faces)
