"""The run of the builder: the least legal pair is collapsed, again and again, of those that have no
kept vertex. A policy says what costs go by. All pairs are looked at anew each time."""
from typing import Callable, Collection, Dict, List, NamedTuple, Optional, Set, Tuple

from .mesh import (
    Corners,
    Faces,
    Mesh,
    Point,
    dot,
    ends,
    face_of,
    following,
    normal,
    numbered,
    sides,
    twins,
)

Plane = Tuple[Point, int]  # n and d of the plane n . p + d = 0


class Gone(NamedTuple):
    """A dropped face, and what stood across its first and its second outer side just before."""

    face: int
    first: Optional[int]
    second: Optional[int]


class Collapse(NamedTuple):
    """The vertices t and u became vertex s. `left` is the dropped face in which u follows t, and
    `right` the one in which t follows u."""

    t: int
    u: int
    s: int
    place: Point
    left: Optional[Gone]
    right: Optional[Gone]


Places = Dict[int, Point]


class Policy(NamedTuple):
    """What a run goes by: the planes that an input vertex brings, those that a vertex takes of the
    surface in which it is first there, the places that a pair may take, and where the pair with the
    best of them is put if it is legal there."""

    brought: Callable[[Faces, Places, int], List[Plane]]
    taken: Callable[[Faces, Places, int], List[Plane]]
    candidates: Callable[[List[Plane], Point, Point], List[Point]]
    put: Callable[[Faces, Places, int, int, Point], Point]


class Surface(NamedTuple):
    """A mesh that is being simplified: the faces that are left, and the places of the vertices that
    are left, with the planes that they were brought and that they took. A new vertex has the number
    `next_vertex`."""

    faces: Faces
    places: Places
    planes: Dict[int, List[Plane]]
    taken: Dict[int, List[Plane]]
    next_vertex: int
    policy: Policy


def plane_through(n: Point, p: Point) -> Plane:
    return n, -dot(n, p)


def planes_of_faces(faces: Faces, places: Places, vertex: int) -> List[Plane]:
    """The planes of the faces at a vertex."""
    corners = [[places[corner] for corner in face] for face in holding(faces, vertex)]
    return [plane_through(normal(a, b, c), a) for a, b, c in corners]


def midpoint(p: Point, q: Point) -> Point:
    return ((p[0] + q[0]) // 2, (p[1] + q[1]) // 2, (p[2] + q[2]) // 2)


# The run of `build`: planes are brought and none is taken, and the place is an end or the midpoint.
PLAIN = Policy(
    planes_of_faces,
    lambda faces, places, vertex: [],
    lambda planes, p, q: [p, q, midpoint(p, q)],
    lambda faces, places, a, b, place: place,
)


def surface_of(mesh: Mesh, policy: Policy = PLAIN) -> Surface:
    faces, places = numbered(mesh.faces), dict(enumerate(mesh.points))
    brought = {v: policy.brought(faces, places, v) for v in places}
    taken = {v: policy.taken(faces, places, v) for v in places}
    return Surface(faces, places, brought, taken, len(mesh.points), policy)


def squares(planes: List[Plane], place: Point) -> int:
    """The sum of the squared values of the planes at a place."""
    return sum((dot(n, place) + d) ** 2 for n, d in planes)


def best_place(surface: Surface, a: int, b: int) -> Tuple[int, Point]:
    """The cost and the place of a pair: the first candidate at which the planes of both have the
    least sum of squares."""
    planes = surface.taken[a] + surface.planes[a] + surface.taken[b] + surface.planes[b]
    places = surface.policy.candidates(planes, surface.places[a], surface.places[b])
    costs = [(squares(planes, place), i, place) for i, place in enumerate(places)]
    cost, _, place = min(costs)
    return cost, place


def holding(faces: Faces, *vertices: int) -> List[Corners]:
    """The faces that have all these corners."""
    return [face for face in faces.values() if all(vertex in face for vertex in vertices)]


def neighbours(faces: Faces, vertex: int) -> Set[int]:
    return {corner for face in holding(faces, vertex) for corner in face} - {vertex}


def border_sides(faces: Faces) -> Set[int]:
    return set(sides(faces)) - set(twins(faces))


def is_on_border(faces: Faces, vertex: int) -> bool:
    return any(vertex in ends(faces, side) for side in border_sides(faces))


def turns_over(surface: Surface, face: Corners, moved: int, place: Point) -> bool:
    """The face's normal has a product below 0 with the one it has once the corner is moved."""
    a, b, c = [surface.places[corner] for corner in face]
    p, q, r = [place if corner == moved else surface.places[corner] for corner in face]
    return dot(normal(a, b, c), normal(p, q, r)) < 0


def is_held_apart(faces: Faces, a: int, b: int) -> bool:
    """The pair has no triangle in common that would be folded up: of two faces at it the third
    corners share no triangle with each end; one face alone has a neighbour beside it."""
    thirds = {corner for face in holding(faces, a, b) for corner in face} - {a, b}
    if len(holding(faces, a, b)) == 2:
        return not (holding(faces, a, *thirds) and holding(faces, b, *thirds))
    [number] = [f for f, face in faces.items() if a in face and b in face]
    own = {3 * number, 3 * number + 1, 3 * number + 2}
    others = {side for side in own if set(ends(faces, side)) != {a, b}}
    return not others <= border_sides(faces)


def is_legal(surface: Surface, a: int, b: int, place: Point) -> bool:
    """The pair may be collapsed to the place."""
    faces = surface.faces
    both = holding(faces, a, b)
    thirds = {corner for face in both for corner in face} - {a, b}
    if not both or neighbours(faces, a) & neighbours(faces, b) != thirds:
        return False
    if len(both) > 1 and is_on_border(faces, a) and is_on_border(faces, b):
        return False
    ones = [(face, a) for face in holding(faces, a) if b not in face]
    ones += [(face, b) for face in holding(faces, b) if a not in face]
    return is_held_apart(faces, a, b) and not any(
        turns_over(surface, face, moved, place) for face, moved in ones
    )


def pairs_of(faces: Faces) -> List[Tuple[int, int]]:
    """The pairs of vertices that some face holds, the lesser first."""
    found = [ends(faces, side) for side in sides(faces)]
    return sorted({(min(pair), max(pair)) for pair in found})


def least_pair(surface: Surface, kept: Collection[int]) -> Optional[Tuple[int, int, Point]]:
    """Of the legal pairs without a kept vertex the one with the least cost, and of equal costs the
    least numbers; and where it is put."""
    costs = []
    for a, b in pairs_of(surface.faces):
        if a in kept or b in kept:
            continue
        cost, place = best_place(surface, a, b)
        costs.append((cost, a, b, place))
    for _, a, b, place in sorted(costs):
        if is_legal(surface, a, b, place):
            wanted = surface.policy.put(surface.faces, surface.places, a, b, place)
            return a, b, wanted if is_legal(surface, a, b, wanted) else place
    return None


def gone(faces: Faces, t: int, u: int) -> Optional[Gone]:
    """The face with a side from t to u, which a collapse drops."""
    across = twins(faces)
    for side in sides(faces):
        if ends(faces, side) == (t, u):
            first = following(side)
            return Gone(face_of(side), across.get(first), across.get(following(first)))
    return None


def collapsed(surface: Surface, t: int, u: int, place: Point) -> Tuple[Surface, Collapse]:
    """Both vertices become the next one, and faces with two equal corners are dropped."""
    s = surface.next_vertex
    entry = Collapse(t, u, s, place, gone(surface.faces, t, u), gone(surface.faces, u, t))
    renamed = {f: [s if c in (t, u) else c for c in face] for f, face in surface.faces.items()}
    faces = {f: (a, b, c) for f, (a, b, c) in renamed.items() if len({a, b, c}) == 3}
    places = {v: p for v, p in surface.places.items() if v not in (t, u)}
    planes = {v: list(ps) for v, ps in surface.planes.items() if v not in (t, u)}
    taken = {v: list(ps) for v, ps in surface.taken.items() if v not in (t, u)}
    places[s], planes[s] = place, surface.planes[t] + surface.planes[u]
    taken[s] = surface.policy.taken(faces, places, s)
    return Surface(faces, places, planes, taken, s + 1, surface.policy), entry


def border_of(mesh: Mesh) -> Set[int]:
    """The vertices on the border."""
    faces = numbered(mesh.faces)
    return {vertex for side in border_sides(faces) for vertex in ends(faces, side)}


def run_to(
    mesh: Mesh, target: int, kept: Collection[int] = (), policy: Policy = PLAIN
) -> List[Collapse]:
    """The log of the run: while more faces than the target are left and a pair without a kept
    vertex is legal, the least one is collapsed."""
    surface, log = surface_of(mesh, policy), []
    while len(surface.faces) > target:
        pair = least_pair(surface, kept)
        if pair is None:
            break
        surface, entry = collapsed(surface, *pair)
        log.append(entry)
    return log
