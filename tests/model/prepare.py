"""What `prepare` makes of a file: points brought onto the grid, an oriented manifold, and notes."""
from collections import Counter, defaultdict
from fractions import Fraction
from typing import Dict, FrozenSet, List, NamedTuple, Optional, Set, Tuple

from .commands import number_of_word
from .faults import Answer, Fault, not_understood
from .files import soup_of_file
from .mesh import (
    GREATEST_COORDINATE,
    Corners,
    Faces,
    Mesh,
    Point,
    canonical_text,
    coordinate_text,
    ends,
    following,
    normal,
    numbered,
    sides,
)
from .notes import (
    APART,
    REASONS,
    TOO_MANY_OUT,
    Note,
    of_faces,
    of_others,
    of_passed,
    of_vertices,
    of_welded,
)
from .polygons import cut
from .scan import OF_FILES, PASSED_OVER, UNITS, Soup, nearest


NO_FACES = 12
FINER = 4096


class Fit(NamedTuple):
    """How points are scaled: the box's least and greatest coordinates, and the size."""

    low: Point
    high: Point
    size: int

    def extent(self) -> int:
        return max(high - low for low, high in zip(self.low, self.high))

    def place(self, point: Point) -> Point:
        """The longest axis goes from -size to size, the middle of each axis to 0."""
        if self.extent() == 0:
            return (0, 0, 0)
        offs = [2 * c - low - high for c, low, high in zip(point, self.low, self.high)]
        x, y, z = [nearest(Fraction(self.size * off, self.extent())) for off in offs]
        return x, y, z

    def way_back(self) -> str:
        """How places lead back: by the extent, twice the size and the middle of each axis."""
        middles = [coordinate_text(5 * (low + high), 19) for low, high in zip(self.low, self.high)]
        scale = f"{coordinate_text(self.extent(), 18)} / {2 * self.size}"
        return f"coordinate = {scale} * place + ({' '.join(middles)})\n"

    def near(self) -> str:
        """Half a step, rounded up to units: how near places are to the coordinates."""
        units = -(-self.extent() // (4 * self.size))
        return f"positions are within {coordinate_text(units, 18)} of the coordinates\n"

    def longest(self, points: Dict[int, Point]) -> str:
        """The longest axis, and the first vertices at its ends."""
        ways = [high - low for low, high in zip(self.low, self.high)]
        k = ways.index(self.extent())
        low = next(v for v in sorted(points) if points[v][k] == self.low[k])
        high = next(v for v in sorted(points) if points[v][k] == self.high[k])
        return f"the longest axis, {'xyz'[k]}, goes from vertex {low + 1} to vertex {high + 1}\n"


def stands(point: Point) -> bool:
    """Each coordinate is a whole number in range."""
    return all(c % UNITS == 0 and abs(c) <= GREATEST_COORDINATE * UNITS for c in point)


def fit_of(points: List[Point], size: Optional[int]) -> Optional[Fit]:
    """None where no size is given and all points may stand as they are."""
    if not points or (size is None and all(map(stands, points))):
        return None
    x, y, z = zip(*points)
    low, high = (min(x), min(y), min(z)), (max(x), max(y), max(z))
    return Fit(low, high, GREATEST_COORDINATE if size is None else size)


def place_of(fit: Optional[Fit], point: Point) -> Point:
    x, y, z = point
    return (x // UNITS, y // UNITS, z // UNITS) if fit is None else fit.place(point)


def is_thin(a: Point, b: Point, c: Point) -> bool:
    """The three points are on a line: the parallelogram over them has no area on any axis."""
    (ux, uy, uz), (vx, vy, vz) = [tuple(q - p for p, q in zip(a, end)) for end in (b, c)]
    return uy * vz == uz * vy and uz * vx == ux * vz and ux * vy == uy * vx


def looks_away(m: Point, n: Point) -> bool:
    """Two normals look away from each other."""
    return sum(a * b for a, b in zip(m, n)) < 0


def rounded_faces(
    fit: Optional[Fit], points: List[Point], places: Dict[int, Point], faces: List[Corners]
) -> Tuple[int, int]:
    """How many triangles rounding made flat, and how many it turned over, as seen on a grid that is
    4,096 times as fine."""
    if fit is None:
        return 0, 0
    fine = fit._replace(size=FINER * fit.size)
    both = [
        (normal(*[places[v] for v in face]), normal(*[fine.place(points[v]) for v in face]))
        for face in faces
    ]
    return sum(not any(n) and any(m) for n, m in both), sum(looks_away(n, m) for n, m in both)


def joined(places: Dict[int, Point]) -> Dict[int, int]:
    """The vertex that stands for each: the first at the same place."""
    return {v: min(u for u in places if places[u] == places[v]) for v in places}


def kept(faces: List[Corners]) -> List[Corners]:
    """The faces that stay: those with three different corners that no earlier one has."""
    stay: List[Corners] = []
    for face in faces:
        if len(set(face)) == 3 and all(set(face) != set(other) for other in stay):
            stay.append(face)
    return stay


Neighbours = Dict[int, List[Tuple[int, bool]]]


def sides_of_edges(faces: List[Corners]) -> "Dict[FrozenSet[int], List[Tuple[int, int]]]":
    """By the two vertices of each edge its faces, and from which vertex each runs along it."""
    at: Dict[FrozenSet[int], List[Tuple[int, int]]] = defaultdict(list)
    for face, (a, b, c) in enumerate(faces):
        for p, q in ((a, b), (b, c), (c, a)):
            at[frozenset((p, q))].append((face, p))
    return at


def neighbours(faces: List[Corners]) -> Neighbours:
    """Beside each face those with which it alone shares an edge, and whether both run the same way
    along it."""
    beside: Neighbours = {face: [] for face in range(len(faces))}
    for both in sides_of_edges(faces).values():
        if len(both) == 2:
            (one, p), (other, q) = both
            beside[one].append((other, p == q))
            beside[other].append((one, p == q))
    return beside


def patch_from(first: int, beside: Neighbours) -> Dict[int, bool]:
    """The faces that hang together with one, and whether a way to each has an odd number of
    clashes."""
    odd = {first: False}
    patch = [first]
    for face in patch:
        for other, clash in beside[face]:
            if other not in odd:
                odd[other] = odd[face] != clash
                patch.append(other)
    return odd


def volume(faces: List[Corners], places: Dict[int, Point]) -> int:
    """Six times the volume within these faces: above 0 where they look outward."""
    sum = 0
    for face in faces:
        (ax, ay, az), (bx, by, bz), (cx, cy, cz) = [places[v] for v in face]
        sum += ax * (by * cz - bz * cy) + ay * (bz * cx - bx * cz) + az * (bx * cy - by * cx)
    return sum


def area(face: Corners, places: Dict[int, Point]) -> int:
    """Twice the areas of what a face shows along the three axes, added up."""
    a, b, c = [places[v] for v in face]
    return sum(abs(n) for n in normal(a, b, c))


class Turning(NamedTuple):
    """Which faces are turned round; how many lie in patches of which no way round agrees; and how
    many closed patches that agree as they are look inward."""

    flags: List[bool]
    twisted: int
    inside_out: int


def turning(faces: List[Corners], places: Dict[int, Point]) -> Turning:
    """Faces are turned round so that neighbours agree. Of the two ways round of a patch the one
    that turns less area is taken, of two equal ones that by which the least face stays; of a
    closed patch in which neighbours clash, and that has a volume, the one that looks outward.
    Where neighbours can't be made to agree no face is turned."""
    beside = neighbours(faces)
    flags = [False] * len(faces)
    met: Set[int] = set()
    twisted = inside_out = 0
    for first in range(len(faces)):
        if first in met:
            continue
        odd = patch_from(first, beside)
        met.update(odd)
        if any(odd[g] != (odd[f] != clash) for f in odd for g, clash in beside[f]):
            twisted += len(odd)
            continue
        closed = all(len(beside[f]) == 3 for f in odd)
        within = volume(turned([faces[f] for f in odd], list(odd.values())), places)
        if not any(odd.values()):
            inside_out += closed and within < 0
            continue
        areas = {f: area(faces[f], places) for f in odd}
        wrong = sum(areas[f] for f in odd if odd[f])
        back = within < 0 if closed and within else 2 * wrong > sum(areas.values())
        for f in odd:
            flags[f] = odd[f] != back
    return Turning(flags, twisted, inside_out)


def turned(faces: List[Corners], flags: List[bool]) -> List[Corners]:
    """The flagged faces the other way round; their first corner stays."""
    return [(a, c, b) if flag else (a, b, c) for (a, b, c), flag in zip(faces, flags)]


def runs(faces: Faces) -> Dict[Tuple[int, int], int]:
    """How many sides run from one vertex to another."""
    return Counter(ends(faces, side) for side in sides(faces))


def cut_sides(faces: Faces) -> List[int]:
    """The sides along which, or against which, several sides run."""
    counts = runs(faces)
    own = [(side, ends(faces, side)) for side in sides(faces)]
    return [side for side, (p, q) in own if counts[p, q] > 1 or counts[q, p] > 1]


def glued(faces: Faces) -> Dict[int, int]:
    """Beside each side the one that runs against it, where it isn't cut and there is one."""
    cut = set(cut_sides(faces))
    by_ends = {ends(faces, side): side for side in sides(faces) if side not in cut}
    pairs = {side: by_ends.get((q, p)) for (p, q), side in by_ends.items()}
    return {side: other for side, other in pairs.items() if other is not None}


def round_from(across: Dict[int, int], side: int) -> List[int]:
    """The sides that run from the same vertex, from face to face over glued sides."""
    found = [side]
    while True:
        after = across.get(following(following(found[-1])))
        if after is None or after == side:
            return found
        found.append(after)


def split(faces: Faces) -> List[List[int]]:
    """The sides that run from each new vertex. New vertices go by the old one, then open fans
    before closed ones, then by the first side, which is the least of a closed fan."""
    across = glued(faces)
    fans = [round_from(across, side) for side in sides(faces) if side not in across]
    for side in sides(faces):
        if all(side not in fan for fan in fans):
            fans.append(round_from(across, side))
    return sorted(fans, key=lambda fan: (ends(faces, fan[0])[0], fan[0] in across, fan[0]))


class Account(NamedTuple):
    """How many vertices and triangles there were, and how many came out."""

    vertices_in: int
    vertices_out: int
    triangles_in: int
    triangles_out: int

    def line(self) -> str:
        """Nothing where as many came out as there were."""
        vertices = f"vertices {self.vertices_in} in, {self.vertices_out} out"
        triangles = f"triangles {self.triangles_in} in, {self.triangles_out} out"
        same = self.vertices_in == self.vertices_out and self.triangles_in == self.triangles_out
        return "" if same else f"prepare: {vertices}; {triangles}\n"


def of_three(faces: List[Corners]) -> List[Corners]:
    return [face for face in faces if len(set(face)) == 3]


def corners_in(faces: List[Corners]) -> List[int]:
    """The vertices that faces name, in ascending order."""
    return sorted({corner for face in faces for corner in face})


def recut(soup: Soup, places: Dict[int, Point]) -> Tuple[List[Corners], int]:
    """The faces with polygons cut anew over their places, and how many polygons overlap."""
    faces, overlapping = list(soup.faces), 0
    for first, corners in soup.polygons:
        made = cut(corners, [places.get(v, (0, 0, 0)) for v in corners])
        faces[first : first + len(corners) - 2] = made.triangles
        overlapping += made.overlaps
    return faces, overlapping


class Prepared(NamedTuple):
    mesh: Mesh
    fit: Optional[Fit]
    account: Account
    notes: List[Note]
    warning: str


def prepared(soup: Soup, size: Optional[int]) -> Prepared:
    """Faces that name a vertex twice count for nothing. Points are placed by the fans of polygons,
    which are cut anew then."""
    fans = of_three(soup.faces)
    placed = corners_in(fans)
    fit = fit_of([soup.points[v] for v in placed], size)
    stand = {v: place_of(fit, soup.points[v]) for v in placed}
    recut_faces, overlapping = recut(soup, stand)
    three = of_three(recut_faces)
    named = corners_in(three)
    places = {v: stand[v] for v in named}
    names = joined(places)
    flattened, overturned = rounded_faces(fit, soup.points, places, three)
    renamed = [(names[a], names[b], names[c]) for a, b, c in three]
    stay = kept(renamed)
    turns = turning(stay, places)
    faces = numbered(turned(stay, turns.flags))
    rounds = split(faces)
    new = {side: vertex for vertex, sides_of in enumerate(rounds) for side in sides_of}
    points = [places[ends(faces, sides_of[0])[0]] for sides_of in rounds]
    corners = [(new[3 * face], new[3 * face + 1], new[3 * face + 2]) for face in faces]
    flat = sum(len(set(face)) < 3 for face in renamed)
    used = {v for face in stay for v in face}
    rounded = len({soup.points[v] for v in named}) - len(set(places.values()))
    cuts = len(rounds) - len(used)
    notes = [
        of_faces(len(soup.polygons), "triangulated", "polygon"),
        of_faces(overlapping, "triangulated with overlaps", "polygon"),
        of_vertices(len(soup.inexact), "rounded at the 18th decimal"),
        of_faces(flattened, "made degenerate by rounding"),
        of_faces(overturned, "flipped by rounding"),
        *[of_passed(kind, soup.passed[kind]) for kind in PASSED_OVER],
        of_others(len(soup.others), soup.others[0] if soup.others else 0),
        *[of_passed(kind, soup.passed[kind]) for kind in OF_FILES],
        of_welded(sum(names[v] != v for v in named), rounded),
        of_faces(len(soup.faces) - len(three), "dropped: a vertex is named twice",
                 "degenerate face"),
        of_faces(flat, "dropped: collapsed to an edge", "degenerate face"),
        of_faces(len(renamed) - flat - len(stay), "dropped", "duplicate face"),
        of_faces(sum(turns.flags), "flipped for consistent winding"),
        of_faces(turns.twisted, "in non-orientable patches"),
        of_faces(sum(len(at) > 2 for at in sides_of_edges(stay).values()),
                 "of three faces or more", "non-manifold edge"),
        of_faces(turns.inside_out, "facing inward or around a void", "closed surface"),
        of_faces(len(cut_sides(faces)), "cut open", "edge"),
        of_vertices(cuts, f"duplicated at cuts\nprepare: {APART}"),
        of_vertices(len(soup.points) - len(named), "dropped", "isolated "),
        of_vertices(len({names[v] for v in named} - used), "dropped: no face is left"),
        of_faces(sum(is_thin(points[a], points[b], points[c]) for a, b, c in corners),
                 "of zero area"),
    ]
    account = Account(len(soup.points), len(points), len(soup.faces), len(corners))
    warning = ""
    if fit is not None and 10 * flat >= len(fans):
        warning = "a tenth of the triangles or more collapsed to edges: "
        warning += fit.longest({v: soup.points[v] for v in placed})
    return Prepared(Mesh(points, corners), fit, account, notes, warning)


def head_line(made: Prepared) -> str:
    return "# coordinates as they stood\n" if made.fit is None else "# " + made.fit.way_back()


def notes_text(made: Prepared) -> str:
    """How much came out, a line for each kind of change, how places lead back, and a warning."""
    lines = [made.account.line()]
    lines += [note.line() for note in made.notes]
    if made.fit is not None:
        lines += ["prepare: " + line for line in (made.fit.way_back(), made.fit.near())]
    if made.warning:
        lines.append("prepare: " + made.warning)
    return "".join(lines)


def answer(words: List[str], data: bytes) -> Answer:
    size = number_of_word(words[0], 1, GREATEST_COORDINATE) if len(words) == 1 else None
    if words and size is None:
        return not_understood("prepare")
    try:
        made = prepared(soup_of_file(data), size)
        if not made.mesh.faces:
            raise Fault(NO_FACES)
    except Fault as fault:
        told = TOO_MANY_OUT if str(fault) == "9" else fault.reason
        reason = told or REASONS[fault.number]
        return Answer(1, b"", f"prepare: fault {fault} ({reason})\n")
    return Answer(0, head_line(made).encode() + canonical_text(made.mesh, 0), notes_text(made))
