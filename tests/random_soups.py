"""Random texts for `prepare`: meshes whose faces don't fit together, as scanners and modelling
programs write them."""
from math import atan2
from random import Random
from typing import List, Tuple

from model.mesh import Point
from random_inputs import index_spelled
from random_meshes import random_mesh

Soup = Tuple[List[Point], List[List[int]]]  # points, and faces of three corners or more

MARKS = [b"\xef\xbb\xbf"] * 4 + [b"\xff\xfe", b"\xfe\xff", b"\xef\xbb", b"\xef\xbb\xbf "]
SKIPPED = ["", "# no line", "vn 0 0 1", "s off", "g a \\", "b", "#\\", "vt 1 \\", "o x # \\"]
AFTER = ["", "", "1", "1.0", "1e0", "2", "0", "-1", ".5", "1e99", "w", "1 2", "1 2 3", "2 #"]
BAD_LINES = [
    "v 1 2", "f 1 2", "v 1e 0 0", "v e5 0 0", "v 1e1000 0 0", "v 0 0 1e15", "v 1e-1000 0 0",
    "f 1 2 0", "f 1 2 9999", "f 1 2 3 x", "v 1 2 3 \\", "v 1..0 0 0", "v 1e5.0 0 0", "v 1 \\",
    "f 1 2 +3", "v 1 2\\\n3", "f 1\\\n2 3\\\n",
    "v 100000000000000 0 0", "v 100000000000000.1 0 0", "v 1e+999 0 0", "v 0e-999 .5e1 1.e-2",
    "v 1 2 \\\n3", "f 1 \\\r\n 2 3 # end", "f 1 \\\n\\\n2", "v 0.5 0.5 0.5", "v 7e-19 5e-19 -5e-19",
]  # fmt: skip


def opened(rng: Random, soup: Soup) -> Soup:
    """Gives corners vertices of their own at the same place."""
    points, faces = soup
    for face in rng.sample(faces, len(faces) // 2):
        i = rng.randrange(len(face))
        points.append(points[face[i]])
        face[i] = len(points) - 1
    return points, faces


def doubled(rng: Random, soup: Soup) -> Soup:
    """Puts faces in again, some of them turned over."""
    points, faces = soup
    for face in rng.sample(faces, min(len(faces), 3)):
        again = rng.choice([face, face[1:] + face[:1], face[::-1]])
        faces.insert(rng.randint(0, len(faces)), list(again))
    return points, faces


def turned(rng: Random, soup: Soup) -> Soup:
    """Turns some faces over."""
    points, faces = soup
    return points, [face[::-1] if rng.random() < 0.2 else face for face in faces]


def with_more(rng: Random, soup: Soup) -> Soup:
    """Puts in faces between any vertices, of three corners or more, some of which may be one."""
    points, faces = soup
    for _ in range(rng.randint(1, 4)):
        corners = rng.choice([3, 3, 4, 5, 7])
        if points:
            faces.append([rng.randrange(len(points)) for _ in range(corners)])
    return points, faces


def merged(rng: Random, soup: Soup) -> Soup:
    """Makes faces of four corners of two with a common side."""
    points, faces = soup
    for face in list(faces):
        if rng.random() < 0.3 and len(points) > 3:
            i = faces.index(face)
            faces[i] = face[:1] + [rng.randrange(len(points))] + face[1:]
    return points, faces


def with_polygon(rng: Random, soup: Soup) -> Soup:
    """Puts in a polygon of points of its own, mostly round a middle, so that it seldom crosses
    itself; it may name one of its corners twice."""
    points, faces = soup
    ring = [(rng.randint(-9, 9), rng.randint(-9, 9)) for _ in range(rng.randint(4, 12))]
    if rng.random() < 0.8:
        ring.sort(key=lambda at: atan2(at[1], at[0]))
    axis, face = rng.randrange(3), list(range(len(points), len(points) + len(ring)))
    for x, y in ring:
        lifted = rng.choice([3, 3, 3, 4])
        points.append([(lifted, x, y), (x, lifted, y), (x, y, lifted)][axis])
    if rng.random() < 0.2:
        face.insert(rng.randint(0, len(face)), rng.choice(face))
    faces.insert(rng.randint(0, len(faces)), face)
    return points, faces


def crowded(rng: Random, soup: Soup) -> Soup:
    """Moves points onto others."""
    points, faces = soup
    for _ in range(rng.randint(1, 4)):
        if points:
            points[rng.randrange(len(points))] = rng.choice(points)
    return points, faces


def random_soup(rng: Random) -> Soup:
    mesh = random_mesh(rng)
    soup: Soup = list(mesh.points), [list(face) for face in mesh.faces]
    for change in (opened, doubled, turned, with_more, with_polygon, merged, crowded):
        if rng.random() < 0.3:
            soup = change(rng, soup)
    return soup


def number_text(rng: Random, value: int, style: str) -> str:
    """A number near the value as a program may write it."""
    if style == "whole":
        return str(value)
    if style == "decimals":
        return f"{value}.{rng.randrange(10**rng.randint(1, 20))}"
    if style == "tiny":
        return f"{value}e-18"
    if style == "small":
        return f"{value / 1000:.6f}"
    exponent = rng.choice([f"E{rng.randint(-9, 5)}", f"e-0{rng.randint(0, 3)}", f"e+{value % 4}"])
    return rng.choice([f"{value:e}", f"{value}{exponent}"])


def weighted(rng: Random, gap: str, line: str) -> str:
    """A vertex line with fields after its third number, or as it is."""
    return gap.join([line] + rng.choice(AFTER).split())


def formed(rng: Random, text: bytes) -> bytes:
    """The text with a byte order mark or with a CR somewhere, or as it is."""
    if rng.random() < 0.1:
        text = rng.choice(MARKS) + text
    if rng.random() < 0.05:
        at = rng.randint(0, len(text))
        text = text[:at] + b"\r" + text[at:]
    return text


def soup_text(rng: Random, soup: Soup) -> bytes:
    """The text of a soup, with lines that are skipped and lines that are continued."""
    points, faces = soup
    style = rng.choice(["whole", "whole", "decimals", "small", "tiny", "exponents"])
    gap = rng.choice([" ", " ", "\t", " \\\n", "  "])
    lines = [gap.join(["v"] + [number_text(rng, c, style) for c in point]) for point in points]
    lines = [weighted(rng, gap, line) for line in lines] if rng.random() < 0.2 else lines
    count = len(points)
    lines += [" ".join(["f"] + [index_spelled(rng, v, count) for v in face]) for face in faces]
    if rng.random() < 0.3:
        lines.insert(rng.randint(0, len(lines)), rng.choice(SKIPPED))
    if rng.random() < 0.2:
        lines.insert(rng.randint(0, len(lines)), rng.choice(BAD_LINES))
    end = rng.choice(["\n", "\n", "\r\n"])
    return formed(rng, (end.join(lines) + rng.choice([end, end, ""])).encode())
