#!/usr/bin/env python3
"""Makes a PNG of a model as a camera sees it, by the library and Python alone:

    PYTHONPATH=python python3 examples/library/render.py torus.obj torus.png [TOLERANCE]

The mesh is made fit and simplified, adapted to the view, and drawn into a depth buffer.
"""
import struct
import sys
import zlib
from pathlib import Path
from typing import Any, Iterator, List, Sequence, Tuple

import vdpm

WIDTH, HEIGHT, FOV = 800, 600, 40
EYE, TARGET = (40000, -70000, 50000), (0, 0, 0)
Vector = Sequence[float]


def rows(numbers: Any) -> List[Sequence[int]]:
    """Threes, whether numpy made them already or not."""
    if hasattr(numbers, "tolist") and hasattr(numbers, "shape"):
        return [tuple(row) for row in numbers.tolist()]
    return [tuple(numbers[i : i + 3]) for i in range(0, len(numbers), 3)]


def minus(p: Vector, q: Vector) -> Vector:
    return [a - b for a, b in zip(p, q)]


def dot(p: Vector, q: Vector) -> float:
    return sum(a * b for a, b in zip(p, q))


def cross(p: Vector, q: Vector) -> Vector:
    return [p[1] * q[2] - p[2] * q[1], p[2] * q[0] - p[0] * q[2], p[0] * q[1] - p[1] * q[0]]


def unit(p: Vector) -> Vector:
    size = dot(p, p) ** 0.5 or 1
    return [a / size for a in p]


def projected(places: Sequence[Vector], focal: float) -> Iterator[Tuple[float, float, float]]:
    """Where each place is in the picture, and how far in front of the eye."""
    way = unit(minus(TARGET, EYE))
    right = unit(cross(way, (0, 0, 1)))
    up = cross(right, way)
    for place in places:
        seen = minus(place, EYE)
        depth = dot(seen, way)
        scale = focal / max(depth, 1)
        yield WIDTH / 2 + scale * dot(seen, right), HEIGHT / 2 - scale * dot(seen, up), depth


def pixels_of(a: Vector, b: Vector, c: Vector) -> Iterator[Tuple[int, int, float]]:
    """The pixels in a triangle of the picture, each with one over its depth."""
    area = (b[0] - a[0]) * (c[1] - a[1]) - (b[1] - a[1]) * (c[0] - a[0])
    if area == 0 or min(a[2], b[2], c[2]) <= 1:
        return
    for y in range(max(0, int(min(a[1], b[1], c[1]))), min(HEIGHT, int(max(a[1], b[1], c[1])) + 1)):
        left, right = int(min(a[0], b[0], c[0])), int(max(a[0], b[0], c[0])) + 1
        for x in range(max(0, left), min(WIDTH, right)):
            of_b = ((x - a[0]) * (c[1] - a[1]) - (y - a[1]) * (c[0] - a[0])) / area
            of_c = ((b[0] - a[0]) * (y - a[1]) - (b[1] - a[1]) * (x - a[0])) / area
            if of_b >= 0 and of_c >= 0 and of_b + of_c <= 1:
                yield x, y, (1 - of_b - of_c) / a[2] + of_b / b[2] + of_c / c[2]


def drawn(frame: vdpm.Frame, focal: int) -> bytearray:
    """The picture, three bytes a pixel."""
    picture = bytearray(b"\x1a\x1a\x20" * (WIDTH * HEIGHT))
    nearest = [0.0] * (WIDTH * HEIGHT)
    places = rows(frame.places)
    seen = list(projected(places, focal))
    for corners in rows(frame.corners):
        a, b, c = (places[it] for it in corners)
        normal = unit(cross(minus(b, a), minus(c, a)))
        light = abs(dot(normal, unit(minus(EYE, a))))
        colour = bytes(int(it * light) for it in (230, 217, 190))
        for x, y, near in pixels_of(*(seen[it] for it in corners)):
            at = y * WIDTH + x
            if near > nearest[at]:
                nearest[at] = near
                picture[3 * at : 3 * at + 3] = colour
    return picture


def png(picture: bytes) -> bytes:
    def chunk(kind: bytes, data: bytes) -> bytes:
        told = kind + data
        return struct.pack(">I", len(data)) + told + struct.pack(">I", zlib.crc32(told))

    lines = (picture[i : i + 3 * WIDTH] for i in range(0, len(picture), 3 * WIDTH))
    head = struct.pack(">IIBBBBB", WIDTH, HEIGHT, 8, 2, 0, 0, 0)
    body = zlib.compress(b"".join(b"\0" + line for line in lines))
    return b"\x89PNG\r\n\x1a\n" + chunk(b"IHDR", head) + chunk(b"IDAT", body) + chunk(b"IEND", b"")


def main() -> int:
    if len(sys.argv) not in (3, 4):
        print(__doc__, file=sys.stderr)
        return 2
    fit = vdpm.prepare(Path(sys.argv[1]).read_bytes(), size=30000)
    look = vdpm.camera(WIDTH, HEIGHT, FOV, EYE, TARGET)
    with vdpm.Session(vdpm.simplify(fit.text)) as session:
        session.view(**look._asdict(), tolerance=float(sys.argv[3]) if len(sys.argv) == 4 else 1)
        frame = session.frame()
    Path(sys.argv[2]).write_bytes(png(drawn(frame, look.focal)))
    print(f"{frame!r} in {sys.argv[2]}")
    return 0


if __name__ == "__main__":
    sys.exit(main())
