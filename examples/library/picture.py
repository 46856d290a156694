#!/usr/bin/env python3
"""Makes a picture of a model from one side, by the library:

    python3 examples/library/picture.py torus.vdpm picture.svg [TOLERANCE]

The view is from the side of negative y and from above. Faces are drawn from the farthest to the
nearest.
"""
import sys
from pathlib import Path
from typing import List, Sequence, Tuple

sys.path.insert(0, str(Path(__file__).resolve().parents[2] / "python"))

import vdpm

SIZE = 800
EYE = (0, -60000, 40000)
FOCAL = 1000


def minus(a: Sequence[int], b: Sequence[int]) -> Tuple[int, ...]:
    return tuple(int(p) - int(q) for p, q in zip(a, b))


def cross(a: Sequence[int], b: Sequence[int]) -> Tuple[int, int, int]:
    return (a[1] * b[2] - a[2] * b[1], a[2] * b[0] - a[0] * b[2], a[0] * b[1] - a[1] * b[0])


def dot(a: Sequence[float], b: Sequence[float]) -> float:
    return sum(p * q for p, q in zip(a, b))


def rows(flat: Sequence[int]) -> List[Sequence[int]]:
    """Threes, whether numpy made them already or not."""
    if hasattr(flat, "shape"):
        return [row.tolist() for row in flat]
    return [flat[i : i + 3] for i in range(0, len(flat), 3)]


def drawn(frame: vdpm.Frame) -> List[str]:
    """A polygon for each face that looks to the eye, the farthest first."""
    places, faces = rows(frame.places), rows(frame.corners)
    spread = max((abs(n) for place in places for n in place), default=1) or 1
    scale = SIZE / 2.4 / spread
    shapes = []
    for corners in faces:
        a, b, c = (places[i] for i in corners)
        normal = cross(minus(b, a), minus(c, a))
        length = dot(normal, normal) ** 0.5
        if length == 0 or dot(normal, minus(EYE, a)) <= 0:
            continue
        light = 60 + int(180 * max(0, dot(normal, (0.3, -0.6, 0.74)) / length))
        at = [
            (SIZE / 2 + scale * x, SIZE / 2 - scale * (0.55 * y + 0.83 * z))
            for x, y, z in (a, b, c)
        ]
        points = " ".join(f"{x:.1f},{y:.1f}" for x, y in at)
        depth = sum(0.83 * p[1] - 0.55 * p[2] for p in (a, b, c))
        shapes.append((-depth, f'<polygon points="{points}" fill="rgb({light},{light},{light})"/>'))
    return [shape for _, shape in sorted(shapes)]


def main() -> int:
    if len(sys.argv) not in (3, 4):
        print(__doc__, file=sys.stderr)
        return 2
    tolerance = int(sys.argv[3]) if len(sys.argv) == 4 else 4
    with vdpm.Session(Path(sys.argv[1]).read_bytes()) as session:
        moved = session.view(EYE, FOCAL, tolerance)
        frame = session.frame()
    print(f"{moved.moves} moves, {len(frame.nodes)} vertices, {len(frame.faces)} faces")
    head = f'<svg xmlns="http://www.w3.org/2000/svg" width="{SIZE}" height="{SIZE}">'
    Path(sys.argv[2]).write_text("\n".join([head, *drawn(frame), "</svg>", ""]), encoding="utf-8")
    return 0


if __name__ == "__main__":
    sys.exit(main())
