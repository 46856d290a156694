"""Writes examples/asteroid.obj: a small body of 3,242 vertices and 6,480 faces, with tenths of a
metre.

It stands for a scan: a long, lumpy surface without symmetry, which is closed and has fine detail
everywhere.
"""
from math import cos, exp, pi, sin, sqrt
from pathlib import Path

CUTS = 18
HALF_AXES = (260.0, 165.0, 125.0)
# Direction of the middle, and metres from there to the rim and from the rim down.
CRATERS = [
    ((0.25, -0.95, 0.25), 82, 30),
    ((-0.62, -0.70, 0.35), 60, 22),
    ((0.80, -0.50, 0.10), 46, 18),
    ((0.00, -0.45, 0.90), 50, 18),
    ((-0.90, -0.25, -0.10), 52, 19),
    ((-0.22, -0.85, -0.50), 44, 16),
    ((0.55, -0.45, 0.75), 34, 12),
    ((-0.45, -0.30, 0.85), 38, 13),
    ((-0.14, -0.97, 0.30), 26, 9),
    ((0.52, -0.80, -0.32), 30, 11),
    ((0.93, -0.10, 0.35), 34, 12),
    ((-0.40, -0.92, -0.05), 24, 8),
    ((0.55, 0.70, 0.30), 78, 26),
    ((-0.30, 0.85, 0.45), 56, 20),
    ((0.15, 0.55, -0.80), 70, 24),
    ((-0.70, 0.60, -0.30), 60, 22),
]
# Direction, number of waves round the body, phase and height of each ripple.
RIPPLES = [
    ((0.8, 0.5, -0.3), 1.3, 0.4, 0.070),
    ((-0.3, 0.9, 0.4), 1.9, 1.7, 0.045),
    ((0.2, -0.4, 0.9), 2.9, 2.9, 0.025),
    ((0.7, -0.7, 0.2), 5.3, 0.9, 0.010),
    ((-0.6, 0.1, -0.8), 8.0, 2.2, 0.006),
    ((0.1, 0.8, -0.6), 11.0, 5.1, 0.004),
    ((0.9, 0.3, 0.4), 14.0, 3.3, 0.004),
]


def unit(p):
    size = sqrt(sum(c * c for c in p))
    return tuple(c / size for c in p)


def dot(p, q):
    return sum(a * b for a, b in zip(p, q))


def icosahedron():
    g = (1 + sqrt(5)) / 2
    points = [(-1, g, 0), (1, g, 0), (-1, -g, 0), (1, -g, 0), (0, -1, g), (0, 1, g),
              (0, -1, -g), (0, 1, -g), (g, 0, -1), (g, 0, 1), (-g, 0, -1), (-g, 0, 1)]
    faces = [(0, 11, 5), (0, 5, 1), (0, 1, 7), (0, 7, 10), (0, 10, 11), (1, 5, 9), (5, 11, 4),
             (11, 10, 2), (10, 7, 6), (7, 1, 8), (3, 9, 4), (3, 4, 2), (3, 2, 6), (3, 6, 8),
             (3, 8, 9), (4, 9, 5), (2, 4, 11), (6, 2, 10), (8, 6, 7), (9, 8, 1)]
    return [unit(p) for p in points], faces


def divided(points, faces):
    """Each face cut into CUTS times CUTS, with all points at distance 1 from the middle."""
    number_of, fine, cut = {}, [], []

    def number(weights):
        """The point of these (corner, weight) pairs, which neighbours share along a side."""
        key = tuple(sorted(pair for pair in weights if pair[1]))
        if key not in number_of:
            number_of[key] = len(fine)
            fine.append(unit(tuple(sum(w * points[c][axis] for c, w in key) for axis in range(3))))
        return number_of[key]

    for a, b, c in faces:
        def at(i, j):
            return number([(a, CUTS - i - j), (b, i), (c, j)])

        for i in range(CUTS):
            for j in range(CUTS - i):
                cut.append((at(i, j), at(i + 1, j), at(i, j + 1)))
                if i + j < CUTS - 1:
                    cut.append((at(i + 1, j), at(i + 1, j + 1), at(i, j + 1)))
    return fine, cut


def stretched(way):
    return tuple(half * c for half, c in zip(HALF_AXES, way))


def crater(point, middle, rim, depth):
    """How far a crater moves a point outwards: a bowl with a raised rim that fades outwards."""
    t = sqrt(sum((a - b) ** 2 for a, b in zip(point, middle))) / rim
    bowl = depth * (t * t - 1) if t < 1 else 0.0
    return bowl + 0.35 * depth * exp(-((t - 1) / 0.22) ** 2)


def place(way):
    swell = 1.0
    for direction, waves, phase, height in RIPPLES:
        swell += height * sin(pi * waves * dot(way, unit(direction)) + phase)
    point = stretched(way)
    for middle, rim, depth in CRATERS:
        swell += crater(point, stretched(unit(middle)), rim, depth) / sqrt(dot(point, point))
    waist = 1 - 0.16 * exp(-((way[0] + 0.12) / 0.3) ** 2)
    x, y, z = (c * swell for c in point)
    bend = 26 * cos(pi * way[0] * 0.8)
    return x, y * waist, z * waist + bend


def lines():
    points, faces = divided(*icosahedron())
    for p in points:
        # What is added turns -0.0 into 0.0.
        yield "v {:.1f} {:.1f} {:.1f}".format(*(round(c, 1) + 0.0 for c in place(p)))
    for a, b, c in faces:
        yield f"f {a + 1} {b + 1} {c + 1}"


if __name__ == "__main__":
    Path(__file__).with_name("asteroid.obj").write_text("\n".join(lines()) + "\n")
