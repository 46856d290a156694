"""Writes examples/torus.obj: a ring of 24 by 12 vertices and 576 faces, at whole-number
coordinates."""
from math import cos, pi, sin
from pathlib import Path

AROUND, ACROSS = 24, 12
RING, TUBE = 1000, 400


def vertex(i, j):
    a, b = 2 * pi * i / AROUND, 2 * pi * j / ACROSS
    out = RING + TUBE * cos(b)
    return round(out * cos(a)), round(out * sin(a)), round(TUBE * sin(b))


def number(i, j):
    return (i % AROUND) * ACROSS + j % ACROSS + 1


def lines():
    for i in range(AROUND):
        for j in range(ACROSS):
            yield "v {} {} {}".format(*vertex(i, j))
    for i in range(AROUND):
        for j in range(ACROSS):
            a, b = number(i, j), number(i + 1, j)
            c, d = number(i + 1, j + 1), number(i, j + 1)
            yield f"f {a} {b} {c}"
            yield f"f {a} {c} {d}"


Path(__file__).with_name("torus.obj").write_text("\n".join(lines()) + "\n")
