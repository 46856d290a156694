"""Writes examples/ring_scan.obj: a ring as modelling programs save one.

It is in metres with six decimals or more, its faces have four corners, the two seams where the
texture ends have their vertices twice, one face stands twice, and lines end in CR and LF.
"""
from math import cos, pi, sin
from pathlib import Path

AROUND, ACROSS = 24, 12
RADIUS, THICKNESS = 0.45, 0.15


def place(i, j):
    a, b = 2 * pi * i / AROUND, 2 * pi * j / ACROSS
    r = RADIUS + THICKNESS * cos(b)
    return r * cos(a), r * sin(a), THICKNESS * sin(b)


def vertex(i, j):
    return i * (ACROSS + 1) + j + 1


def lines():
    yield "# a ring"
    yield "o ring"
    for i in range(AROUND + 1):
        for j in range(ACROSS + 1):
            yield "v {!r} {!r} {!r}".format(*(round(c, 9) for c in place(i, j)))
    for i in range(AROUND + 1):
        for j in range(ACROSS + 1):
            yield f"vt {i / AROUND:.6f} {j / ACROSS:.6f}"
    yield "usemtl clay"
    faces = [(vertex(i, j), vertex(i + 1, j), vertex(i + 1, j + 1), vertex(i, j + 1))
             for i in range(AROUND) for j in range(ACROSS)]
    for face in faces + faces[:1]:
        yield "f " + " ".join(f"{v}/{v}" for v in face)


if __name__ == "__main__":
    text = "".join(line + "\r\n" for line in lines())
    Path(__file__).with_name("ring_scan.obj").write_bytes(text.encode())
