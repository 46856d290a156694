"""Writes a terrain as an OBJ text of whole numbers, for measurements, or as a height field:

    python3 benches/terrain.py CELLS [sea] > terrain.obj
    python3 benches/terrain.py CELLS [sea] grid > terrain.asc

CELLS cells a side, two faces a cell (316 makes 199,712 faces and 707 makes 999,698), round the
origin, with z up. Heights are smooth noise in octaves, each half as broad as the last and rougher
where the land is high already, as mountains are; with `sea` all that is low is flat. The same words
give the same text on each machine.
"""
import random
import sys
from math import floor
from typing import Iterator, List

EXTENT = 24000
OCTAVES = 7
TABLE = 256
SEED = 7


class Noise:
    """Smooth noise over the plane, from -1 to 1, by values at whole places."""

    def __init__(self, seed: int) -> None:
        chance = random.Random(seed)
        self.values = [[chance.uniform(-1, 1) for _ in range(TABLE)] for _ in range(TABLE)]

    def at(self, x: float, y: float) -> float:
        column, row = floor(x), floor(y)
        u, v = eased(x - column), eased(y - row)
        upper, lower = self.values[row % TABLE], self.values[(row + 1) % TABLE]
        left, right = column % TABLE, (column + 1) % TABLE
        above = upper[left] + (upper[right] - upper[left]) * u
        below = lower[left] + (lower[right] - lower[left]) * u
        return above + (below - above) * v


def eased(part: float) -> float:
    return part * part * (3 - 2 * part)


def height(noise: Noise, x: float, y: float) -> float:
    """The height in units at a place that runs from 0 to 1 in x and y."""
    land = noise.at(2.2 * x + 0.3, 2.2 * y + 0.7)
    ridges, size, rough = 0.0, 3.0, 1.0
    for _ in range(OCTAVES):
        ridge = (1 - abs(noise.at(x * size + 11, y * size + 5))) ** 2 * rough
        rough = min(1.0, 1.6 * ridge)
        ridges += ridge / size
        size *= 2
    return 2400 * (land + 0.15) + 9000 * max(0.0, land + 0.35) * ridges


def lines(cells: int, sea: bool) -> Iterator[str]:
    noise, step = Noise(SEED), EXTENT // cells
    lowest = 0.0 if sea else -EXTENT
    middle = step * cells // 2
    for row in range(cells + 1):
        for column in range(cells + 1):
            z = max(lowest, height(noise, column / cells, row / cells))
            yield f"v {column * step - middle} {row * step - middle} {round(z)}"
    for row in range(cells):
        for column in range(cells):
            here = 1 + row * (cells + 1) + column
            there = here + cells + 1
            yield f"f {here} {here + 1} {there + 1}"
            yield f"f {here} {there + 1} {there}"


def grid_lines(cells: int, sea: bool) -> Iterator[str]:
    """The same terrain as an ESRI ASCII grid, of which the first row is the northernmost."""
    noise, lowest = Noise(SEED), 0.0 if sea else -EXTENT
    yield f"ncols {cells + 1}\nnrows {cells + 1}\nxllcenter 0\nyllcenter 0"
    yield f"cellsize {EXTENT / cells:g}\nNODATA_value -99999"
    for row in range(cells, -1, -1):
        heights = (height(noise, column / cells, row / cells) for column in range(cells + 1))
        yield " ".join(f"{max(lowest, z):.1f}" for z in heights)


def main(words: List[str]) -> None:
    write = grid_lines if "grid" in words else lines
    for line in write(int(words[0]), "sea" in words):
        print(line)


if __name__ == "__main__":
    main(sys.argv[1:])
