"""What is read of a mesh file: points and triangles in arrays, 24 bytes a point and 12 a
triangle."""
from array import array
from dataclasses import dataclass, field
from math import isfinite
from typing import Dict, Iterable, List, Union

from .filed import Filed

Numbers = Union["array[float]", Filed]


class MeshFault(Exception):
    """What is wrong with a file, and at which line or byte of it."""


@dataclass
class Soup:
    """Three numbers a point; three numbers of points, from 0, a triangle. A polygon stands as the
    fan of triangles at its first corner: `polygons` has two numbers of each, the first of them and
    how many corners it has. `colours` has three bytes a point, or none. `passed` counts what was
    passed over, by name."""

    points: Numbers = field(default_factory=lambda: array("d"))
    corners: Numbers = field(default_factory=lambda: array("I"))
    polygons: Numbers = field(default_factory=lambda: array("I"))
    colours: bytearray = field(default_factory=bytearray)
    passed: Dict[str, int] = field(default_factory=dict)
    is_binary: bool = False  # its coordinates are binary numbers, and not decimals
    is_filed: bool = False  # it is in files, without colours and with an STL file's corners apart

    @property
    def faces(self) -> int:
        return len(self.corners) // 3

    @property
    def count(self) -> int:
        """How many points it has."""
        return len(self.points) // 3

    def add_polygon(self, named: List[int]) -> None:
        if len(named) > 3:
            self.polygons.extend((self.faces, len(named)))
        for second, third in zip(named[1:], named[2:]):
            self.corners.extend((named[0], second, third))

    def pass_over(self, what: str, count: int = 1) -> None:
        if count:
            self.passed[what] = self.passed.get(what, 0) + count

    def notes(self) -> List[str]:
        """What was passed over, as `prepare` tells it."""
        return [f"{count} {what} ignored" for what, count in self.passed.items()]


def blocks_of(numbers: Numbers) -> "Iterable[array[float]]":
    """All of them in their order, a part at a time."""
    return numbers.blocks() if isinstance(numbers, Filed) else [numbers]


def filed_soup() -> Soup:
    """One whose numbers are in files, so that its size takes no memory."""
    return Soup(Filed("d"), Filed("I"), Filed("I"), is_filed=True)


def finite(numbers: Iterable[float]) -> List[float]:
    """The same numbers; MeshFault where one is none."""
    found = list(numbers)
    if not all(map(isfinite, found)):
        raise MeshFault("a coordinate is NaN, infinite or too large")
    return found
