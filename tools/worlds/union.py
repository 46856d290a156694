"""Whether tiles are pieces of one oriented manifold, by their borders alone: all else of a tile is
its own.

Two sides that run between the same places, one back where the other runs, in two tiles and in no
third, are glued: so their ends are one vertex of the whole. Then a tile may not have one vertex of
the whole twice, and no directed side may stand twice. What stands between vertices of the border,
but not on it, counts too: as a chord.
"""
from typing import Dict, List, NamedTuple, Optional, Tuple

from .form import Place, Side
from .streams import Border


class _Side(NamedTuple):
    tile: str
    start: int  # vertices of the whole, before some became one
    end: int
    runs: Side


class _Whole:
    """The vertices of all borders, numbered; those that are glued are one."""

    def __init__(self, borders: Dict[str, Border]) -> None:
        self.parent: List[int] = []
        self.places: List[Place] = []
        self.tiles: Dict[str, Dict[int, int]] = {}  # by leaf
        for name, border in borders.items():
            numbers = self.tiles[name] = {}
            for leaf, place in border.places.items():
                numbers[leaf] = len(self.parent)
                self.parent.append(len(self.parent))
                self.places.append(place)

    def find(self, vertex: int) -> int:
        parent = self.parent
        while parent[vertex] != vertex:
            parent[vertex] = vertex = parent[parent[vertex]]
        return vertex

    def unite(self, one: int, other: int) -> None:
        self.parent[self.find(one)] = self.find(other)

    def sides(self, name: str, leaves: List[Tuple[int, int]]) -> List[_Side]:
        numbers, places = self.tiles[name], self.places
        found = []
        for start, end in leaves:
            one, other = numbers[start], numbers[end]
            found.append(_Side(name, one, other, (places[one], places[other])))
        return found

    def glue(self, borders: Dict[str, Border]) -> None:
        between: Dict[Side, List[_Side]] = {}
        for name, border in borders.items():
            for side in self.sides(name, border.leaves + border.chords):
                start, end = side.runs
                between.setdefault((min(start, end), max(start, end)), []).append(side)
        for sides in between.values():
            if len(sides) == 2:
                one, other = sides
                if one.tile != other.tile and one.runs != other.runs:
                    self.unite(one.start, other.end)
                    self.unite(one.end, other.start)

    def twice_in_a_tile(self) -> Optional[str]:
        for name, numbers in self.tiles.items():
            seen = set()
            for vertex in numbers.values():
                found = self.find(vertex)
                if found in seen:
                    place = "({}, {}, {})".format(*self.places[vertex])
                    return (
                        f"{name}: it touches itself at {place}, and a tile beside it joins both:"
                        " cut the world anew with more faces a tile"
                    )
                seen.add(found)
        return None

    def side_twice(self, borders: Dict[str, Border]) -> Optional[str]:
        owner: Dict[Tuple[int, int], str] = {}
        for name, border in borders.items():
            for side in self.sides(name, border.leaves + border.chords):
                key = self.find(side.start), self.find(side.end)
                if key in owner:
                    start, end = ("({}, {}, {})".format(*place) for place in side.runs)
                    return (
                        f"{owner[key]} and {name}: both have the side from {start} to {end}, where"
                        " three faces or more meet: cut the world anew"
                    )
                owner[key] = name
        return None


def fault_of_union(borders: Dict[str, Border]) -> Optional[str]:
    """Why the tiles with these borders are no oriented manifold together; None where they are."""
    whole = _Whole(borders)
    whole.glue(borders)
    return whole.twice_in_a_tile() or whole.side_twice(borders)
