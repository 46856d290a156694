"""What world.json says, and where a world's files lie.

All places of a world are whole numbers of one unit. A tile has an offset: the place of its own
zero, so a vertex of the tile at `p` stands at the world's place `offset + p`.
"""
import json
from dataclasses import asdict, dataclass, field, replace
from pathlib import Path
from typing import Any, Dict, Iterable, List, Tuple

Place = Tuple[int, int, int]
Corners = Tuple[int, int, int]
Side = Tuple[Place, Place]  # a side of a face runs from the first place to the second

GREATEST_COORDINATE = 32_767
LONGEST_SPAN = 2 * GREATEST_COORDINATE
MOST_FACES = 1_048_576
FACES = 100_000  # of a tile or a parent, where no other number is asked for
FORM = "cushionwren world 1"
# Who knows the first form alone refuses a world whose streams are packed.
PACKED_FORM = "cushionwren world 2"


class WorldFault(Exception):
    """Why a world can't be made or isn't right; the text says what to do where that is known."""


@dataclass(frozen=True)
class Tile:
    """A piece of the world. One of level 0 was cut from the input; one of a higher level is made of
    its children's coarse fronts. `low` and `high` are the corners of its box in the world."""

    name: str
    level: int
    offset: Place
    low: Place
    high: Place
    vertices: int = 0
    faces: int = 0
    border: int = 0  # how many of its sides are on its border
    neighbours: Tuple[str, ...] = ()
    children: Tuple[str, ...] = ()


@dataclass(frozen=True)
class World:
    """`unit` is how long a unit is in the input's own measure, and `origin` where the world's zero
    stands there. `outline` counts the border sides beside which no other tile stands. Where it is
    packed, each stream stands as `pack` packs it."""

    folder: Path
    unit: float
    origin: Tuple[float, float, float]
    outline: int
    tiles: Dict[str, Tile] = field(default_factory=dict)
    packed: bool = False

    def level(self, level: int) -> List[Tile]:
        return [tile for tile in self.tiles.values() if tile.level == level]

    @property
    def levels(self) -> int:
        return 1 + max((tile.level for tile in self.tiles.values()), default=-1)

    def parents(self) -> Dict[str, str]:
        """The parent of each tile that has one."""
        return {child: tile.name for tile in self.tiles.values() for child in tile.children}

    def path(self, tile: Tile, ending: str) -> Path:
        folder = "parents" if tile.level else "tiles"
        return self.folder / folder / f"{tile.name}.{ending}"

    def mesh(self, tile: Tile) -> Path:
        return self.path(tile, "obj")

    def stream(self, tile: Tile) -> Path:
        return self.path(tile, "vdpz" if self.packed else "vdpm")


def moved(place: Place, by: Place) -> Place:
    return (place[0] + by[0], place[1] + by[1], place[2] + by[2])


def below(place: Place, by: Place) -> Place:
    return (place[0] - by[0], place[1] - by[1], place[2] - by[2])


def box_of(places: Iterable[Place]) -> Tuple[Place, Place]:
    """The least and the greatest coordinate on each axis."""
    xs, ys, zs = zip(*places)
    return (min(xs), min(ys), min(zs)), (max(xs), max(ys), max(zs))


def fits(low: Place, high: Place) -> bool:
    """Whether a tile with this box can have coordinates that a stream takes."""
    return all(b - a <= LONGEST_SPAN for a, b in zip(low, high))


def middle(low: Place, high: Place) -> Place:
    return ((low[0] + high[0]) // 2, (low[1] + high[1]) // 2, (low[2] + high[2]) // 2)


def write_world(world: World) -> None:
    """Writes world.json last of all files, so that a world which has one was cut whole."""
    told: Dict[str, Any] = {"form": FORM}
    if world.packed:
        told = {"form": PACKED_FORM, "packed": True}
    told.update(unit=world.unit, origin=world.origin, outline=world.outline)
    told["tiles"] = [asdict(tile) for tile in world.tiles.values()]
    write_whole(world.folder / "world.json", json.dumps(told, indent=1) + "\n")
    before = world.folder / BEFORE
    if before.is_file():
        before.unlink()


def write_whole(path: Path, text: str) -> None:
    """Writes a file that has its name only once it is whole."""
    part = path.with_name(f"{path.name}.part")
    part.write_text(text, encoding="ascii")
    part.replace(path)


def set_aside(folder: Path) -> None:
    """Takes the name of what stands in a folder, since tiles of another cut are written there: what
    is of two cuts is never taken for a world."""
    file = folder / "world.json"
    if file.is_file():
        file.replace(folder / BEFORE)


JOURNAL = "cut.journal"  # of a cut that is under way, or was stopped
BEFORE = "world.json.before"  # of the cut before one that is under way
OUTLINE = "outline.txt"  # the border sides beside which no other tile stands
OPENED = "opened.txt"  # the edges that several tiles have, at which all are cut open


def write_sides(world: World, name: str, sides: Iterable[Side]) -> None:
    """A line each: from three numbers to three."""
    with (world.folder / name).open("w", encoding="ascii") as file:
        for start, end in sides:
            file.write(" ".join(map(str, (*start, *end))) + "\n")


def sides_of(world: World, name: str) -> List[Side]:
    path = world.folder / name
    try:
        lines = path.read_text(encoding="ascii").splitlines()
        rows = [tuple(map(int, line.split())) for line in lines]
        return [((a, b, c), (d, e, f)) for a, b, c, d, e, f in rows]
    except (OSError, ValueError) as fault:
        raise WorldFault(f"{path} can't be read: cut the world anew") from fault


def read_world(path: Path) -> World:
    """The world of a folder, or of its world.json."""
    file = path / "world.json" if path.is_dir() else path
    try:
        told = json.loads(file.read_text(encoding="ascii"))
        if told["form"] not in (FORM, PACKED_FORM):
            known = f"`{FORM}` and `{PACKED_FORM}`"
            raise WorldFault(f"{file} has another form than {known}: cut it again")
        tiles = [tile_of(words) for words in told["tiles"]]
        x, y, z = told["origin"]
        packed = told["packed"] if told["form"] == PACKED_FORM else False
        if not isinstance(packed, bool):
            raise TypeError(f"packed is {packed}")
        world = World(file.parent, told["unit"], (x, y, z), told["outline"], packed=packed)
    except OSError as fault:
        if any(file.with_name(name).is_file() for name in (JOURNAL, BEFORE)):
            raise WorldFault(f"{file.parent} isn't cut whole: go on by the same `cut`") from fault
        raise WorldFault(f"{file} can't be read: {fault.strerror}") from fault
    except (ValueError, KeyError, TypeError) as fault:
        raise WorldFault(f"{file} is no world.json: {fault}") from fault
    return replace(world, tiles={tile.name: tile for tile in tiles})


def is_packed(folder: Path) -> bool:
    """Whether a world with packed streams stands in a folder, or did before a cut that stopped."""
    for name in ("world.json", BEFORE):
        try:
            return read_world(folder / name).packed
        except WorldFault:
            pass
    return False


def tile_of(words: Dict[str, Any]) -> Tile:
    """The tile of what a file has of it."""
    lists = ("offset", "low", "high", "neighbours", "children")
    return Tile(**{key: tuple(value) if key in lists else value for key, value in words.items()})
