"""The levels as meshes in the file's own coordinates, by `vdpm live`, which shows them."""
import io
import struct
import sys
from pathlib import Path
from typing import List, NamedTuple, Optional, Sequence, Tuple

sys.path.insert(0, str(Path(__file__).resolve().parent.parent))

from frames import Frame, read_frames  # noqa: E402
from dressing.coat import WIDTH  # noqa: E402
from dressing.materials import Picture  # noqa: E402
from viewer import manual  # noqa: E402
from viewer.hierarchy import Colour, mean_colours, nodes_of  # noqa: E402
from viewer.model import Model, Scale, needed, run  # noqa: E402

_SPOT = struct.Struct("<2i")
Point = Tuple[float, float, float]


class Grid(NamedTuple):
    """How the whole numbers of a stream lead back to coordinates: unit * number + middle."""

    unit: float
    middle: Point

    def at(self, place: Tuple[int, int, int]) -> Point:
        x, y, z = (self.unit * number + to for number, to in zip(place, self.middle))
        return x, y, z


class Look(NamedTuple):
    """What a mesh is drawn with, where there is something: colours and texture coordinates by
    place, v from below; and by face the page, each of which has a picture."""

    colours: List[Colour] = []
    spots: List[Tuple[float, float]] = []
    pages: List[int] = []
    pictures: Sequence[Picture] = ()


class Level(NamedTuple):
    """A mesh of the file, coarser than it; lengths are in the file's units."""

    places: List[Tuple[int, int, int]]  # on the grid
    grid: Grid
    faces: List[Tuple[int, int, int]]  # corners by place, from 0
    error: float  # no vertex is farther from those that it stands for
    deviation: float  # nor from the planes of their faces
    look: Look = Look()


def grid_of(digits: int, scale: Optional[Scale]) -> Grid:
    """Scaled places lead back by the scale; others are the coordinates, with so many decimals."""
    if scale is None:
        return Grid(1 / 10**digits, (0.0, 0.0, 0.0))
    return Grid(scale.unit, scale.middle)


def script_of(records: Sequence[int]) -> bytes:
    """Splits the first records, in their order, and asks at each of these numbers for the level
    and the frame."""
    lines: List[str] = []
    done = 0
    for count in records:
        lines += [f"s {k}" for k in range(done, count)]
        lines += ["l", "w"]
        done = max(done, count)
    return "".join(line + "\n" for line in lines).encode()


class Looks:
    """What the nodes and faces of a model are drawn with."""

    def __init__(self, model: Model, pictures: Sequence[Picture]) -> None:
        self.colours = mean_colours(nodes_of(model.stream), model.colours)
        self.pictures = pictures
        self.spots, self.pages = model.dress.painted if model.dress else (b"", b"")

    def of(self, frame: Frame) -> Look:
        colours = [self.colours[node] for node in frame.nodes] if self.colours else []
        if not self.spots:
            return Look(colours)
        spots = [_SPOT.unpack_from(self.spots, _SPOT.size * node) for node in frame.nodes]
        whole = [(u / WIDTH, v / WIDTH) for u, v in spots]
        return Look(colours, whole, [self.pages[face] for face in frame.numbers], self.pictures)


def levels_shown(
    vdpm: Path, stream: bytes, grid: Grid, records: Sequence[int], looks: Optional[Looks] = None
) -> List[Level]:
    """The front after each of so many records, which go up."""
    done = run(vdpm, ["live", "0"], stream + script_of(records), "showing the levels")
    text = needed(done, manual.SCRIPT).out.decode("ascii")
    told = [line.split(" ") for line in text.splitlines() if line.startswith("level ")]
    frames = list(read_frames(io.StringIO(text)))
    found = [looks.of(frame) if looks else Look() for frame in frames]
    return [level_of(*each, grid) for each in zip(frames, found, told)]


def level_of(frame: Frame, look: Look, told: Sequence[str], grid: Grid) -> Level:
    """The frame with what a line `level NODES FACES SPLIT ERROR DEVIATION` tells of it."""
    error, deviation = (grid.unit * int(number) for number in told[4:6])
    return Level(frame.points, grid, frame.faces, error, deviation, look)
