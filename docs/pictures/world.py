"""Draws two tiles of a world at different levels: python3 docs/pictures/world.py [VDPM SIMPLIFY]

They are those of this repository unless others are named. The nearer tile shows all its faces and
the farther one a coarse front; the red line is the seam, whose sides are the same in both.
"""
import subprocess
import sys
import tempfile
from pathlib import Path
from typing import List

TOP = Path(__file__).resolve().parent.parent.parent
sys.path.insert(0, str(TOP / "tools"))

from drawing import SCALE, FarCamera, svg  # noqa: E402
from frames import Frame  # noqa: E402
from worlds.form import World, read_world  # noqa: E402
from worlds.fronts import border_of_frame, frame_of, needed, places_in_world, run  # noqa: E402
from worlds.making import Asked, make_world  # noqa: E402
from worlds.parents import read_child  # noqa: E402

CELLS = 40
TOLERANCES = {"t0": 200, "t1": 2600}  # of the front's nodes, in units
UNIT = 1.0


def built(room: Path, simplify: str) -> World:
    """A field of so many cells, in two tiles beside each other."""
    field = room / "field.asc"
    terrain = [sys.executable, str(TOP / "benches" / "terrain.py"), str(CELLS), "grid"]
    field.write_bytes(subprocess.run(terrain, check=True, stdout=subprocess.PIPE).stdout)
    make_world(Asked(field, room, CELLS * CELLS, UNIT), print)
    world = read_world(room)
    for tile in world.level(0):
        stream = run([simplify, "--keep-border"], needed(world.mesh(tile)))
        world.stream(tile).write_bytes(stream)
    return world


def together(world: World, frames: List[Frame]) -> Frame:
    """Two frames as one, in places of the world."""
    whole = Frame(None, [], [], [], [])
    for tile, frame in zip(world.level(0), frames):
        start = len(whole.points)
        whole.points.extend(places_in_world(frame, tile.offset))
        whole.faces.extend(tuple(corner + start for corner in face) for face in frame.faces)
    return whole


def with_seam(text: str, camera: FarCamera, world: World, frames: List[Frame]) -> str:
    """The picture with the sides that both frames have."""
    one, other = (
        border_of_frame(frame, tile.offset) for tile, frame in zip(world.level(0), frames)
    )
    seam = [(a, b) for a, b in one if (b, a) in set(other)]
    print(f"{len(seam)} sides of the seam")
    lines = []
    for ends in seam:
        (ax, ay, _), (bx, by, _) = (camera.place(end) for end in ends)
        lines.append(f"M{SCALE * ax:.0f} {SCALE * ay:.0f}L{SCALE * bx:.0f} {SCALE * by:.0f}")
    line = f'<path fill="none" stroke="#d03020" stroke-width="9" d="{"".join(lines)}"/>'
    return text.replace("</svg>", f"{line}\n</svg>")


def main() -> None:
    vdpm, simplify = sys.argv[1:3] or (str(TOP / "vdpm"), str(TOP / "simplify"))
    with tempfile.TemporaryDirectory() as room:
        world = built(Path(room), simplify)
        frames = []
        for tile in world.level(0):
            front = read_child(Path(vdpm), world, tile.name).front(TOLERANCES[tile.name])
            script = "".join(f"s {record}\n" for record in sorted(front)) + "w\n"
            frames.append(frame_of(Path(vdpm), world, tile, script))
            print(f"{tile.name}: {len(frames[-1].faces)} faces of {tile.faces}")
    frame = together(world, frames)
    camera = FarCamera((0.4, -1, 1.1), (0, 0, 1), frame.points, 720)
    text = svg(frame, camera, (-2, -1, 2), back=True)
    path = TOP / "docs" / "pictures" / "world.svg"
    path.write_text(with_seam(text, camera, world, frames), encoding="ascii")


if __name__ == "__main__":
    main()
