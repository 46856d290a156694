"""Reads the streams of tiles, plays scripts on them by `vdpm view`, and tells what is shown in
places of the world."""
import subprocess
from pathlib import Path
from typing import Iterable, List

from frames import Frame, read_frames
from viewer.program import beside

from .form import Place, Side, Tile, World, WorldFault, moved
from .mending import border_sides

ALL_MOVES = str((1 << 32) - 1)


def needed(path: Path) -> bytes:
    try:
        return path.read_bytes()
    except OSError as fault:
        raise WorldFault(f"{path} can't be read: {fault.strerror}") from fault


def run(words: List[str], given: bytes) -> bytes:
    """What a program puts; WorldFault where it ends with another status than 0."""
    try:
        done = subprocess.run(words, input=given, capture_output=True, check=False)
    except OSError as fault:
        raise WorldFault(f"{words[0]} can't be started: {fault.strerror}") from fault
    if done.returncode != 0:
        said = done.stderr.decode("utf-8", "replace").strip().rpartition("\n")[2]
        raise WorldFault(f"{' '.join(words[:2])} ended with status {done.returncode}: {said}")
    return done.stdout


def stream_of(vdpm: Path, world: World, tile: Tile) -> bytes:
    """A tile's stream text, unpacked by the `pack` beside vdpm where the world is packed."""
    data = needed(world.stream(tile))
    return run([str(beside(vdpm, "pack")), "--unpack"], data) if world.packed else data


def frames_of(vdpm: Path, stream: bytes, script: str) -> List[Frame]:
    """The frames of a script on a stream."""
    text = run([str(vdpm), "view", ALL_MOVES], stream + script.encode("ascii")).decode("ascii")
    return list(read_frames(text.splitlines()))


def frame_of(vdpm: Path, world: World, tile: Tile, script: str) -> Frame:
    """The last frame of a script on a tile, which has to have one."""
    return frames_of(vdpm, stream_of(vdpm, world, tile), script)[-1]


def splits(records: Iterable[int]) -> str:
    """The script that splits a closed set of records and shows the front."""
    return "".join(f"s {record}\n" for record in sorted(records)) + "w\n"


def places_in_world(frame: Frame, offset: Place) -> List[Place]:
    return [moved(point, offset) for point in frame.points]


def border_of_frame(frame: Frame, offset: Place) -> List[Side]:
    """The border sides of what is shown, by places of the world."""
    places = places_in_world(frame, offset)
    return [(places[start], places[end]) for start, end in border_sides(frame.faces)]
