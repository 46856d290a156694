"""Meshes and height fields of more faces than a stream takes: they become worlds of tiles
(docs/WORLDS.md), where the user says so."""
import os
import sys
from pathlib import Path
from typing import BinaryIO

from mesh_files import obj, ply, stl
from mesh_files.reading import kind_at
from mesh_files.soup import MeshFault
from worlds.building import Build, build_world
from worlds.form import FACES, MOST_FACES, World, WorldFault, read_world
from worlds.heights import size_of
from worlds.inputs import Asked
from worlds.making import make_world
from worlds.progress import Work
from worlds.rasters import is_raster

from .fields import CUT, Steps, is_field, without_name
from .model import Programs, is_built, tell
from .program import ProgramEnded

WORLD = "world.json"
MOST_JOBS = 4  # each may take 250 MB
_YES = ("y", "yes")


def faces_of(path: Path) -> int:
    """How many faces a file has at least, as its head, its size or its lines tell; 0 of a stream, a
    raster, or what is no mesh."""
    with path.open("rb") as file:
        if is_built(file.read(4)) or is_raster(path):
            return 0
        file.seek(0)
        try:
            if is_field(path):
                columns, rows = size_of(path)
                return 2 * (columns - 1) * (rows - 1)
            return _told(kind_at(path), file, path.stat().st_size)
        except (MeshFault, WorldFault):  # (which is told when the file is read)
            return 0


def _told(kind: str, file: BinaryIO, size: int) -> int:
    if kind == "binary STL":
        return (size - stl.HEAD) // stl.EACH
    if kind == "PLY":
        elements = ply.read_head(file).elements
        return sum(element.count for element in elements if element.name == "face")
    if kind == "OBJ" and size > 8 * MOST_FACES:  # (each has eight bytes)
        return obj.face_count(file.read())
    return 0


def folder_for(path: Path) -> Path:
    return Path(f"{path.stem}-world")


def is_agreed(path: Path, faces: int) -> bool:
    """Asks the user, where there is a terminal, whether a file shall become a world."""
    if not (sys.stdin.isatty() and sys.stderr.isatty()):
        return False
    tell(f"{path} has {faces:,} faces, and one mesh has at most {MOST_FACES:,}")
    print(f"viewer: cut it into tiles, in {folder_for(path)}? [y/N] ", end="", file=sys.stderr)
    sys.stderr.flush()
    return sys.stdin.readline().strip().lower() in _YES


def shown_for(path: Path, is_world: bool, programs: Programs, steps: Steps) -> Path:
    """What is shown for a file: the file itself, or the world.json of its tiles where that is asked
    for or agreed to; ProgramEnded where it has too many faces and isn't to be cut."""
    if path.name == WORLD:
        return path
    faces = 0 if is_world else faces_of(path)
    if faces > MOST_FACES and not is_agreed(path, faces):
        raise ProgramEnded(f"it has {faces:,} faces, and one mesh has at most {MOST_FACES:,}", CUT)
    if not is_world and faces <= MOST_FACES:
        return path
    return _world_of(path, programs, steps)


def _cut(path: Path, folder: Path, steps: Steps) -> World:
    """The world of a file, cut anew where it isn't younger than the file."""
    told = folder / WORLD
    if told.is_file() and told.stat().st_mtime_ns > path.stat().st_mtime_ns:
        return read_world(folder)
    tell(f"cutting {path} into the tiles of {folder}")
    return make_world(Asked(path, folder, FACES, 0.0, *steps), tell)


def _world_of(path: Path, programs: Programs, steps: Steps) -> Path:
    folder = folder_for(path)
    try:
        world = _cut(path, folder, steps)
        jobs = min(MOST_JOBS, os.cpu_count() or 1)
        with Work(tell) as work:
            build_world(Build(world, programs.simplify, programs.vdpm, FACES, jobs, work))
    except WorldFault as fault:
        raise ProgramEnded(without_name(path, fault)) from None
    return folder / WORLD
