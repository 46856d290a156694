"""The files of a mesh, in the file's own coordinates: OBJ, PLY, STL and GLB."""
import math
import struct
from typing import Callable, Dict, List, Sequence

from dressing.materials import Picture
from vectors import unit

from .gltf import glb, normal_of
from .shown import Grid, Level

_PARTS = ("red", "green", "blue")
_ENDINGS = {"image/png": "png", "image/jpeg": "jpg", "image/webp": "webp"}


def decimals_of(grid: Grid) -> int:
    """How many decimals tell a coordinate to a hundredth of a step."""
    if not any(grid.middle) and grid.unit in (1.0, 0.1, 0.01, 0.001, 0.0001):
        return round(-math.log10(grid.unit))
    return max(0, math.ceil(-math.log10(grid.unit)) + 2)


def _vertex_lines(level: Level) -> List[str]:
    decimals = decimals_of(level.grid)
    return [
        "v " + " ".join(f"{c:.{decimals}f}" for c in level.grid.at(p)) for p in level.places
    ]


def obj(level: Level) -> bytes:
    """With the colours of vertices behind their coordinates, as MeshLab has them."""
    lines = _vertex_lines(level)
    for number, colour in enumerate(level.look.colours):
        lines[number] += "".join(f" {part / 255:.4f}" for part in colour)
    lines += ["f " + " ".join(str(corner + 1) for corner in face) for face in level.faces]
    return "".join(line + "\n" for line in lines).encode("ascii")


def obj_with_materials(level: Level, library: str) -> bytes:
    """With texture coordinates, which have the numbers of the vertices, and the materials of a file
    of this name."""
    lines = [f"mtllib {library}", *_vertex_lines(level)]
    lines += [f"vt {u:.6f} {v:.6f}" for u, v in level.look.spots]
    for page in range(len(level.look.pictures)):
        lines += _page_lines(level, page)
    return "".join(line + "\n" for line in lines).encode("utf-8")


def _page_lines(level: Level, page: int) -> List[str]:
    faces = [face for face, own in zip(level.faces, level.look.pages) if own == page]
    both = (" ".join(f"{corner + 1}/{corner + 1}" for corner in face) for face in faces)
    return [f"usemtl page-{page}", *(f"f {one}" for one in both)] if faces else []


def materials(pictures: Sequence[Picture], stem: str) -> Dict[str, bytes]:
    """The file of materials of an OBJ file, and the pictures that it names, by their names."""
    files: Dict[str, bytes] = {}
    lines: List[str] = []
    for page, picture in enumerate(pictures):
        lines += [f"newmtl page-{page}", "Kd " + " ".join(f"{c:.4f}" for c in picture.colour)]
        if picture.kind in _ENDINGS:
            name = f"{stem}-{page}.{_ENDINGS[picture.kind]}"
            files[name] = picture.data
            lines.append(f"map_Kd {name}")
    return {f"{stem}.mtl": "".join(line + "\n" for line in lines).encode("utf-8"), **files}


def ply(level: Level) -> bytes:
    """PLY 1.0, binary, least byte first, with doubles."""
    nothing: Sequence[Sequence[int]] = [()] * len(level.places)
    colours = level.look.colours or nothing
    head = ["ply", "format binary_little_endian 1.0", f"element vertex {len(level.places)}"]
    head += [f"property double {axis}" for axis in "xyz"]
    head += [f"property uchar {name}" for name in _PARTS if level.look.colours]
    head += [f"element face {len(level.faces)}", "property list uchar int vertex_indices"]
    text = "".join(line + "\n" for line in [*head, "end_header"]).encode("ascii")
    points = b"".join(
        struct.pack("<3d", *level.grid.at(p)) + bytes(colour)
        for p, colour in zip(level.places, colours)
    )
    return text + points + b"".join(struct.pack("<B3i", 3, *face) for face in level.faces)


def stl(level: Level) -> bytes:
    """Binary STL; its numbers have 24 bits."""
    parts = [b"binary STL".ljust(80), struct.pack("<I", len(level.faces))]
    for face in level.faces:
        a, b, c = (level.grid.at(level.places[corner]) for corner in face)
        parts.append(struct.pack("<12fH", *unit(normal_of(a, b, c)), *a, *b, *c, 0))
    return b"".join(parts)


WRITERS: Dict[str, Callable[[Level], bytes]] = {"obj": obj, "ply": ply, "stl": stl, "glb": glb}
FORMATS: List[str] = list(WRITERS)
