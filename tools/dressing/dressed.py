"""A text that `simplify` takes, cut open along the seams of its texture, with the coat of it."""
from pathlib import Path
from typing import List, NamedTuple, Optional, Sequence, Tuple

from .coat import coat_of, within
from .materials import has_materials
from .origins import Mesh, Origin, as_they_stood, mesh_of, traced
from .seams import Cut, Key, cut
from .textured import NONE, Place, Textured, has_texture, libraries_of, read

MOST_PAGES = 256


class Dressed(NamedTuple):
    """`before` are the vertices of the text before that those of this one were. Where colours of
    materials alone are told, or the texture has no seam, the mesh isn't cut."""

    is_cut: bool
    text: bytes
    coat: bytes
    before: List[int]
    pages: List[str]
    libraries: List[str]


def _keys(textured: Textured, origins: Sequence[Origin]) -> List[Key]:
    if not textured.has_spots:
        return [(0, 0, 0)] * (3 * len(origins))
    spots = [within(spot) for spot in textured.spots]
    keys: List[Key] = []
    for number, corners in origins:
        face = textured.faces[number]
        for corner in corners:
            at = face.spots[corner]
            keys.append((*(spots[at] if at != NONE else (0, 0)), face.page))
    return keys


def _text(mesh: Mesh, made: Cut) -> bytes:
    lines = [mesh.lines[vertex] for vertex in made.before]
    lines += [b"f %d %d %d" % (a + 1, b + 1, c + 1) for a, b, c in made.faces]
    return b"\n".join(lines) + b"\n"


def has_dress(path: Path, text: bytes) -> bool:
    """Whether there is something to dress a file with."""
    return has_texture(text) and has_materials(path, libraries_of(text))


def dressed(
    given: bytes, text: bytes, scale: Optional[Tuple[float, Place]]
) -> Optional[Dressed]:
    """The text that was made of the one that was given, dressed. `scale` leads back from places to
    coordinates; None where vertices and faces stand as they stood. The answer is None where nothing
    of a texture is there, it has more pages than a coat, or the faces aren't found again."""
    textured = read(given)
    if textured is None or len(textured.pages) > MOST_PAGES:
        return None
    mesh = mesh_of(text)
    origins = traced(textured, mesh, *scale) if scale else as_they_stood(textured)
    if origins is None or len(origins) != len(mesh.faces):
        return None
    made = cut(len(mesh.places), mesh.faces, _keys(textured, origins))
    coat = coat_of(made.keys, [textured.faces[number].page for number, _ in origins])
    is_cut, told = len(made.before) > len(mesh.places), (textured.pages, textured.libraries)
    return Dressed(is_cut, _text(mesh, made), coat, made.before, *told)
