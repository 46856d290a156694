"""glTF 2.0 in one file: a mesh with its normals, and with the colours of its vertices or else the
pictures of its texture."""
import json
import math
import struct
from array import array
from typing import Any, Dict, Iterator, List, Sequence, Tuple

from dressing.materials import Picture
from vectors import Triple, Vector, cross, minus, unit

from .shown import Level, Look

# Numbers of its constants.
_BYTE, _UNSIGNED, _FLOAT = 5121, 5125, 5126
_VERTICES, _INDICES, _TRIANGLES = 34962, 34963, 4
_KINDS = ("image/png", "image/jpeg")  # of pictures that all readers know
Json = Dict[str, Any]


def normal_of(a: Vector, b: Vector, c: Vector) -> Triple:
    """The normal of a triangle, twice as long as its area is large."""
    return cross(minus(b, a), minus(c, a))


def normals(points: Sequence[Vector], faces: Sequence[Sequence[int]]) -> Iterator[Triple]:
    """The normal at each vertex: those of its faces together, the larger with more weight. Where
    they come to nothing, one that looks up."""
    sums = [[0.0, 0.0, 0.0] for _ in points]
    for face in faces:
        normal = normal_of(*(points[corner] for corner in face))
        for corner in face:
            sums[corner] = [a + b for a, b in zip(sums[corner], normal)]
    for total in sums:
        found = unit((total[0], total[1], total[2]))
        yield found if any(found) else (0.0, 0.0, 1.0)


def padded(data: bytes, fill: bytes) -> bytes:
    return data + fill * (-len(data) % 4)


def linear(part: float) -> float:
    """A part of a colour, from 0 to 1, as light."""
    return part / 12.92 if part <= 0.04045 else math.pow((part + 0.055) / 1.055, 2.4)


class _File:
    """What a file tells and what stands behind it, as far as they are known."""

    def __init__(self) -> None:
        self.views: List[Json] = []
        self.accessors: List[Json] = []
        self.binary = bytearray()

    def view(self, data: bytes, **told: object) -> int:
        place = {"buffer": 0, "byteOffset": len(self.binary), "byteLength": len(data)}
        self.views.append({**place, **told})
        self.binary += padded(data, b"\0")
        return len(self.views) - 1

    def array(self, data: bytes, target: int, **told: object) -> int:
        self.accessors.append({"bufferView": self.view(data, target=target), **told})
        return len(self.accessors) - 1

    def vertices(self, values: Sequence[Sequence[float]], **told: object) -> int:
        kind = {"componentType": _FLOAT, "count": len(values), "type": f"VEC{len(values[0])}"}
        data = array("f", (c for value in values for c in value)).tobytes()
        return self.array(data, _VERTICES, **kind, **told)

    def colours(self, values: Sequence[Tuple[int, int, int]]) -> int:
        kind = {"componentType": _BYTE, "normalized": True, "count": len(values), "type": "VEC4"}
        light = [round(255 * linear(part / 255)) for part in range(256)]
        data = bytes(part for r, g, b in values for part in (light[r], light[g], light[b], 255))
        return self.array(data, _VERTICES, **kind)

    def corners(self, faces: Sequence[Sequence[int]]) -> int:
        kind = {"componentType": _UNSIGNED, "count": 3 * len(faces), "type": "SCALAR"}
        data = array("I", (corner for face in faces for corner in face)).tobytes()
        return self.array(data, _INDICES, **kind)

    def whole(self, document: Json) -> bytes:
        told = {**document, "accessors": self.accessors, "bufferViews": self.views}
        told["buffers"] = [{"byteLength": len(self.binary)}]
        head = padded(json.dumps(told).encode("ascii"), b" ")
        chunks = struct.pack("<I4s", len(head), b"JSON") + head
        chunks += struct.pack("<I4s", len(self.binary), b"BIN\0") + self.binary
        return struct.pack("<4sII", b"glTF", 2, 12 + len(chunks)) + chunks


def _single(number: float) -> float:
    """The number with 24 bits, as the file has it."""
    (found,) = struct.unpack("<f", struct.pack("<f", number))
    return float(found)


def _attributes(file: _File, level: Level) -> Json:
    """Places stand from the middle, where the node is put, so that coordinates far from 0 lose
    nothing in numbers of 24 bits."""
    step, look = level.grid.unit, level.look
    points = [(step * p[0], step * p[1], step * p[2]) for p in level.places]
    box = {
        name: [_single(of(p[axis] for p in points)) for axis in range(3)]
        for name, of in (("min", min), ("max", max))
    }
    found: Json = {"POSITION": file.vertices(points, **box)}
    found["NORMAL"] = file.vertices(list(normals(points, level.faces)))
    if look.spots:  # (which colours of vertices would darken)
        found["TEXCOORD_0"] = file.vertices([(u, 1 - v) for u, v in look.spots])
    elif look.colours:
        found["COLOR_0"] = file.colours(look.colours)
    return found


def _material(file: _File, picture: Picture, images: List[Json]) -> Json:
    plain: Json = {"metallicFactor": 0, "roughnessFactor": 1}
    if picture.kind in _KINDS:
        images.append({"bufferView": file.view(picture.data), "mimeType": picture.kind})
        plain["baseColorTexture"] = {"index": len(images) - 1}
    else:
        plain["baseColorFactor"] = [*map(linear, picture.colour), 1]
    return {"pbrMetallicRoughness": plain, "doubleSided": True}


def _primitives(file: _File, level: Level) -> List[Json]:
    """The faces of each page that has some, with the number of its material."""
    if not level.look.pictures:
        return [{"indices": file.corners(level.faces)}]
    faces: List[List[Sequence[int]]] = [[] for _ in level.look.pictures]
    for face, page in zip(level.faces, level.look.pages):
        faces[page].append(face)
    return [
        {"indices": file.corners(some), "material": page} for page, some in enumerate(faces) if some
    ]


def _textures(file: _File, look: Look) -> Json:
    if not look.pictures:
        return {}
    images: List[Json] = []
    materials = [_material(file, picture, images) for picture in look.pictures]
    told: Dict[str, Any] = {"materials": materials}
    if not images:
        return told
    textures = [{"sampler": 0, "source": number} for number in range(len(images))]
    return {**told, "images": images, "samplers": [{}], "textures": textures}


def glb(level: Level) -> bytes:
    file = _File()
    attributes = _attributes(file, level)
    primitives = [
        {"attributes": attributes, "mode": _TRIANGLES, **told} for told in _primitives(file, level)
    ]
    return file.whole({
        "asset": {"version": "2.0", "generator": "vdpm"},
        "scene": 0,
        "scenes": [{"nodes": [0]}],
        "nodes": [{"mesh": 0, "translation": list(level.grid.middle)}],
        "meshes": [{"primitives": primitives}],
        **_textures(file, level.look),
    })
