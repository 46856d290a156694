"""Worked values for the tests of the model: small meshes, their streams and frames as they were
found by hand, and calls that take an answer apart."""
import struct
from typing import List, Sequence, Tuple

from model import answer
from model.hierarchy import Hierarchy, hierarchy_of_run
from model.mesh import Mesh
from model.run import collapsed, surface_of
from random_meshes import chain

OCTAHEDRON = b"""v 100 0 0
v -100 0 0
v 0 100 0
v 0 -100 0
v 0 0 100
v 0 0 -100
f 1 3 5
f 3 2 5
f 2 4 5
f 4 1 5
f 3 1 6
f 2 3 6
f 4 2 6
f 1 4 6
"""
SQUARE = b"v 0 0 0\nv 10 0 0\nv 0 10 0\nv 10 10 0\nf 1 2 4\nf 1 4 3\n"
TETRAHEDRON = b"""v 0 0 0
v 10 0 0
v 0 10 0
v 0 0 10
f 1 3 2
f 1 2 4
f 2 3 4
f 1 4 3
"""
THREE = "v 0 0 0\nv 10 0 0\nv 0 10 0\n"
BASE_FRAME = """frame 4 4
v 0 0 -100 0
v 1 0 0 -100
v 2 50 50 0
v 3 -50 0 50
f 0 0 2 3
f 1 3 2 1
f 2 0 3 1
f 3 2 0 1
end
"""
MIDDLE_FRAME = """frame 5 6
v 0 0 -100 0
v 1 0 0 -100
v 2 50 50 0
v 4 -100 0 0
v 5 0 0 100
f 0 0 2 5
f 1 4 2 1
f 2 0 4 1
f 3 2 0 1
f 4 2 4 5
f 5 4 0 5
end
"""
FULL_FRAME = """frame 6 8
v 0 0 -100 0
v 1 0 0 -100
v 4 -100 0 0
v 5 0 0 100
v 6 100 0 0
v 7 0 100 0
f 0 0 6 5
f 1 4 7 1
f 2 0 4 1
f 3 6 0 1
f 4 7 4 5
f 5 4 0 5
f 6 6 7 5
f 7 7 6 1
end
"""
SQUARE_BASE = "frame 3 1\nv 0 0 10 0\nv 1 10 10 0\nv 2 0 0 0\nf 0 2 1 0\nend\n"
SQUARE_FULL = """frame 4 2
v 0 0 10 0
v 1 10 10 0
v 3 0 0 0
v 4 10 0 0
f 0 3 1 0
f 1 3 4 1
end
"""


def stream_of(*words: int) -> bytes:
    return b"VDPM" + b"".join(struct.pack("<I", word % 2**32) for word in words)


OCTAHEDRON_STREAM = stream_of(
    *(1, 6, 4, 4, 2),
    *(0, -100, 0, 1, 4, 0, 0, -100, 1, 6, 50, 50, 0, 2, 0, -50, 0, 50, 2, 0),
    *(0, 2, 5, 4, 4, 3, 1, 6, 0, 4, 1, 7, 2, 0, 1, 8),
    *(3, 1, -100, 0, 0, 2, 0, 0, 100, 5, 3),
    *(3, 4, 5, 2, 2, 4, 4, 0, 5, 3, 7, 3),
    *(2, 1, 100, 0, 0, 1, 0, 100, 0, 3, 3),
    *(2, 3, 5, 1, 15, 2, 3, 2, 1, 5, 12, 5),
)
SQUARE_STREAM = stream_of(
    *(1, 4, 3, 1, 1),
    *(0, 10, 0, 1, 3, 10, 10, 0, 1, 4, 0, 0, 0, 2, 0),
    *(2, 1, 0, 2),
    *(2, 1, 0, 0, 0, 1, 10, 0, 0, 2, 1),
    *(2, 3, 1, 1, 0, 1),
)
# Record 0 has two faces whose inner sides run between other leaves. The face of record 1 joins
# these sides, or lies elsewhere.
SLIT = (
    *(1, 6, 4, 0, 2),
    *(0, 0, 0, 3, 0, 9, 0, 0, 1, 4, 0, 9, 0, 1, 5, 0, 0, 9, 1, 6),
    *(0, 2, 1, 0, 0, 0, 2, 0, 0, 3, 3),
    *(0, 2, 3, 1, 0, 0, 2, 1, 4, 2, 0, 0),
    *(4, 1, 3, 0, 0, 1, 4, 0, 0, 2, 1),
)
JOINED_SLIT = stream_of(*SLIT, 0, 1, 2, 3, 4, 1)
OPEN_SLIT = stream_of(*SLIT, 0, 1, 5, 3, 0, 0)
# A valid hierarchy whose record parts two faces that lie side by side in the base front.
TWO_FANS = stream_of(
    *(1, 5, 4, 3, 1),
    *(0, 0, 0, 2, 0, 1, 0, 0, 1, 1, 0, 1, 0, 1, 2, -1, 0, 0, 1, 3),
    *(1, 2, 3, 1, 0, 3, 4, 2, 0, 4, 2, 3),
    *(0, 1, 0, 0, 0, 4, 0, 0, 0, 5, 1),
    *(0, 1, 3, 4, 3, 4),
)


def with_word(stream: bytes, at: int, word: int) -> bytes:
    return stream[:at] + struct.pack("<I", word) + stream[at + 4 :]


def output(words: str, data: bytes) -> bytes:
    done = answer("vdpm", words.split(), data)
    assert (done.status, done.error) == (0, ""), done
    return done.output


def refused(words: str, data: bytes) -> str:
    """What follows `vdpm: fault` in the error line."""
    done = answer("vdpm", words.split(), data)
    assert done.status == 1, done
    return done.error[len("vdpm: fault ") : -1]


def replies(
    stream: bytes, script: Sequence[str], budget: int = 5, command: str = "view"
) -> List[str]:
    """The lines of the replies to a script."""
    text = output(f"{command} {budget}", stream + "\n".join(script).encode())
    return text.decode().splitlines()


def chain_hierarchy(count: int) -> Hierarchy:
    """An open fan round vertex 0, of which each collapse takes the last two rim vertices."""
    points = [(0, 0, 0), (0, 0, 0)] + count * [(1, 0, 0)]
    mesh = Mesh(points, chain(count))
    surface, log, last = surface_of(mesh), [], count + 1
    for t in range(count, 1, -1):
        surface, entry = collapsed(surface, t, last, (1, 0, 0))
        log.append(entry)
        last = entry.s
    return hierarchy_of_run(mesh, log)


def three(fields: List[str]) -> Tuple[int, int, int]:
    a, b, c = map(int, fields)
    return a, b, c


def octahedron() -> Mesh:
    lines = [line.split() for line in OCTAHEDRON.decode().splitlines()]
    points = [three(fields) for word, *fields in lines if word == "v"]
    faces = [three(fields) for word, *fields in lines if word == "f"]
    return Mesh(points, [(a - 1, b - 1, c - 1) for a, b, c in faces])
