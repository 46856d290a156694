"""Random inputs for tests: OBJ texts plain and damaged, streams plain and damaged, and scripts."""
import struct
from copy import copy
from random import Random
from typing import List, Tuple

from model.hierarchy import Hierarchy, NewFace, hierarchy_of_run
from model.mesh import Mesh, canonical_text, coordinate_text
from model.run import Collapse, best_place, collapsed, is_legal, pairs_of, run_to, surface_of
from model.stream import read_stream, stream_text
from worked import JOINED_SLIT, OPEN_SLIT, TWO_FANS

BAD_LINES = [
    "v 1 2", "v", "f 1 2", "f", "f 1 2 3 4", "v 1e0 0 0", "v . 0 0", "v 1.25 0 0", "v +-1 0 0",
    "v 0 32768 0", "v 0 0 -99999.00001", "v 1 2 3 \\", "f 0 1 2", "f 1 1 2", "f 1 2 -99", "f a 1 2",
    "f 1 2 999", "f 1/ /2 3", "f 1 2 +3", "f -0 1 2", "vt 0 \\", "v 1.00001 x 0", "v 0x1 0 0",
    "v 1 2 3\r\r", "v 1 2 3\r# CR", "\rv 1", "f 1 2 3\r#", "v 1 2 3 \\\r", "v 1 2 3 \\ ",
    "v 0 0 0\nv 1 0 0\nv 0 1 0\nf -1 -2 -3\nf -3 -2 -1", "v 7 7 7\nv 7 8 7\nf 1 -1 -2",
    "f 1 2 3", "f 3 2 1", "f 1 2 2/3", "v 1,5 0 0", "# " + 65_535 * "x", 65_536 * " ",
]  # fmt: skip
GOOD_LINES = [
    "", "   \t", "# a comment", "vn 0 0 1", "vt 0.5 0.5", "usemtl M", "s off", "o Part # 1", "g",
    "v 0 0 0 1.0", "V 1 2", "F 1", "#v 1", "vp 1 \\ 2", " v\t7 .0 -0 # \\", "v 1. +2.000 -.0",
]  # fmt: skip
BAD_SCRIPT_LINES = [
    "", " w", "w ", "S 0", "s", "s 01", "s -1", "s 4294967296", "s 4294967295", "c", "c 0 0", "x",
    "v 0 0 0 100", "v 0 0 0 65536 1", "v 0 0 0 1 65536", "v -0 0 0 1 1", "v 16777216 0 0 1 1",
    "v 0 0 0 1 1 1 2 3", "v  0 0 0 1 1", "vs 0 0 0 9 9", "vs 0 0 0 9 9 10", "g 1 0", "g 2 1", "g",
    "g 0 65536", "p 0 0 0 0 0 0", "p 0 0 0 1 0", "p 0 0 0 32768 0 0", "m ", "t 1", "k\r", "q q",
    "v 0 0 0 1 1" + 7 * " 1 0 0 0", "v 0 0 0 1 1 0 0 32768 0", "v 0 0 0 1 1 0 0 0 4398046511105",
    1_025 * "w", "p 16777216 0 0 1 0 0", "g 00 1", "v 0 0 0 1 1 0 0 0 -4398046511105",
]  # fmt: skip


def random_digits(rng: Random) -> int:
    return rng.choice([0, 0, 0, 1, 2, 3, 4])


def spelled(rng: Random, units: int, digits: int) -> str:
    """A coordinate, not always in its canonical form."""
    text = coordinate_text(units, digits)
    if rng.random() < 0.3:
        is_decimal = "." in text
        text = text.rstrip("0").rstrip(".") if is_decimal else text + rng.choice([".", ".0", ".00"])
    if rng.random() < 0.1 and not text.startswith("-"):
        text = "+" + text
    if rng.random() < 0.1:
        text = text.replace("-", "-0") if text.startswith("-") else text
    return text


def index_spelled(rng: Random, vertex: int, count: int) -> str:
    index = str(vertex + 1 if rng.random() < 0.7 else vertex - count)
    return index + rng.choice(["", "", "", "/", "/1", "//2", "/1/2"])


def loose_text(rng: Random, mesh: Mesh, digits: int) -> bytes:
    """The mesh as a modelling program may write it, with lines that are skipped."""
    gap = rng.choice([" ", "  ", "\t"])
    lines = [gap.join(["v"] + [spelled(rng, c, digits) for c in p]) for p in mesh.points]
    count = len(mesh.points)
    lines += [gap.join(["f"] + [index_spelled(rng, v, count) for v in f]) for f in mesh.faces]
    for _ in range(rng.randint(0, 3)):
        skipped = [line for line in GOOD_LINES if not line.strip().startswith("v ")]
        lines.insert(rng.randint(0, len(lines)), rng.choice(skipped))
    if rng.random() < 0.3:
        lines.append(rng.choice(GOOD_LINES))
    end = rng.choice(["\n", "\n", "\r\n"])
    return end.join(lines).encode() + (end.encode() if rng.random() < 0.8 else b"")


def damaged_text(rng: Random, text: bytes) -> bytes:
    """A text with lines put in, left out or doubled, or with some of its bytes changed."""
    kind = rng.choice(["line", "line", "line", "byte", "without", "doubled", "cut"])
    lines, at = text.split(b"\n"), rng.randrange(text.count(b"\n") + 1)
    if kind == "line":
        lines.insert(rng.choice([at, len(lines)]), rng.choice(BAD_LINES + GOOD_LINES).encode())
    elif kind == "without":
        del lines[at]
    elif kind == "doubled":
        lines.append(lines[at])
    elif kind == "cut":
        return text[: rng.randint(0, len(text))]
    else:
        places = [rng.randrange(len(text)) for _ in range(rng.randint(1, 3)) if text]
        changed = bytearray(text)
        for place in places:
            changed[place] = rng.choice(b"vf0123456789-+./# \t\n\r\\e\x00\xff")
        return bytes(changed)
    return b"\n".join(lines)


def random_text(rng: Random, mesh: Mesh, digits: int) -> bytes:
    text = canonical_text(mesh, digits) if rng.random() < 0.4 else loose_text(rng, mesh, digits)
    return damaged_text(rng, text) if rng.random() < 0.4 else text


def random_run(rng: Random, mesh: Mesh) -> List[Collapse]:
    """Legal collapses in any order, each to its own place, so records hang together otherwise than
    those of a builder."""
    surface, log = surface_of(mesh), []
    for _ in range(rng.choice([0, 3, 10, 30, 30, 100])):
        pairs = pairs_of(surface.faces)
        for a, b in rng.sample(pairs, min(len(pairs), 6)):
            place = best_place(surface, a, b)[1]
            if is_legal(surface, a, b, place):
                surface, entry = collapsed(surface, a, b, place)
                log.append(entry)
                break
    return log


def random_hierarchy(rng: Random, mesh: Mesh) -> Hierarchy:
    is_built = rng.random() < 0.3
    log = run_to(mesh, rng.choice([0, 0, 7])) if is_built else random_run(rng, mesh)
    return hierarchy_of_run(mesh, log)


def damaged_stream(rng: Random, stream: bytes) -> bytes:
    """A stream with some words changed, two words swapped, cut off, or with bytes behind it."""
    kind = rng.choice(["word"] * 4 + ["near"] * 3 + ["header", "swap", "cut", "more", "byte"])
    changed, words = bytearray(stream), len(stream) // 4
    at = 4 * rng.randrange(1, min(words, 7) if kind == "header" else words)
    [old] = struct.unpack_from("<I", stream, at)
    if kind in ("word", "header"):
        new = rng.choice([0, 1, 2, 3, rng.randrange(40), 32_768, 2**20 + 1, 2**31, 2**32 - 1])
        struct.pack_into("<I", changed, at, new)
    elif kind == "near":
        struct.pack_into("<I", changed, at, (old + rng.choice([-3, -2, -1, 1, 2, 3])) % 2**32)
    elif kind == "swap":
        other = 4 * rng.randrange(1, words)
        changed[at : at + 4] = stream[other : other + 4]
        changed[other : other + 4] = stream[at : at + 4]
    elif kind == "cut":
        return stream[: rng.randint(0, len(stream))]
    elif kind == "more":
        return stream + rng.choice([b"\x00", b"\n", b"w\n", b"q\nx"])
    else:
        changed[rng.randrange(len(stream))] = rng.randrange(256)
    return bytes(changed)


def bent_face(rng: Random, face: NewFace, before: int, faces: int) -> NewFace:
    """A new face with another neighbour, turned corners, another corner, or another number."""
    kinds = ["first", "first", "second", "second", "swapped", "turned", "mirrored", "moved"]
    kind = rng.choice(kinds + ["input"])
    near = [max(0, 3 * before + rng.randint(-3, 5)) for _ in range(3)]
    side = rng.choice([None, rng.randrange(3 * faces + 2), *near])
    a, b, c = face.corners
    if kind == "first":
        return face._replace(first=side)
    if kind == "second":
        return face._replace(second=side)
    if kind == "swapped":
        return face._replace(first=face.second, second=face.first)
    if kind == "input":
        return face._replace(input=faces + rng.randint(0, 2))
    if kind == "moved":
        return face._replace(corners=(a, b, rng.randrange(faces)), first=None, second=None)
    return face._replace(corners=(b, c, a) if kind == "turned" else (c, b, a))


def bent(rng: Random, h: Hierarchy) -> Hierarchy:
    """The hierarchy with a record that has other faces or tells of other neighbours."""
    other, k = copy(h), rng.randrange(len(h.records))
    record, kind = h.records[k], rng.choice(["left", "right", "swapped", "width", "s"])
    before, faces = h.faces_of(k)[0], len(h.faces)
    if kind == "swapped":
        record = record._replace(left=record.right, right=record.left)
    elif kind == "s":
        record = record._replace(s=rng.randrange(len(h.nodes)))
    elif kind == "width":
        record = record._replace(width=record.width + rng.choice([-1, 1]))
    elif kind == "left" and record.left is not None:
        record = record._replace(left=bent_face(rng, record.left, before, faces))
    elif record.right is not None:
        record = record._replace(right=bent_face(rng, record.right, before, faces))
    other.records = h.records[:k] + [record] + h.records[k + 1 :]
    return other


def random_counts(rng: Random, stream: bytes) -> bytes:
    """A stream with other counts, of which the records are often right."""
    at = 8 if stream[4] == 1 else 12
    leaves, roots, bases, records = struct.unpack_from("<4I", stream, at)
    leaves, roots = rng.choice([leaves, 0, 2**20, 2**20 + 1]), rng.choice([roots, 0, 1, leaves])
    bases = rng.choice([bases, 0, 2**20, 2**20 + 1])
    records = rng.choice([records, max(0, leaves - roots), max(0, leaves - roots)])
    return stream[:at] + struct.pack("<4I", leaves, roots, bases, records) + stream[at + 16 :]


def random_stream(rng: Random, mesh: Mesh) -> Tuple[Hierarchy, bytes]:
    """The stream of a mesh, or seldom one that no builder writes."""
    if rng.random() < 0.03:
        stream = rng.choice([JOINED_SLIT, OPEN_SLIT, TWO_FANS])
        return read_stream(stream).hierarchy, stream
    h = random_hierarchy(rng, mesh)
    return h, stream_text(h, random_digits(rng))


def bad_stream(rng: Random, h: Hierarchy, stream: bytes) -> bytes:
    """A stream that is damaged in some way, which may leave it valid."""
    kind = rng.choice(["bent", "bent", "bent", "damaged", "damaged", "damaged", "twice", "counts"])
    if len(stream) <= 28:
        return stream
    if kind == "bent" and h.records:
        return stream_text(bent(rng, h), random_digits(rng))
    if kind == "counts" and rng.random() < 0.3:
        return random_counts(rng, stream)
    stream = damaged_stream(rng, stream)
    return damaged_stream(rng, stream) if kind == "twice" and len(stream) > 8 else stream


def plane_fields(rng: Random, reach: int) -> List[int]:
    normal = [rng.choice([0, 1, -1, rng.randint(-32_767, 32_767)]) for _ in range(3)]
    size = rng.choice([0, reach, reach * 100, 4_398_046_511_104 // 2])
    return normal + [rng.randint(-size, size)]


def view_line(rng: Random, h: Hierarchy) -> str:
    """A view from near the mesh, from far away or from within it."""
    places = [node.place for node in h.nodes] or [(0, 0, 0)]
    reach = 1 + max(abs(c) for place in places for c in place)
    around = rng.choice([1, reach // 4 + 1, reach, 4 * reach, 100 * reach, 16_000_000])
    off = [rng.randint(-around, around) for _ in range(3)]
    if rng.random() < 0.3:
        off[:2] = 0, 0  # from above or below: a sheet has no outline then
    eye = [max(-16_777_215, min(16_777_215, c + d)) for c, d in zip(rng.choice(places), off)]
    focal, tol = rng.choice([0, 1, 100, 1000, 65_535]), rng.choice([0, 1, 5, 20, 100, 65_535])
    fields = eye + [focal, tol]
    if rng.random() < 0.4:
        fields.append(rng.choice([0, tol // 20, rng.randint(0, tol)]))
    word = "v" if len(fields) == 5 else "vs"
    for _ in range(rng.choice([0, 0, 0, 1, 1, 2, 6])):
        fields += plane_fields(rng, reach)
    return " ".join([word, *map(str, fields)])


def ray_line(rng: Random, h: Hierarchy) -> str:
    """A ray towards a place of the mesh, or anywhere."""
    places = [node.place for node in h.nodes] or [(0, 0, 0)]
    target = rng.choice(places)
    way = [rng.choice([0, 1, -1, rng.randint(-300, 300)]) for _ in range(3)]
    if not any(way):
        way[rng.randrange(3)] = 1
    back = rng.choice([0, 1, 10, 100, 40_000])
    blur = rng.choice([0, 0, 1, 10])
    origin = [c - back * d + rng.randint(-blur, blur) for c, d in zip(target, way)]
    clamped = [max(-16_777_215, min(16_777_215, c)) for c in origin]
    return " ".join(["p", *map(str, clamped + way)])


def live_line(rng: Random, h: Hierarchy) -> str:
    """A line that `live` has and `view` hasn't."""
    budget = rng.choice([0, 1, 2, 5, len(h.records), 4_294_967_295])
    by_deviation = view_line(rng, h).replace("v", "vd", 1)
    return rng.choice(["d", "d", "l", f"b {budget}", by_deviation, by_deviation])


def script_line(rng: Random, h: Hierarchy) -> str:
    count = len(h.records)
    kind = rng.choice("sssssccccccvvvvwmtkggppp")
    if kind in "sc" and count:
        return f"{kind} {rng.randrange(count)}"
    if kind == "v":
        return view_line(rng, h)
    if kind == "g":
        parts = rng.choice([1, 2, 3, 10, 65_535])
        return f"g {rng.randint(0, parts)} {parts}"
    if kind == "p":
        return ray_line(rng, h)
    return kind if kind in "wmtk" else "m"


def random_script(rng: Random, h: Hierarchy, is_live: bool = False) -> bytes:
    """Lines of all kinds; many scripts begin with all records split, some have a bad line. Of the
    lines of `live` alone a script has many where it is one, and else hardly any."""
    every = range(len(h.records))
    lines = [f"s {k}" for k in every] if rng.random() < 0.4 else []
    if lines and rng.random() < 0.3:
        some = rng.sample(every, min(len(every), 8))
        lines += ["k"] + [f"c {k}" for k in sorted(some, reverse=rng.random() < 0.7)] + ["g 1 2"]
    for _ in range(60 if rng.random() < 0.03 else rng.randint(1, 14)):
        has_live_line = rng.random() < (0.35 if is_live else 0.004)
        lines.append((live_line if has_live_line else script_line)(rng, h))
    lines += rng.choice([[], ["w"], ["w", "m", "t"], ["q"], ["w", "q", "not read"]])
    if rng.random() < 0.15:
        bad = rng.choice(BAD_SCRIPT_LINES + [f"s {len(h.records)}"])
        lines.insert(rng.randint(0, len(lines)), bad)
    return "\n".join(lines).encode() + (b"\n" if rng.random() < 0.85 else b"")
