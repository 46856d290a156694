"""What is told of the mesh that a front shows: frames, geomorphs, changes, levels of detail,
measures and strips."""
from typing import List, Optional, Tuple

from .bounds import error_of
from .deviation import deviation_of
from .front import Front, Shown, ancestor
from .hierarchy import Hierarchy
from .mesh import Point, face_of, following


def line(*fields: object) -> str:
    return " ".join(map(str, fields)) + "\n"


def mesh_lines(shown: Shown, places: List[Point]) -> str:
    """The lines of the active nodes, at these places, and of the kept faces, and `end`."""
    points = [line("v", node, *place) for node, place in zip(shown.nodes, places)]
    faces = [line("f", face, *shown.faces[face]) for face in shown.kept]
    return "".join(points + faces) + line("end")


def frame_text(h: Hierarchy, split: Front) -> str:
    shown = Shown(h, split)
    places = [h.nodes[node].place for node in shown.nodes]
    return line("frame", len(shown.nodes), len(shown.kept)) + mesh_lines(shown, places)


def between(p: Point, q: Point, a: int, b: int) -> Point:
    """The place at a/b of the way from p to q, each coordinate rounded down."""
    x, y, z = [((b - a) * c + a * d) // b for c, d in zip(p, q)]
    return x, y, z


def morph_text(h: Hierarchy, split: Front, marked: Front, a: int, b: int) -> str:
    """The mesh shown at a/b of the way from the marked front, from where each node's elder is to
    where the node is. All marked records have to be split."""
    unsplit = set(marked) - set(split)
    if unsplit:
        return line("not finer", min(unsplit))
    shown = Shown(h, split)
    nodes = [h.nodes[node] for node in shown.nodes]
    elders = [h.nodes[ancestor(h, marked, node)] for node in shown.nodes]
    places = [between(elder.place, node.place, a, b) for elder, node in zip(elders, nodes)]
    return line("morph", len(shown.nodes), len(shown.kept), a, b) + mesh_lines(shown, places)


def change_text(h: Hierarchy, marked: Front, split: Front) -> str:
    """What changes from the marked front: the faces and nodes that are gone, the nodes that are new
    and the faces that are new or have another corner."""
    before, now = Shown(h, marked), Shown(h, split)
    told = {face: before.faces[face] for face in before.kept}
    gone_faces = [line("-f", face) for face in before.kept if face not in now.kept]
    gone_nodes = [line("-v", node) for node in before.nodes if node not in now.nodes]
    new = [node for node in now.nodes if node not in before.nodes]
    nodes = [line("v", node, *h.nodes[node].place) for node in new]
    put = [face for face in now.kept if told.get(face) != now.faces[face]]
    faces = [line("f", face, *now.faces[face]) for face in put]
    first = line("change", len(now.nodes), len(now.kept))
    return "".join([first, *gone_faces, *gone_nodes, *nodes, *faces, line("end")])


def level_text(h: Hierarchy, split: Front) -> str:
    """How many nodes and faces are shown, how many records are split, and the greatest error and
    the greatest deviation of a node that is shown."""
    shown = Shown(h, split)
    error = max((error_of(h, node) for node in shown.nodes), default=0)
    deviation = max((deviation_of(h, node) for node in shown.nodes), default=0)
    return line("level", len(shown.nodes), len(shown.kept), len(split), error, deviation)


def next_border(shown: Shown, side: int) -> int:
    """The border side after one: from the next side of its face, and from that after each side that
    stands beyond, up to a side beyond which none stands."""
    side = following(side)
    other = shown.beyond(side)
    while other is not None:
        side = following(other)
        other = shown.beyond(side)
    return side


def shape_text(h: Hierarchy, split: Front) -> str:
    """How many nodes, edges, faces and border loops the mesh shown has, and its Euler number."""
    shown = Shown(h, split)
    own = [3 * face + i for face in shown.kept for i in range(3)]
    border = [side for side in own if shown.beyond(side) is None]
    edges = len(border) + (len(own) - len(border)) // 2
    loops, left = 0, set(border)
    while left:
        loops += 1
        side = min(left)
        while side in left:
            left.remove(side)
            side = next_border(shown, side)
    euler = len(shown.nodes) - edges + len(shown.kept)
    return line("shape", len(shown.nodes), edges, len(shown.kept), "loops", loops, "euler", euler)


def free_beyond(shown: Shown, free: List[int], side: int) -> Optional[int]:
    """The side of a free face that stands beyond a side."""
    other = shown.beyond(side)
    return other if other is not None and face_of(other) in free else None


def one_strip(shown: Shown, free: List[int]) -> Tuple[List[int], List[int]]:
    """The faces and the nodes of the strip that begins at the least free face."""
    face, others = free[0], free[1:]
    own = [3 * face, 3 * face + 1, 3 * face + 2]
    leading = [side for side in own if free_beyond(shown, others, following(side)) is not None]
    begin = leading[0] if leading else own[0]
    exit_side = following(begin)
    faces, nodes = [face], [*shown.ends(begin), shown.ends(exit_side)[1]]
    entry = free_beyond(shown, others, exit_side)
    while entry is not None:
        others = [other for other in others if other != face_of(entry)]
        is_odd = len(faces) % 2 == 1
        faces.append(face_of(entry))
        nodes.append(shown.ends(following(entry))[1])
        exit_side = following(following(entry)) if is_odd else following(entry)
        entry = free_beyond(shown, others, exit_side)
    return faces, nodes


def strips_text(h: Hierarchy, split: Front) -> str:
    """The strips, one after the other, while a kept face is free; and how many there are."""
    shown = Shown(h, split)
    free, lines = list(shown.kept), []
    while free:
        faces, nodes = one_strip(shown, free)
        free = [face for face in free if face not in faces]
        lines.append(line("t", *nodes))
    return "".join(lines) + line("strips", len(lines))
