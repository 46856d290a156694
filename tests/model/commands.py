"""What each command of `vdpm` answers, and `simplify`, by its words and its input."""
import re
from typing import List, Optional, Set, Type

from .faults import Answer, Fault, failed, not_understood
from .fine import FINE
from .front import Shown, judge_hierarchy
from .hierarchy import Hierarchy, hierarchy_of_run, input_mesh
from .mesh import Corners, Mesh, Point, canonical_text
from .obj import given_surface_of_text, surface_of_text
from .run import border_of, run_to
from .script import LiveSession, Session, serve
from .stream import Stream, read_stream, stream_text
from .views import View, after, plan, target_of

TRAILING = 29
GREATEST_WORD = 2**32 - 1
LARGEST_GRID = 256
SESSIONS = {"view": Session, "live": LiveSession}


def number_of_word(word: str, least: int = 0, most: int = GREATEST_WORD) -> Optional[int]:
    """A decimal number in a range without leading zeros."""
    if not re.fullmatch("0|[1-9][0-9]*", word) or not least <= int(word) <= most:
        return None
    return int(word)


def canon(text: bytes, digits: int) -> Answer:
    return Answer(0, canonical_text(surface_of_text(text, digits), digits), "")


def build(text: bytes, target: int, digits: int) -> Answer:
    mesh = surface_of_text(text, digits)
    return Answer(0, stream_text(hierarchy_of_run(mesh, run_to(mesh, target)), digits), "")


def valid_stream(data: bytes) -> Stream:
    """The valid hierarchy that bytes begin with, and what follows."""
    stream = read_stream(data)
    judge_hierarchy(stream.hierarchy)
    return stream


def whole_stream(data: bytes) -> Stream:
    stream = valid_stream(data)
    if stream.rest:
        raise Fault(TRAILING)
    return stream


def expand(data: bytes) -> Answer:
    stream = whole_stream(data)
    return Answer(0, canonical_text(input_mesh(stream.hierarchy), stream.digits), "")


def check(data: bytes) -> Answer:
    h = whole_stream(data).hierarchy
    leaves = sum(root.width for root in h.roots)
    line = f"leaves {leaves} roots {len(h.roots)} base {len(h.bases)} records {len(h.records)}"
    return Answer(0, f"{line} faces {len(h.faces)}\n".encode(), "")


def view(data: bytes, budget: int, kind: Type[Session]) -> Answer:
    stream = valid_stream(data)
    served = serve(kind(stream.hierarchy, budget), stream.rest)
    replies = served.replies.encode()
    return Answer(0, replies, "") if served.fault is None else failed("vdpm", served.fault, replies)


def grid_point(row: int, column: int) -> Point:
    height = (7 * column * column + 11 * column * row + 13 * row * row) % 97
    return 100 * column, 100 * row, height


def cell_faces(n: int, row: int, column: int) -> List[Corners]:
    low, high = row * (n + 1) + column, (row + 1) * (n + 1) + column
    return [(low, low + 1, high + 1), (low, high + 1, high)]


def grid(n: int) -> Mesh:
    """n times n cells of two faces each, row by row."""
    points = [grid_point(row, column) for row in range(n + 1) for column in range(n + 1)]
    cells = [(row, column) for row in range(n) for column in range(n)]
    return Mesh(points, [face for cell in cells for face in cell_faces(n, *cell)])


def view_lines(h: Hierarchy, n: int) -> List[str]:
    """The middle view, the corner view and the middle view again, from the front before."""
    middle = View((50 * n, 50 * n, 2000), 1000, 40, 40, [])
    corner = View((0, 0, 500), 1000, 20, 20, [((1, 0, 0), -50 * n)])
    split: Set[int] = set()
    lines = []
    for i, one in enumerate((middle, corner, middle)):
        moves = plan(split, target_of(h, one))
        split = after(split, moves)
        shown = Shown(h, split)
        counts = f"active {len(shown.nodes)} kept {len(shown.kept)}"
        lines.append(f"view {i} settled {len(moves)} {counts}")
    return lines


def demo(n: int) -> Answer:
    """The summary of a grid. It takes long where n is above 10 or so."""
    mesh = grid(n)
    h = hierarchy_of_run(mesh, run_to(mesh, 0))
    size = len(stream_text(h, 0))
    lines = [
        f"grid {n} vertices {len(mesh.points)} faces {len(mesh.faces)}",
        f"roots {len(h.roots)} records {len(h.records)} base {len(h.bases)} bytes {size}",
    ]
    return Answer(0, "".join(text + "\n" for text in lines + view_lines(h, n)).encode(), "")


def asked(words: List[str], data: bytes) -> Optional[Answer]:
    """The answer where the words are one of the forms."""
    if words == ["expand"]:
        return expand(data)
    if words == ["check"]:
        return check(data)
    if len(words) == 2 and words[0] in SESSIONS:
        budget = number_of_word(words[1])
        return None if budget is None else view(data, budget, SESSIONS[words[0]])
    if len(words) == 2 and words[0] == "demo":
        size = number_of_word(words[1], 1, LARGEST_GRID)
        return None if size is None else demo(size)
    return asked_of_text(words, data)


def asked_of_text(words: List[str], data: bytes) -> Optional[Answer]:
    """The same for `canon` and `build` with their numbers."""
    digits: Optional[int] = 0
    if words[-2:-1] == ["--digits"]:
        digits = number_of_word(words[-1], 0, 4)
        words = words[:-2]
        if words == ["build"]:
            return None
    target = number_of_word(words[1]) if len(words) == 2 else 0
    if digits is None or target is None:
        return None
    if words == ["canon"]:
        return canon(data, digits)
    if words[:1] == ["build"] and len(words) <= 2:
        return build(data, target, digits)
    return None


def answer(words: List[str], data: bytes) -> Answer:
    """The answer of a command, or that its words aren't understood."""
    try:
        return asked(words, data) or not_understood("vdpm")
    except Fault as fault:
        return failed("vdpm", fault)


def simplify(text: bytes, target: int, digits: int, keeps_border: bool) -> Answer:
    mesh = given_surface_of_text(text, digits)
    log = run_to(mesh, target, border_of(mesh) if keeps_border else set(), FINE)
    return Answer(0, stream_text(hierarchy_of_run(mesh, log), digits), "")


def simplify_asked(words: List[str], data: bytes) -> Optional[Answer]:
    """The answer where the words are of the form `[N] [--digits D] [--keep-border]`."""
    keeps_border = words[-1:] == ["--keep-border"]
    words = words[:-1] if keeps_border else words
    digits: Optional[int] = 0
    if words[-2:-1] == ["--digits"]:
        digits = number_of_word(words[-1], 0, 4)
        words = words[:-2]
    target = number_of_word(words[0]) if words else 0
    if len(words) > 1 or target is None or digits is None:
        return None
    return simplify(data, target, digits, keeps_border)


def simplify_answer(words: List[str], data: bytes) -> Answer:
    """The answer of `simplify`, or that its words aren't understood."""
    try:
        return simplify_asked(words, data) or not_understood("simplify")
    except Fault as fault:
        return failed("simplify", fault)
