"""Draws a vertex split with its faces, sides and neighbours: python3 docs/pictures/split.py"""
from pathlib import Path
from typing import Dict, List, Sequence

from drawn import INK, PALE, Drawing, Place, between, middle

TOP = Path(__file__).resolve().parent
LEFT, RIGHT, BESIDE, FAR = "#f3d9a4", "#bcd7ee", "#e6ecdf", "#f7f5ef"

# The vertices round the two nodes, and what stands where the record is collapsed.
ROUND: Dict[str, Place] = {
    "l": (70, 235), "r": (370, 235), "a": (120, 100), "b": (320, 100),
    "c": (120, 370), "d": (320, 370), "top": (220, 50), "bottom": (220, 420),
}
PAIR: Dict[str, Place] = {"t": (220, 300), "u": (220, 170)}
ONE: Dict[str, Place] = {"s": (220, 235)}


def faces_round(upper: str, lower: str) -> List[Sequence[str]]:
    """The faces that a split leaves as they are, but for their corner at the node."""
    return [
        (upper, "top", "a"), (upper, "b", "top"), (upper, "a", "l"), (upper, "r", "b"),
        (lower, "l", "c"), (lower, "d", "r"), (lower, "c", "bottom"), (lower, "bottom", "d"),
    ]


def moved(places: Dict[str, Place], by: float) -> Dict[str, Place]:
    return {name: (x + by, y) for name, (x, y) in places.items()}


def draw_faces(d: Drawing, at: Dict[str, Place], faces: List[Sequence[str]], beside: int) -> None:
    """The faces beside the pair, of which the third to the sixth are neighbours."""
    for number, face in enumerate(faces):
        is_beside = beside and 2 <= number < 6
        d.polygon([at[name] for name in face], BESIDE if is_beside else FAR, PALE)


def draw_nodes(d: Drawing, at: Dict[str, Place], names: str) -> None:
    for name in names:
        d.dot(at[name], 13, "#ffffff")
        d.words(at[name], name, 15)


def side(d: Drawing, at: Dict[str, Place], face: str, one: str, two: str, text: str) -> None:
    """A side, drawn a little inside its face, with its name."""
    inside = middle([at[name] for name in face])
    start, end = (between(at[name], inside, 0.17) for name in (one, two))
    d.way([between(start, end, 0.12), between(start, end, 0.88)], INK, 1.5)
    d.words(between(between(start, end, 0.5), inside, 0.38), text, 11)


def main() -> None:
    d = Drawing(900, 520)
    d.words((220, 22), "record k is collapsed", 15)
    d.words((680, 22), "record k is split", 15)
    before = {**ROUND, **ONE}
    draw_faces(d, before, faces_round("s", "s"), 0)
    draw_nodes(d, before, "s")
    d.way([(415, 222), (480, 222)], INK, 2)
    d.words((447, 206), "split", 13)
    d.way([(480, 248), (415, 248)], INK, 2)
    d.words((447, 266), "collapse", 13)
    after = moved({**ROUND, **PAIR}, 460)
    draw_faces(d, after, faces_round("u", "t"), 1)
    d.polygon([after[name] for name in "tlu"], LEFT)
    d.polygon([after[name] for name in "tur"], RIGHT)
    side(d, after, "tlu", "t", "u", "inner")
    side(d, after, "tlu", "u", "l", "first")
    side(d, after, "tlu", "l", "t", "second")
    side(d, after, "tur", "u", "t", "inner")
    side(d, after, "tur", "t", "r", "first")
    side(d, after, "tur", "r", "u", "second")
    draw_nodes(d, after, "tulr")
    for face, text in (("ula", "1"), ("tcl", "2"), ("trd", "3"), ("ubr", "4")):
        d.words(middle([after[name] for name in face]), text, 17, "#4a6a3a")
    told = (
        "The leaves of s are those of t and then those of u. The inner side of the left face "
        "runs from t to u, that of the right face",
        "from u to t; the first and the second outer side follow it. The faces 1 to 4 have the "
        "neighbours that the record names, in",
        "its order: beyond the outer sides of the left face and then of the right one. Where a "
        "side is on the border there is none.",
    )
    for number, line in enumerate(told):
        d.words((450, 455 + 22 * number), line, 13)
    (TOP / "split.svg").write_text(d.text(), encoding="utf-8")


if __name__ == "__main__":
    main()
