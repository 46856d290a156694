"""Draws the ways of the bytes and the crates in layers: python3 docs/pictures/crates.py

The layers are those of crates.txt: each crate stands on crates of the rows below it alone.
"""
from pathlib import Path
from typing import Dict, List, Tuple

from drawn import INK, PALE, Drawing

TOP = Path(__file__).resolve().parent
WIDTH = 1060
# In a way, between two crates, and for one.
GAP, BOX = 63.0, 87.0
PAPER = "#ffffff"

# A way: its name, its color, what comes in, and crate by crate what each makes of it.
Way = Tuple[str, str, str, List[Tuple[str, str]]]
WAYS: List[Way] = [
    ("build", "#b0651a", "OBJ text", [
        ("obj_lines", "lines"), ("obj_read", "mesh"), ("pm_twins", "surface"),
        ("pm_simplify", "collapses"), ("pm_number", "hierarchy"), ("pm_format", "stream text"),
    ]),
    ("view", "#2f6da8", "stream text", [
        ("pm_format", "hierarchy"), ("pm_load", "base front"), ("pm_session", "lines"),
        ("pm_refine", "moves"), ("pm_front", "front"), ("pm_frame", "frame text"),
    ]),
    ("prepare", "#4f7f3a", "any file", [
        ("mesh_scan", "format"), ("obj_scan", "triangles"), ("obj_prepare", "positions"),
        ("pm_turn", "flipped faces"), ("pm_fans", "surface"), ("obj_write", "OBJ text"),
    ]),
]


def stands_on() -> Dict[str, List[str]]:
    """For each crate of crates.txt those that it stands on, without the kit's."""
    lines = (TOP.parent.parent / "crates.txt").read_text(encoding="utf-8").splitlines()
    told = [line.split("#")[0].split(":") for line in lines if ":" in line.split("#")[0]]
    names = {name.split()[0] for name, _ in told}
    return {name.split()[0]: [it for it in on.split() if it in names] for name, on in told}


def layers_of(on: Dict[str, List[str]]) -> List[List[str]]:
    """The crates by layer, the lowest first."""
    height: Dict[str, int] = {}

    def of(name: str) -> int:
        if name not in height:
            height[name] = 1 + max((of(it) for it in on[name]), default=-1)
        return height[name]

    for name in on:
        of(name)
    return [[it for it in on if height[it] == at] for at in range(max(height.values()) + 1)]


def draw_way(d: Drawing, y: float, way: Way) -> None:
    name, color, first, steps = way
    d.words((14, y), name, 15, color, "start", ' font-weight="bold"')
    x, passed = 82.0, first
    for crate, made in steps:
        d.way([(x, y), (x + GAP, y)], color, 1.5)
        d.words((x + GAP / 2 - 3, y - 12), passed, 10)
        d.box(x + GAP, y - 14, BOX, 28, PAPER)
        d.words((x + GAP + BOX / 2, y), crate, 12)
        x, passed = x + GAP + BOX, made
    d.way([(x, y), (x + GAP, y)], color, 1.5)
    d.words((x + GAP / 2 - 3, y - 12), passed, 10)


def draw_layer(d: Drawing, y: float, crates: List[str]) -> None:
    step = min(123.0, (WIDTH - 20) / len(crates))
    start = (WIDTH - step * len(crates)) / 2
    for number, crate in enumerate(crates):
        x = start + number * step
        d.box(x + 3, y - 15, step - 6, 30, PAPER)
        d.words((x + step / 2, y - 2), crate, 12)
        colors = [color for _, color, _, steps in WAYS if crate in [it for it, _ in steps]]
        for at, color in enumerate(colors):
            d.dot((x + step / 2 + 9 * at - 4.5 * (len(colors) - 1), y + 9), 3, color)


def main() -> None:
    layers = layers_of(stands_on())
    d = Drawing(WIDTH, 210 + 40 * len(layers))
    for number, way in enumerate(WAYS):
        draw_way(d, 40 + 50 * number, way)
    d.words((WIDTH / 2, 176), "All crates: each stands on crates of the rows below alone", 13, INK)
    for number, crates in enumerate(layers):
        y = 210 + 40 * (len(layers) - 1 - number)
        if number:
            d.parts.append(
                f'<line x1="10" x2="{WIDTH - 10}" y1="{y + 20}" y2="{y + 20}" stroke="{PALE}" '
                'stroke-width="0.5" stroke-dasharray="2 4"/>'
            )
        draw_layer(d, y, crates)
    (TOP / "crates.svg").write_text(d.text(), encoding="utf-8")


if __name__ == "__main__":
    main()
