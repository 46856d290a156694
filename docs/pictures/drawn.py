"""Lines, shapes and words of a drawing, as an SVG text."""
from html import escape
from math import hypot
from typing import List, Sequence, Tuple

Place = Tuple[float, float]

INK = "#303036"
PALE = "#8a8a92"


class Drawing:
    """What is drawn later lies above."""

    def __init__(self, width: int, height: int) -> None:
        self.size = (width, height)
        self.parts: List[str] = []

    def polygon(self, corners: Sequence[Place], fill: str, line: str = INK) -> None:
        points = " ".join(f"{x:.1f},{y:.1f}" for x, y in corners)
        self.parts.append(f'<polygon points="{points}" fill="{fill}" stroke="{line}"/>')

    def box(self, x: float, y: float, width: float, height: float, fill: str) -> None:
        shape = f'x="{x:.1f}" y="{y:.1f}" width="{width:.1f}" height="{height:.1f}" rx="4"'
        self.parts.append(f'<rect {shape} fill="{fill}" stroke="{PALE}"/>')

    def dot(self, at: Place, radius: float, fill: str) -> None:
        circle = f'cx="{at[0]:.1f}" cy="{at[1]:.1f}" r="{radius}"'
        self.parts.append(f'<circle {circle} fill="{fill}" stroke="{INK}"/>')

    def words(
        self, at: Place, text: str, size: int = 14, fill: str = INK, anchor: str = "middle",
        style: str = "",
    ) -> None:
        place = f'x="{at[0]:.1f}" y="{at[1] + size * 0.35:.1f}" font-size="{size}"'
        self.parts.append(
            f'<text {place} fill="{fill}" text-anchor="{anchor}"{style}>{escape(text)}</text>'
        )

    def way(self, places: Sequence[Place], color: str, width: float = 2, dash: str = "") -> None:
        """A line through places with a head at its end."""
        points = " ".join(f"{x:.1f},{y:.1f}" for x, y in places)
        dashes = f' stroke-dasharray="{dash}"' if dash else ""
        self.parts.append(
            f'<polyline points="{points}" fill="none" stroke="{color}" '
            f'stroke-width="{width}"{dashes}/>'
        )
        (ax, ay), (bx, by) = places[-2:]
        long = hypot(bx - ax, by - ay)
        x, y = (bx - ax) / long, (by - ay) / long
        head = 3.5 * width
        wide = head / 2
        wings = [(bx - head * x + s * wide * y, by - head * y - s * wide * x) for s in (1, -1)]
        corners = " ".join(f"{px:.1f},{py:.1f}" for px, py in [(bx, by), *wings])
        self.parts.append(f'<polygon points="{corners}" fill="{color}"/>')

    def text(self) -> str:
        width, height = self.size
        head = (
            f'<svg xmlns="http://www.w3.org/2000/svg" viewBox="0 0 {width} {height}" '
            f'width="{width}" height="{height}" font-family="sans-serif" stroke-linejoin="round">'
        )
        ground = f'<rect width="{width}" height="{height}" fill="#fdfcf9"/>'
        return "\n".join([head, ground, *self.parts, "</svg>"]) + "\n"


def between(a: Place, b: Place, share: float) -> Place:
    return (a[0] + share * (b[0] - a[0]), a[1] + share * (b[1] - a[1]))


def middle(corners: Sequence[Place]) -> Place:
    return (
        sum(x for x, _ in corners) / len(corners),
        sum(y for _, y in corners) / len(corners),
    )
