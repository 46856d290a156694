"""Hollows are shaded darker than ridges: what is found of a mesh, and what is drawn."""
from math import exp

from viewer.main import programs_of
from viewer.model import Model, model_of

from .common import program
from .pages import Page

CELLS, STEP, DEEP, WIDE = 20, 100, 600, 300
FOUND = """Promise.all(['hierarchy', 'hollows', 'surface'].map((name) => import(`./${name}.js`)))
  .then(([{ readHierarchy }, { hollowsOf }, { Surface }]) => {
    const hierarchy = readHierarchy(Uint8Array.from(BYTES).buffer), { low, high } = hierarchy;
    const hollows = hollowsOf(new Surface(hierarchy)), { leafNodes, places } = hierarchy;
    const middle = (axis) => (low[axis] + high[axis]) / 2;
    return [...leafNodes].map((node) => [
      Math.hypot(...[0, 1].map((axis) => places[3 * node + axis] - middle(axis))), hollows[node],
    ]);
  })"""
# The hollows of the faces that are drawn, three bytes each in one number.
WORDS = """(({ faceCount, textures: { bends } }) =>
  Array.from({ length: faceCount }, (_, i) => bends.data[4 * i + 3])
)(viewer.scene.renderer.meshes.get('NAME'))"""
LEVEL = 0x808080


def pit() -> bytes:
    """Level ground with a round pit in its middle, as an OBJ text."""
    at = range(CELLS + 1)
    lines = []
    for row in at:
        for column in at:
            x, y = STEP * (column - CELLS // 2), STEP * (row - CELLS // 2)
            lines.append(f"v {x} {y} {round(-DEEP * exp(-(x * x + y * y) / WIDE ** 2))}")
    for row in range(CELLS):
        for column in range(CELLS):
            a = row * (CELLS + 1) + column + 1
            b = a + CELLS + 1
            lines += [f"f {a} {a + 1} {b + 1}", f"f {a} {b + 1} {b}"]
    return "\n".join([*lines, ""]).encode()


class Hollows(Page):
    def ground(self) -> Model:
        return model_of(self.written("pit.obj", pit()), programs_of(program()))

    def test_a_pit_is_hollow_and_its_rim_is_raised(self) -> None:
        found = self.value(FOUND.replace("BYTES", str(list(self.ground().stream))))
        near = [hollow for away, hollow in found if away < STEP]
        rim = [hollow for away, hollow in found if 1.65 * WIDE < away < 2.1 * WIDE]
        far = [hollow for away, hollow in found if away > 3.2 * WIDE]
        self.assertLess(max(near), 100)
        self.assertGreater(min(rim), max(far) + 3)
        self.assertLess(max(far) - min(far), 8)

    def words(self, name: str = "front") -> "list[int]":
        words: "list[int]" = self.value(WORDS.replace("NAME", name))
        return words

    def test_they_are_told_of_what_is_drawn_then_and_later(self) -> None:
        self.assertEqual(set(self.words()), {LEVEL})
        self.page.key("v")
        self.page.until("viewer.knowsHollows")
        self.settle()
        self.slide("tolerance", 4)
        self.settle()
        told = [word for word in self.words() if word != LEVEL]
        self.assertGreater(len(told), 0.9 * self.faces())
        self.page.key("b")
        self.page.until("viewer.inputState === 'shown'")
        self.assertGreater(len(set(self.words("input"))), 1000)
        seen = [self.value("viewer.draw(performance.now()), viewer.scene.canvas.toDataURL()")]
        self.page.key("v")
        seen.append(self.value("viewer.draw(performance.now()), viewer.scene.canvas.toDataURL()"))
        self.assertNotEqual(*seen)
        self.assertEqual(self.page.errors(), [])
