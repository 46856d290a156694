"""Which axis points up: the guess, and what is known of a file that was opened before."""
import itertools
from pathlib import Path
from typing import Tuple

from viewer.main import programs_of
from viewer.model import Model, model_of

from .common import program
from .pages import Page

SIDES = ((0, 2, 3, 1), (4, 5, 7, 6), (0, 1, 5, 4), (2, 6, 7, 3), (0, 4, 6, 2), (1, 3, 7, 5))
GUESSED = """Promise.all([import('./hierarchy.js'), import('./shape.js')])
  .then(([{ readHierarchy }, { shapeOf }]) =>
    shapeOf(readHierarchy(Uint8Array.from(BYTES).buffer)).upright)"""


def box(sizes: Tuple[int, int, int]) -> bytes:
    """A box as an OBJ text; its vertices count up in binary."""
    corners = itertools.product(*((0, size) for size in sizes))
    lines = ["v {} {} {}".format(*corner) for corner in corners]
    lines += ["f " + " ".join(str(corner + 1) for corner in side) for side in SIDES]
    return "\n".join([*lines, ""]).encode()


class Upright(Page):
    def of_box(self, *sizes: int) -> Model:
        path: Path = self.written("box.obj", box((sizes[0], sizes[1], sizes[2])))
        return model_of(path, programs_of(program()))

    def test_a_part_lies_flat(self) -> None:
        cases = {(90, 80, 40): "z", (90, 40, 80): "y", (90, 90, 90): "y", (30, 40, 90): "z"}
        for sizes, upright in cases.items():
            stream = list(self.of_box(*sizes).stream)
            guessed = self.value(GUESSED.replace("BYTES", str(stream)))
            self.assertEqual(guessed, upright, sizes)

    def test_the_axis_that_was_chosen_is_that_of_the_next_look(self) -> None:
        upright = "viewer.set.upright"
        guessed = self.value(upright)
        self.page.key("y")
        self.settle()
        chosen = self.value(upright)
        self.assertNotEqual(chosen, guessed)
        self.page.go("about:blank")
        self.page.go(f"{self.server.address}?sharpness=0.2")
        self.page.until(self.settled)
        self.assertEqual(self.value(upright), chosen)
        self.look_at(self.of_box(90, 80, 40))
        self.assertEqual(self.value(upright), "z")
