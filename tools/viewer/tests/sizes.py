"""The window at the sizes of desks and of phones: nothing is cut, and nothing lies over another."""
from typing import Any, List

from viewer.main import programs_of
from viewer.model import model_of

from .common import model, program
from .pages import HEIGHT, WIDTH, Page
from .terrain import island

SIZES = ((1280, 800), (1920, 1080), (390, 844), (844, 390))
# What is seen and is cut: beyond the window or its box, or with a text that has no room.
CUT = """(() => {
  const wrong = [], seen = (e) => e.checkVisibility() && e.getClientRects().length > 0;
  const said = (e) => `${e.id || e.htmlFor || e.className || e.localName}: ${e.innerText}`;
  const inside = (e, box) => {
    const r = e.getBoundingClientRect();
    if (r.left < box.left - 1 || r.right > box.right + 1) wrong.push(`${said(e)} is beside`);
    if (r.top < box.top - 1 || r.bottom > box.bottom + 1) wrong.push(`${said(e)} is beyond`);
  };
  const all = (chosen) => [...document.querySelectorAll(chosen)].filter(seen);
  const screen = { left: 0, top: 0, right: innerWidth, bottom: innerHeight };
  const parts = "#bar button, #bar label, #bar summary, #name, #count, #drawer, .glass";
  for (const e of all(parts)) inside(e, screen);
  const { left, right } = drawer.getBoundingClientRect();
  for (const e of all("#drawer *")) inside(e, { left, right, top: -1e9, bottom: 1e9 });
  for (const e of all("#heights *")) inside(e, heights.getBoundingClientRect());
  for (const e of all("button, summary, label, legend, td, dt, dd, p, figcaption")) {
    if (e.scrollWidth > e.clientWidth + 1 && e.clientWidth > 0) wrong.push(`${said(e)} is cut`);
  }
  return wrong;
})()"""
# Two of what lies over the picture that share a place.
OVER = """(() => {
  const parts = ["bar", "tools", "drawer", "heights", "picked", "told", "mark"];
  const boxes = parts.map((name) => document.getElementById(name))
    .filter((e) => e.checkVisibility() && !(e.id === "tools" && bar.contains(e)
      && e.getBoundingClientRect().bottom <= bar.getBoundingClientRect().bottom + 1))
    .map((e) => [e.id, e.getBoundingClientRect()]);
  return boxes.flatMap(([one, a], i) => boxes.slice(i + 1)
    .filter(([, b]) => a.left < b.right - 1 && b.left < a.right - 1 && a.top < b.bottom - 1
      && b.top < a.bottom - 1).map(([other]) => `${one} and ${other}`));
})()"""


class Sizes(Page):
    def at(self, width: int, height: int) -> None:
        self.page.resize(width, height)
        self.page.until(f"innerWidth === {width} && innerHeight === {height} && {self.settled}")

    def wrong(self) -> List[Any]:
        return [self.value(CUT), self.value(OVER)]

    def test_nothing_is_cut(self) -> None:
        self.addCleanup(self.page.resize, WIDTH, HEIGHT)
        shown = model_of(island(self.folder(), "z"), programs_of(program()))
        for looked_at in (shown, model("asteroid.obj")):
            self.look_at(looked_at, drawn=0.1)
            self.value("document.getElementById('contours').click(), 0")
            for size in SIZES:
                self.at(*size)
                for _ in range(2):  # with the drawer, and without it
                    with self.subTest(size=size, name=looked_at.name):
                        self.assertEqual(self.wrong(), [[], []])
                    self.tick("unhide")
                    self.settle()

    def test_a_menu_and_cards_are_whole(self) -> None:
        self.addCleanup(self.page.resize, WIDTH, HEIGHT)
        for size in SIZES:
            self.at(*size)
            if size[0] <= 1000:
                self.tick("unhide")
            self.value("saves.open = true, 0")
            with self.subTest(size=size):
                self.assertEqual(self.value(CUT), [])
            self.value("saves.open = false, 0")
            if size[0] <= 1000:
                self.tick("unhide")
