"""A page in a real browser, for the tests that look at it."""
import atexit
import unittest
from functools import lru_cache
from typing import Any, Callable, List, Tuple

from browser import Browser, found
from frames import Frame, read_frames
from viewer.model import Model
from viewer.program import ALL_MOVES, Answer

from .common import Case, model

WIDTH, HEIGHT = 760, 480  # where the bar folds
COARSE = 12  # of the slider of tolerances


@lru_cache(maxsize=None)
def browser() -> Browser:
    """One browser for all tests: each loads a page of its own."""
    started = Browser(WIDTH, HEIGHT)
    atexit.register(started.close)
    return started


@unittest.skipUnless(found(), "no Chromium")
class Page(Case):
    """A page that looks at the asteroid, and what it got of the program."""

    settled = "globalThis.viewer && viewer.isSettled"

    def setUp(self) -> None:
        self.page = browser()
        self.page.scheme("dark")
        self.look_at(model("asteroid.obj"))

    def look_at(self, looked_at: Model, budget: int = ALL_MOVES, drawn: float = 0.2) -> None:
        """Loads the page of a model, and lets it be off by 8 pixels; so many are drawn for each, as
        it is done by software here."""
        self.server = self.served(looked_at, budget)
        self.answers: List[Answer] = []
        ask = self.server.showing.ask

        def noted(script: str) -> Answer:
            self.answers.append(ask(script))
            return self.answers[-1]

        setattr(self.server.showing, "ask", noted)
        self.page.begin(f"{self.server.address}?sharpness={drawn}")
        self.page.until(self.settled)
        self.slide("tolerance", COARSE)
        self.page.until(self.settled)

    def value(self, text: str) -> Any:
        return self.page.run(text)

    def text(self, name: str) -> str:
        return str(self.value(f"document.getElementById('{name}').textContent"))

    def faces(self) -> int:
        return int(self.value("viewer.shown.faceCount"))

    def asked(self) -> str:
        return str(self.value("viewer.views.asked"))

    def settle(self) -> None:
        self.page.until(self.settled)

    def slide(self, name: str, to: int) -> None:
        self.value(
            f"(() => {{ const s = document.getElementById('{name}'); s.value = {to};"
            " s.dispatchEvent(new Event('input', { bubbles: true })); })()"
        )

    def place_of(self, chosen: str) -> Tuple[float, float]:
        """The middle of an element, by its CSS selector, once it is scrolled to."""
        x, y = self.value(
            f"(() => {{ const e = document.querySelector({chosen!r});"
            " e.scrollIntoView({ block: 'center' }); const r = e.getBoundingClientRect();"
            " return [r.left + r.width / 2, r.top + r.height / 2]; })()"
        )
        return float(x), float(y)

    def tick(self, name: str) -> None:
        """Clicks on an element by its name, whether it is seen or not."""
        self.value(f"document.getElementById('{name}').click()")

    def moves(self, act: Callable[[], None]) -> None:
        """After the act another view is asked for, and shown."""
        before = self.asked()
        act()
        self.page.until(f"viewer.views.asked !== {before!r}")
        self.settle()

    def press(self, chosen: str) -> None:
        """Clicks with the mouse on what is seen of an element."""
        self.page.click(*self.place_of(chosen))

    def whole(self) -> Frame:
        """The front as the program shows it now."""
        text = self.server.showing.ask("w\n").text.decode()
        [frame] = read_frames(text.splitlines())
        return frame

    def choose(self, value: str) -> None:
        """Presses one of several choices."""
        self.value(f"document.querySelector('input[value={value}]').click()")
