"""How far a model is on its way from its file: which steps are done, about how much of all, and
about how many seconds are left. No program tells that of itself. So what a step takes is guessed
from the number of faces, and each step that is over shows how fast this machine is."""
import threading
import time
from typing import Dict, List, NamedTuple, Optional


class Step(NamedTuple):
    """What is said of a step, and how many microseconds a face takes, by measurement."""

    said: str
    a_face: float


STEPS = {
    "reading": Step("Reading the file", 1.3),
    "preparing": Step("Preparing the mesh", 3.0),
    "building": Step("Simplifying", 10.0),
    "checking": Step("Checking", 0.6),
    "opening": Step("Opening", 1.5),
}
MEASURED = 0.2  # seconds of steps that are over, from which a machine's speed can be told
LEAST = 0.05    # of a step that takes longer than was guessed, what counts as still left


class Progress:
    """What is done to a model. Calls may come from several threads."""

    def __init__(self, name: str = "") -> None:
        self.name, self.faces = name, 0
        self._lock = threading.Lock()
        self._step = ""
        self._begun = time.monotonic()
        self._spent: Dict[str, float] = {}
        self._is_other = False  # whether the step's time is another's, as of a program's build
        self.fault: Optional[Dict[str, str]] = None
        self.is_told = threading.Event()  # that it failed

    def begins(self, step: str) -> None:
        """A step begins, and the one before is over."""
        with self._lock:
            now = time.monotonic()
            if self._step and not self._is_other:
                before = self._spent.get(self._step, 0.0)
                self._spent[self._step] = before + now - self._begun
            self._step, self._begun, self._is_other = step, now, False

    def waits(self) -> None:
        """The step waits for something else, so that its time says nothing."""
        self._is_other = True

    def fails(self, reason: str, cure: str = "") -> None:
        self.fault = {"reason": reason, "cure": cure}

    def told(self) -> Dict[str, object]:
        """What the page shows of it."""
        with self._lock:
            now, names = time.monotonic(), list(STEPS)
            at = names.index(self._step) if self._step in STEPS else 0
            steps = [[STEPS[name].said, _state(i, at)] for i, name in enumerate(names)]
            guesses = self._guesses(names)
            done = sum(guesses[:at])
            own, spent = guesses[at], now - self._begun
            left = max(own - spent, LEAST * own)
            share = (done + own - left) / sum(guesses) if self.faces else None
            is_known = self.faces and not self._is_other and spent < own
            rest = left + sum(guesses[at + 1 :]) if is_known else None
        if self.fault:
            self.is_told.set()
        return {
            "name": self.name, "steps": steps, "share": share, "left": rest, "fault": self.fault,
        }

    def _guesses(self, names: List[str]) -> List[float]:
        """The seconds of each step: those of steps that are over are known."""
        plain = {name: 1e-6 * STEPS[name].a_face * self.faces for name in names}
        over = {name: spent for name, spent in self._spent.items() if name in plain}
        spent, wanted = sum(over.values()), sum(plain[name] for name in over)
        slowness = spent / wanted if spent > MEASURED and wanted > 0 else 1.0
        return [over.get(name, slowness * plain[name]) + 1e-3 for name in names]


def _state(at: int, now: int) -> str:
    return "done" if at < now else "now" if at == now else ""


current = Progress()  # of the model that is being built


def of(name: str) -> Progress:
    """A new model is on its way."""
    global current
    current = Progress(name)
    return current
