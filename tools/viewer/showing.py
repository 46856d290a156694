"""What is looked at, and the program that looks, which may be started anew."""
import threading
from pathlib import Path
from typing import Dict, List, Optional, Union

from dressing.materials import Picture

from .arrays import parted
from .drape import Drape, rows_over
from .library import LibraryProgram, is_proved
from .model import Model
from .program import ALL_MOVES, Answer, Program, ProgramEnded


class Showing:
    """A model and its program, which is the library where one is given. Calls may come from
    several threads."""

    def __init__(
        self, path: Path, model: Model, budget: int = ALL_MOVES, library: Optional[Path] = None
    ) -> None:
        self.path, self.model, self.budget, self.library = path, model, budget, library
        self.drape: Optional[Drape] = None
        self.pictures: List[Picture] = []
        self._lock = threading.Lock()
        self._program: Optional[Union[Program, LibraryProgram]] = self._started(budget)
        self._flight = bytearray()
        self._started_with = budget

    def _started(self, budget: int) -> Union[Program, LibraryProgram]:
        if self.library is None:
            return Program(self.path, self.model.stream, budget)
        return LibraryProgram(self.library, self.model.stream, budget)

    def about(self) -> Dict[str, object]:
        """What the page tells of the model."""
        model, program = self.model, self._program
        scale = {"unit": model.scale.unit, "middle": model.scale.middle} if model.scale else None
        return {
            "name": model.name,
            "counts": model.counts,
            "budget": self.budget,
            "startedWith": self._started_with,
            "proved": model.proved and (self.library is None or is_proved(self.library)),
            "prepared": model.prepared,
            "scale": scale,
            "notes": model.notes,
            "coloured": model.colours is not None,
            "drape": rows_over(self.drape, model) if self.drape else None,
            "textures": self._textures(),
            "opening": program.opening if program else None,
        }

    def _textures(self) -> Optional[List[Dict[str, object]]]:
        """Of each page, whether it has a picture, and else its colour."""
        if not self.pictures:
            return None
        return [
            {"colour": one.colour, "hasPicture": bool(one.data), "missing": one.missing}
            for one in self.pictures
        ]

    def program(self) -> Union[Program, LibraryProgram]:
        with self._lock:
            if self._program is None:
                raise ProgramEnded("the program isn't running")
            return self._program

    def ask(self, script: str) -> Answer:
        """The replies to a script, whose lines are then a part of the flight. Where it asks for
        arrays they come if the program can tell them."""
        arrays, lines = parted(script)
        with self._lock:
            if self._program is None:
                raise ProgramEnded("the program isn't running")
            answer = self._program.ask(lines, arrays)
            self._flight += lines.encode("ascii")
            for line in lines.splitlines():
                if line.startswith("b "):
                    self.budget = int(line[2:])
        return answer

    def flight(self) -> bytes:
        """All lines since the program was started: played with the budget that it was started with,
        `vdpm live` replies the same; and so does `vdpm view` where it knows all the lines."""
        with self._lock:
            return bytes(self._flight)

    def start(self, budget: int) -> None:
        """Ends the program and starts it anew, at the base mesh, with an empty flight."""
        with self._lock:
            if self._program is not None:
                self._program.close()
                self._program = None
            self._program = self._started(budget)
            self.budget = self._started_with = budget
            self._flight = bytearray()

    def close(self) -> None:
        with self._lock:
            if self._program is not None:
                self._program.close()
                self._program = None
