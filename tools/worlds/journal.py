"""What is known of tiles that were cut, so that a cut which was stopped goes on: a line for each
tile, in a file that is gone once the world is whole."""
import json
from dataclasses import asdict
from pathlib import Path
from typing import Any, Dict, List, NamedTuple, Optional

from .form import Side, Tile, tile_of

Identity = List[Any]  # what the cut is of, and how it is cut


class Recorded(NamedTuple):
    """A leaf of the tree: its tile, where it has faces, with the border, the edges at which it is
    cut open beside other tiles, and what was mended."""

    tile: Optional[Tile]
    border: List[Side]
    opened: List[Side]
    dropped: int
    split: int


def _sides(numbers: List[int]) -> List[Side]:
    sixes = zip(*(iter(numbers),) * 6)
    return [((a, b, c), (d, e, f)) for a, b, c, d, e, f in sixes]


class Journal:
    """Of a cut with this identity; one of another is begun anew."""

    def __init__(self, path: Path, identity: Identity) -> None:
        self.path = path
        self.lines: Dict[str, int] = {}  # where the line of a leaf begins
        head = json.dumps(identity)
        if not self._is_of(head):
            path.write_text(head + "\n", encoding="ascii")
        self.file = path.open("r+", encoding="ascii")
        self.file.seek(0, 2)

    def _is_of(self, head: str) -> bool:
        """Finds the lines of a journal with this head; a last one that isn't whole goes."""
        try:
            file = self.path.open("r+b")
        except OSError:
            return False
        with file:
            if file.readline() != head.encode("ascii") + b"\n":
                return False
            at = file.tell()
            for line in file:
                if line.endswith(b"\n"):
                    self.lines[line.partition(b" ")[0].decode("ascii")] = at
                    at += len(line)
            file.truncate(at)
        return True

    def __contains__(self, name: str) -> bool:
        return name in self.lines

    def known(self, name: str) -> Recorded:
        self.file.seek(self.lines[name])
        told = json.loads(self.file.readline().partition(" ")[2])
        tile = tile_of(told["tile"]) if told["tile"] else None
        border, opened = _sides(told["border"]), _sides(told["opened"])
        return Recorded(tile, border, opened, told["dropped"], told["split"])

    def add(self, name: str, found: Recorded) -> None:
        told = found._asdict()
        told["tile"] = asdict(found.tile) if found.tile else None
        for key, sides in (("border", found.border), ("opened", found.opened)):
            told[key] = [number for side in sides for place in side for number in place]
        self.file.seek(0, 2)
        self.file.write(f"{name} {json.dumps(told)}\n")
        self.file.flush()

    def close(self, is_whole: bool) -> None:
        self.file.close()
        if is_whole:
            self.path.unlink()
