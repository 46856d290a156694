"""Where the window of some words listens. Its next start has the same address again, so that a tab
that was left open goes on; and where it still runs nothing is started beside it.

A seat is a file in `windows` beside the streams that are kept (kept.py), which its owner alone can
read, since it has the address's token.
"""
import hashlib
import json
import os
import secrets
from pathlib import Path
from typing import Dict, List, NamedTuple, Optional
from urllib.error import URLError
from urllib.request import ProxyHandler, build_opener

from .kept import folder

PATIENCE = 20.0  # seconds for a window to say that it is there; where there is none that is quick
MOST = 200       # seats that are kept


class Seat(NamedTuple):
    """A port, 0 where any will do; the token; and the state of the model's file."""

    port: int
    token: str
    of: List[int]

    @property
    def address(self) -> str:
        return f"http://127.0.0.1:{self.port}/{self.token}/"


def state_of(model: Path) -> List[int]:
    """What becomes another where the file does."""
    found = model.stat()
    return [found.st_mtime_ns, found.st_size]


def place_of(words: Dict[str, object]) -> Path:
    """The file of the seat for a start by these words."""
    told = json.dumps(words, sort_keys=True, default=str)
    return folder() / "windows" / hashlib.sha256(told.encode()).hexdigest()


def last(place: Path) -> Optional[Seat]:
    """The seat that was taken the last time, if there is one."""
    try:
        found = Seat(**json.loads(place.read_text(encoding="ascii")))
    except (OSError, ValueError, TypeError):
        return None
    return found if 0 < found.port < 1 << 16 and found.token.isascii() else None


def fresh(port: int, of: List[int]) -> Seat:
    return Seat(port, secrets.token_urlsafe(16), of)


def keep(place: Path, seat: Seat) -> None:
    """Keeps a seat; where that can't be done the next start has another address."""
    made = place.with_suffix(f".{os.getpid()}")
    try:
        place.parent.mkdir(parents=True, exist_ok=True)
        with open(os.open(made, os.O_WRONLY | os.O_CREAT | os.O_EXCL, 0o600), "w") as file:
            json.dump(seat._asdict(), file)
        os.replace(made, place)
        old = sorted(place.parent.iterdir(), key=lambda path: path.stat().st_mtime)
        for path in old[:-MOST]:
            path.unlink()
    except OSError:
        pass


def pages_at(seat: Seat) -> Optional[int]:
    """How many tabs show the window that runs at a seat; None where none runs there."""
    try:
        with build_opener(ProxyHandler({})).open(f"{seat.address}alive", timeout=PATIENCE) as said:
            return int(json.load(said)["pages"])
    except (URLError, OSError, ValueError, KeyError, TypeError):
        return None
