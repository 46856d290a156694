"""Streams that were built before, so that a second look at a file begins at once.

They stand in `vdpm` in the folder that XDG_CACHE_HOME names, or in ~/.cache/vdpm, each under a sum
of the file's bytes and of the programs that built it. All together take at most so many bytes:
those that were looked at longest ago go. A file here has the length of its head as four bytes,
least first; the head as JSON; the stream; three bytes for each vertex where it has colours; and
what nodes and faces have of a texture, where there is one.
"""
import hashlib
import json
import os
import struct
from pathlib import Path
from typing import Any, Dict, List, Optional, Sequence

from quick_start.record import is_current
from quick_start.sources import PROGRAMS, Program, sum_of_file
from quick_start.stopped import Stopped

from dressing.coat import Painted
from dressing.materials import Picture

from .model import Dress, Model, Programs, Scale

MOST_BYTES = 1_000_000_000
TOP = Path(__file__).resolve().parent.parent.parent
_FORM = b"kept 3\n"


def folder() -> Path:
    given = os.environ.get("XDG_CACHE_HOME", "")
    return (Path(given) if os.path.isabs(given) else Path.home() / ".cache") / "vdpm"


def _sum_of_program(path: Path) -> Optional[str]:
    """The sum of a program, or of what stands behind a script at the top of the repository; None
    where that isn't built yet."""
    if path.parent != TOP or path.name not in PROGRAMS:
        return sum_of_file(path)
    program = Program(TOP, path.name)
    built = (program.proved, program.unproved)
    return next((sum_of_file(each) for each in built if is_current(program, each)), None)


def name_for(text: bytes, programs: Programs, dresses: bool = False) -> Optional[str]:
    """The name of what these programs build of a text, dressed or not; None where they can't be
    known yet."""
    builders = (programs.vdpm, programs.prepare, programs.simplify, programs.paint)
    try:
        sums = [_sum_of_program(path) for path in builders]
    except (OSError, Stopped):
        return None
    known = [each for each in sums if each is not None]
    if len(known) < len(sums):
        return None
    total = hashlib.sha256(_FORM + (b"dressed\n" if dresses else b""))
    for each in (hashlib.sha256(text).hexdigest(), *known):
        total.update(f"{each}\n".encode())
    return total.hexdigest()


def packed(model: Model, pictures: Sequence[Picture] = ()) -> bytes:
    """A model in the form that is told above; pages that have it in them have its pictures behind
    that."""
    scale = {"unit": model.scale.unit, "middle": model.scale.middle} if model.scale else None
    head = json.dumps({
        "name": model.name, "counts": model.counts, "proved": model.proved,
        "prepared": model.prepared, "scale": scale, "notes": model.notes,
        "length": len(model.stream), "coloured": model.colours is not None,
        "dress": _dress_told(model.dress), "pictures": _pictures_told(pictures),
    }).encode("ascii")
    worn = b"".join(model.dress.painted) if model.dress else b""
    drawn = b"".join(picture.data for picture in pictures)
    parts = (struct.pack("<I", len(head)), head, model.stream, model.colours or b"", worn, drawn)
    return b"".join(parts)


def _pictures_told(pictures: Sequence[Picture]) -> List[Dict[str, object]]:
    return [
        {"colour": one.colour, "kind": one.kind, "missing": one.missing, "length": len(one.data)}
        for one in pictures
    ]


def _dress_told(dress: Optional[Dress]) -> Optional[Dict[str, Any]]:
    if dress is None:
        return None
    spots, pages = map(len, dress.painted)
    return {"pages": dress.pages, "libraries": dress.libraries, "lengths": [spots, pages]}


def _dress_of(told: Optional[Dict[str, Any]], data: bytes) -> Optional[Dress]:
    """That at the end of the data, as it was told."""
    if told is None:
        return None
    spots, pages = told["lengths"]
    worn = data[len(data) - spots - pages :]
    found = Painted(worn[:spots], worn[spots:])
    return Dress(found, tuple(told["pages"]), tuple(told["libraries"]))


def scale_told(told: Any) -> Optional[Scale]:
    if told is None:
        return None
    x, y, z = told["middle"]
    return Scale(told["unit"], (x, y, z))


def unpacked(name: str, data: bytes) -> Model:
    (size,) = struct.unpack_from("<I", data)
    head, rest = json.loads(data[4:4 + size]), data[4 + size:]
    stream, colours = rest[:head["length"]], rest[head["length"]:]
    scale, dress = scale_told(head["scale"]), _dress_of(head["dress"], rest)
    if dress is not None:
        colours = colours[: len(colours) - sum(map(len, dress.painted))]
    coloured = colours if head["coloured"] else None
    known = (head["counts"], head["proved"], head["prepared"])
    return Model(name, stream, *known, scale, coloured, tuple(head["notes"]), dress)


def found(key: str, name: str) -> Optional[Model]:
    """What is kept under a key; None where nothing whole is."""
    path = folder() / key
    try:
        model = unpacked(name, path.read_bytes())
        os.utime(path)
    except (OSError, ValueError, KeyError, TypeError, struct.error):
        return None
    return model


def keep(key: str, model: Model) -> bool:
    """Keeps a model, and says whether it could."""
    path = folder() / key
    made = path.with_suffix(f".{os.getpid()}")
    try:
        path.parent.mkdir(parents=True, exist_ok=True)
        made.write_bytes(packed(model))
        os.replace(made, path)
        _make_room(path)
    except OSError:  # a full disk, or a folder that isn't ours: it is built again the next time
        return False
    return True


def _make_room(newest: Path) -> None:
    """Takes away what was looked at longest ago, as long as all take too much; never the newest."""
    known = sorted(
        (path.stat().st_mtime, path.stat().st_size, path)
        for path in newest.parent.iterdir() if path.is_file()
    )
    held = sum(size for _, size, _ in known)
    for _, size, path in known:
        if held > MOST_BYTES and path != newest:
            path.unlink()
            held -= size
