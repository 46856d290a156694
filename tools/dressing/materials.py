"""Materials of an OBJ file: the colour and the picture that each has, by the files of materials and
pictures beside it."""
from pathlib import Path
from typing import Dict, List, NamedTuple, Optional, Sequence, Tuple

PNG, JPEG, WEBP = b"\x89PNG\r\n\x1a\n", b"\xff\xd8", b"RIFF"
_KINDS = {PNG: "image/png", JPEG: "image/jpeg", WEBP: "image/webp"}
PLAIN = (1.0, 1.0, 1.0)
_OPTIONS = {  # of a picture's line, and how many words each takes
    b"-blendu": 1, b"-blendv": 1, b"-bm": 1, b"-boost": 1, b"-cc": 1, b"-clamp": 1, b"-imfchan": 1,
    b"-mm": 2, b"-o": 3, b"-s": 3, b"-t": 3, b"-texres": 1, b"-type": 1,
}
Colour = Tuple[float, float, float]


class Picture(NamedTuple):
    """What a page is drawn with: a picture as its file has it, or else a colour alone, with parts
    from 0 to 1. `missing` names the picture that isn't there or can't be shown."""

    colour: Colour
    kind: str = ""
    data: bytes = b""
    missing: str = ""


class _Material(NamedTuple):
    colour: Colour = PLAIN
    picture: str = ""


def _colour(fields: Sequence[bytes]) -> Colour:
    try:
        r, g, b = map(float, fields[1:4])
    except ValueError:
        return PLAIN
    return (r, g, b)


def _picture(fields: Sequence[bytes]) -> str:
    """The name of the picture, which may have blanks in it, behind its options."""
    words = list(fields[1:])
    while words and words[0] in _OPTIONS:
        del words[: 1 + _OPTIONS[words[0]]]
    return b" ".join(words).decode("utf-8", "replace")


def materials_in(text: bytes) -> Dict[str, _Material]:
    """Those that the text of a file of materials tells, by their names."""
    found: Dict[str, _Material] = {}
    name: Optional[str] = None
    for line in text.splitlines():
        fields = line.partition(b"#")[0].split()
        if not fields:
            continue
        word = fields[0].lower()
        if word == b"newmtl":
            name = b" ".join(fields[1:]).decode("utf-8", "replace")
            found[name] = _Material()
        elif name is not None and word == b"kd":
            found[name] = found[name]._replace(colour=_colour(fields))
        elif name is not None and word == b"map_kd":
            found[name] = found[name]._replace(picture=_picture(fields))
    return found


def _beside(folder: Path, name: str) -> Optional[Path]:
    """A file by the name that another tells, which may have been written on another machine: with
    folders that aren't here, or in letters of another size."""
    told = Path(name.replace("\\", "/"))
    for path in (folder / told, folder / told.name):
        if path.is_file():
            return path
    wanted = told.name.lower()
    try:
        return next((one for one in sorted(folder.iterdir()) if one.name.lower() == wanted), None)
    except OSError:
        return None


def _read(folder: Path, name: str) -> Optional[bytes]:
    path = _beside(folder, name)
    try:
        return path.read_bytes() if path else None
    except OSError:
        return None


def _shown(folder: Path, material: _Material) -> Picture:
    if not material.picture:
        return Picture(material.colour)
    data = _read(folder, material.picture)
    kind = next((kind for begin, kind in _KINDS.items() if data and data.startswith(begin)), "")
    if data is None or not kind:
        return Picture(material.colour, missing=material.picture)
    return Picture(material.colour, kind, data)


def _named(path: Path, libraries: Sequence[str]) -> Sequence[str]:
    return libraries or [path.with_suffix(".mtl").name]


def has_materials(path: Path, libraries: Sequence[str]) -> bool:
    """Whether a file of materials stands beside a file."""
    return any(_beside(path.parent, name) for name in _named(path, libraries))


def pictures_for(path: Path, pages: Sequence[str], libraries: Sequence[str]) -> List[Picture]:
    """What each page of a file is drawn with."""
    known: Dict[str, _Material] = {}
    missing = ""
    for name in _named(path, libraries):
        text = _read(path.parent, name)
        if text is None:
            missing = name
        else:
            known.update(materials_in(text))
    return [
        _shown(path.parent, known[page]) if page in known else Picture(PLAIN, missing=missing)
        for page in pages
    ]
