"""Writes a model with fewer triangles, at one level of detail or at several.

    python3 tools/lod.py MODEL --faces 5000
    python3 tools/lod.py MODEL --error 0.5 --format glb
    python3 tools/lod.py MODEL --levels 5 --out FOLDER/NAME

MODEL is an OBJ, PLY or STL file, or a stream. What comes out has the coordinates of the file, of a
stream those that were built; colours of OBJ vertices too, and textures with their pictures: in a
GLB file, or beside an OBJ file with its materials, all levels' in NAME.mtl.
`prepare` makes a mesh fit where it has to be, `simplify` finds the levels, and `vdpm` shows them;
what these say goes to standard error. One line for each file goes to standard output: its name, how
many triangles it has, how far a vertex is from those of the model that it stands for at most, and
how far from the planes of their faces.

NAME-0 is the finest of several levels, and each has half of the triangles of the one before. Ends
with status 1 where a file can't be read or written or the model is refused, and says why.
"""
import argparse
import sys
from pathlib import Path
from typing import List

TOP = Path(__file__).resolve().parent.parent
sys.path.insert(0, str(TOP / "tools"))

from lods.levels import Levels, levels_of  # noqa: E402
from lods.shown import Level, Looks, grid_of, levels_shown  # noqa: E402
from lods.written import FORMATS, WRITERS, materials, obj_with_materials  # noqa: E402
from viewer import model as making  # noqa: E402
from viewer.main import pictures_of, programs_of  # noqa: E402
from viewer.program import ProgramEnded  # noqa: E402


def arguments(words: List[str]) -> argparse.Namespace:
    told = (__doc__ or "").split("\n", 1)[0]
    parser = argparse.ArgumentParser(prog="lod.py", description=told)
    told = "an OBJ, PLY or STL file, or a stream"
    parser.add_argument("model", type=Path, metavar="MODEL", help=told)
    want = parser.add_mutually_exclusive_group(required=True)
    want.add_argument("--faces", type=positive, metavar="N", help="at most so many triangles")
    told = "no vertex farther off than so many units of the file"
    want.add_argument("--error", type=length, metavar="E", help=told)
    told = "so many levels, each with half of the triangles of the one before"
    want.add_argument("--levels", type=positive, metavar="N", help=told)
    parser.add_argument("--format", choices=FORMATS, default="obj", help="else obj")
    told = "without textures, whose seams every level keeps"
    parser.add_argument("--bare", action="store_true", help=told)
    parser.add_argument("--out", type=Path, metavar="NAME", help="else the model's name, here")
    told = "another vdpm; prepare and simplify are looked for beside it"
    parser.add_argument("--program", type=Path, default=TOP / "vdpm", help=told)
    return parser.parse_args(words)


def positive(text: str) -> int:
    number = int(text)
    if number < 1:
        raise ValueError
    return number


def length(text: str) -> float:
    number = float(text)
    if not 0 <= number < float("inf"):
        raise ValueError
    return number


def asked_records(asked: argparse.Namespace, levels: Levels, unit: float) -> List[int]:
    """How many records each level has, the finest first."""
    if asked.faces is not None:
        return [levels.most_within(asked.faces)]
    if asked.error is not None:
        return [levels.least_within(asked.error / unit)]
    return levels.halves(asked.levels)


def row(path: Path, level: Level) -> str:
    error, deviation = (f"{number:.6g}" for number in (level.error, level.deviation))
    return f"{path}: {len(level.faces):,} triangles, error {error}, from planes {deviation}"


def put_beside(asked: argparse.Namespace, path: Path, data: bytes) -> None:
    """Writes what belongs to an OBJ file, and never over what may belong to the model."""
    is_at_home = path.resolve().parent == asked.model.resolve().parent
    if is_at_home and path.is_file() and path.read_bytes() != data:
        raise ProgramEnded(f"{path} is there, and another: give another name by --out")
    path.write_bytes(data)


def write(asked: argparse.Namespace) -> None:
    dresses = asked.format in ("glb", "obj") and not asked.bare
    model = making.model_of(asked.model, programs_of(asked.program), dresses)
    looks = Looks(model, pictures_of(asked.model, model.dress))
    levels = levels_of(model.stream)
    grid = grid_of(levels.digits, model.scale)
    records = asked_records(asked, levels, grid.unit)
    if asked.faces is not None and levels.faces[records[0]] > asked.faces:
        making.tell(f"no pair of vertices may be collapsed below {levels.faces[0]:,} triangles")
    vdpm = asked.program.resolve()
    shown = levels_shown(vdpm, model.stream, grid, records[::-1], looks)[::-1]
    name = asked.out or Path(asked.model.stem)
    has_materials = asked.format == "obj" and len(looks.pictures) > 0
    beside = materials(looks.pictures, name.name) if has_materials else {}
    for other, data in beside.items():
        put_beside(asked, name.with_name(other), data)
    for number, level in enumerate(shown):
        end = f"-{number}.{asked.format}" if asked.levels is not None else f".{asked.format}"
        path = name.with_name(name.name + end)
        if path.resolve() == asked.model.resolve():
            raise ProgramEnded(f"{path} is the model itself: give another name by --out")
        write_as = WRITERS[asked.format]
        text = obj_with_materials(level, f"{name.name}.mtl") if beside else write_as(level)
        path.write_bytes(text)
        print(row(path, level), flush=True)


def main(words: List[str]) -> None:
    asked = arguments(words)
    making.speaker = "lod"
    try:
        write(asked)
    except OSError as fault:
        sys.exit(f"lod: {fault.filename}: {fault.strerror}")
    except ProgramEnded as fault:
        sys.exit(f"lod: {asked.model}: {fault}")


if __name__ == "__main__":
    main(sys.argv[1:])
