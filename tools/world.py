#!/usr/bin/env python3
"""Cuts a large mesh into tiles that meet without a crack (docs/WORLDS.md).

    world.py cut INPUT WORLD [--faces N] [--unit U] [--spacing S] [--rise H]
    world.py build WORLD [--faces N] [--jobs J] [--packed | --plain] [--program PATH]
    world.py list WORLD LEVEL            prints the paths of a level's tiles, without ending
    world.py parent WORLD NAME [--faces N] [--program PATH]
    world.py check WORLD [--jobs J] [--program PATH]
    world.py tiles3d WORLD [--out FOLDER] [--levels N] [--crs CRS] [--program PATH]

INPUT is a height field (an ESRI ASCII grid `.asc`, a binary PGM `.pgm`; a GeoTIFF, an .hgt and the
like where GDAL is installed) or a mesh (OBJ, PLY, STL); WORLD is a folder, or its world.json.
`build` makes the streams by `./simplify --keep-border`, and the parents; with --packed `./pack`
packs each, until --plain is asked for. Cutting and building go on where they were stopped. Needs
nothing but Python 3.8.

Ends with status 1 where an input has a fault or the tiles don't meet, and says which.
"""
import argparse
import sys
from dataclasses import replace
from math import inf
from pathlib import Path
from typing import List, Optional

from viewer.main import programs_of
from worlds.building import Build, build_world
from worlds.checking import check_world
from worlds.form import FACES, World, WorldFault, read_world, write_world
from worlds.making import Asked, make_world
from worlds.parents import make_parent
from worlds.progress import Work
from worlds.tiles3d import FILE, Export, write_tiles3d

TOP = Path(__file__).resolve().parent.parent
GO_ON = ("cut", "build")  # where they were stopped


def say(text: str) -> None:
    print(f"world: {text}", file=sys.stderr, flush=True)


def positive(text: str) -> float:
    number = float(text)
    if not 0 < number < inf:
        raise argparse.ArgumentTypeError(f"{text} isn't above 0")
    return number


def positive_whole(text: str) -> int:
    number = int(text)
    if number < 1:
        raise argparse.ArgumentTypeError(f"{text} isn't above 0")
    return number


def arguments(words: Optional[List[str]] = None) -> argparse.Namespace:
    parser = argparse.ArgumentParser(prog="world.py", description="Worlds of tiles that meet.")
    verbs = parser.add_subparsers(dest="verb", required=True)
    cut = verbs.add_parser("cut", help="cut a height field or a mesh into tiles")
    cut.add_argument("input", type=Path, help="a height field, or an OBJ, PLY or STL file")
    cut.add_argument("world", type=Path, help="the folder that is made")
    cut.add_argument("--unit", type=positive, default=0.0, help="a unit, in the input's measure")
    cut.add_argument("--spacing", type=positive, default=1.0, help="between the points of a .pgm")
    cut.add_argument("--rise", type=positive, default=1.0, help="of a step of grey of a .pgm")
    build = verbs.add_parser("build", help="make the streams of all tiles and parents")
    build.add_argument("world", type=Path)
    form = build.add_mutually_exclusive_group()
    form.add_argument("--packed", action="store_true", default=None, help="pack the streams")
    form.add_argument("--plain", action="store_false", dest="packed", help="unpack them again")
    listed = verbs.add_parser("list", help="print the paths of a level's tiles")
    listed.add_argument("world", type=Path)
    listed.add_argument("level", type=int)
    parent = verbs.add_parser("parent", help="make the mesh of a parent of its children's fronts")
    parent.add_argument("world", type=Path)
    parent.add_argument("name")
    check = verbs.add_parser("check", help="ask whether all tiles are valid and meet")
    check.add_argument("world", type=Path)
    exported = verbs.add_parser("tiles3d", help="write OGC 3D Tiles 1.1")
    exported.add_argument("world", type=Path)
    exported.add_argument("--out", type=Path, help="else tiles3d in the world's folder")
    told = "levels of a tile at most, each with half of the faces of the one before"
    crs = "the system of the input's coordinates, as EPSG:32632: all is put on the Earth by GDAL"
    exported.add_argument("--crs", default="", help=crs)
    exported.add_argument("--levels", type=positive_whole, default=3, help=told)
    for verb in (build, check):
        verb.add_argument("--jobs", type=positive_whole, default=1, help="processes side by side")
    for verb in (cut, build, parent):
        verb.add_argument("--faces", type=int, default=FACES, help="at most, a tile or a parent")
    for verb in (build, parent, check, exported):
        verb.add_argument("--program", type=Path, default=TOP / "vdpm", help="another vdpm")
    return parser.parse_args(words)


def told(world: World) -> str:
    tiles = world.level(0)
    parents = len(world.tiles) - len(tiles)
    faces, border = (sum(getattr(tile, n) for tile in tiles) for n in ("faces", "border"))
    return (
        f"{len(tiles)} tiles of {faces} faces, border sides {border}, outline {world.outline},"
        f" parents {parents}, unit {world.unit:g}"
    )


def built(asked: argparse.Namespace, world: World) -> int:
    programs = programs_of(asked.program)
    if asked.packed is not None and asked.packed != world.packed:
        world = replace(world, packed=asked.packed)
        write_world(world)
    with Work(say) as work:
        jobs = Build(world, programs.simplify, programs.vdpm, asked.faces, asked.jobs, work)
        return build_world(jobs)


def export(asked: argparse.Namespace, world: World) -> str:
    folder = asked.out or world.folder / "tiles3d"
    with Work(say) as work:
        words = Export(world, asked.program.resolve(), folder, asked.levels, work, asked.crs)
        count = write_tiles3d(words)
    where = f"on the Earth by {asked.crs}" if asked.crs else "in the input's coordinates, z up"
    return f"{folder / FILE}: {count} GLB files, {where}"


def call(asked: argparse.Namespace) -> None:
    if asked.verb == "cut":
        words = Asked(
            asked.input, asked.world, asked.faces, asked.unit, asked.spacing, asked.rise
        )
        print(told(make_world(words, say)))
        return
    world = read_world(asked.world)
    if asked.verb == "list":
        for tile in world.level(asked.level):
            print(world.mesh(tile).with_suffix(""))
    elif asked.verb == "build":
        made = built(asked, world)
        print(f"{made} streams made, {len(world.tiles) - made} were there")
    elif asked.verb == "tiles3d":
        print(export(asked, world))
    elif asked.verb == "parent":
        if asked.name not in world.tiles:
            raise WorldFault(f"the world has no tile {asked.name}")
        made = make_parent(asked.program, world, world.tiles[asked.name], asked.faces)
        print(f"{asked.name}: {made.faces} faces, error {made.error}")
    else:
        done = check_world(asked.program, world, asked.jobs, say)
        for one in done:
            print(f"{one.name}: {one.counts}, border sides {len(one.sides)}")
        print(f"{len(done)} streams: each valid, each border fixed, each seam equal")


def main() -> int:
    asked = arguments()
    try:
        call(asked)
    except WorldFault as fault:
        say(str(fault))
        return 1
    except OSError as fault:
        say(f"{fault.filename or 'a file'}: {fault.strerror}")
        return 1
    except KeyboardInterrupt:
        say("stopped; the same command goes on" if asked.verb in GO_ON else "stopped")
        return 130
    return 0


if __name__ == "__main__":
    sys.exit(main())
