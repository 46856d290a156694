"""Whether the tiles of a world meet whatever each of them shows, as the law of pm_join has it: each
stream is valid and made of its tile's mesh with the border kept, and the tiles that were cut are
pieces of one oriented manifold with the outline that was cut (union).

In memory are the border sides of all tiles, some 600 bytes each.
"""
import signal
from collections import Counter
from concurrent.futures import Executor, Future, ProcessPoolExecutor
from concurrent.futures.process import BrokenProcessPool
from multiprocessing import active_children, get_context
from pathlib import Path
from typing import Callable, Dict, Iterable, List, NamedTuple, Optional, Tuple, Union

from mesh_files.reading import read_soup
from mesh_files.soup import MeshFault

from .form import OUTLINE, Place, Side, Tile, World, WorldFault, moved, sides_of
from .fronts import run, stream_of
from .mending import border_sides, first_broken
from .progress import Say, Work
from .streams import Border, border_of, read_stream
from .union import fault_of_union

MOST_FAULTS = 20


class Checked(NamedTuple):
    name: str
    counts: str  # the line of `vdpm check`
    border: Border

    @property
    def sides(self) -> List[Side]:
        return self.border.sides


def told(place: Place) -> str:
    return "({}, {}, {})".format(*place)


def _border_of_mesh(path: Path, offset: Place) -> "Counter[Side]":
    """The border sides of a tile's file."""
    try:
        soup = read_soup(path)
    except MeshFault as fault:
        raise WorldFault(f"{path}: {fault}") from None
    numbers, corners = map(int, soup.points), iter(soup.corners)
    places = [moved(place, offset) for place in zip(numbers, numbers, numbers)]
    sides = border_sides(list(zip(corners, corners, corners)))
    return Counter((places[start], places[end]) for start, end in sides)


def _judge_border(world: World, tile: Tile, border: Border) -> None:
    """Whether the border of a stream can't move, and is that of the tile."""
    if border.loose:
        raise WorldFault(
            f"{tile.name}: {len(border.loose)} vertices of the border may be collapsed, the first"
            f" at {told(border.loose[0])}: build it with --keep-border"
        )
    path = world.mesh(tile)
    if not path.is_file():
        return
    own, wanted = Counter(border.sides), _border_of_mesh(path, tile.offset)
    if own != wanted:
        start, end = min((own - wanted) or (wanted - own))
        raise WorldFault(
            f"{tile.name}: the border of its stream isn't that of {path.name}: one of them alone"
            f" has the side from {told(start)} to {told(end)}: build it anew from {path.name}"
        )


def check_tile(vdpm: Path, world: World, tile: Tile) -> Checked:
    """The border of a tile; WorldFault where its stream isn't valid, isn't a manifold, or hasn't
    the tile's border for ever."""
    try:
        data = stream_of(vdpm, world, tile)
        counts = run([str(vdpm), "check"], data).decode("ascii").strip()
    except WorldFault as fault:
        raise WorldFault(f"{tile.name}: {fault}: build it anew") from None
    stream = read_stream(data)
    broken = first_broken(stream.faces)
    if broken is not None:
        place = told(moved(stream.place(broken), tile.offset))
        raise WorldFault(f"{tile.name}: it is no manifold at {place}: build it anew")
    border = border_of(stream, tile.offset)
    _judge_border(world, tile, border)
    return Checked(tile.name, counts, border)


def sum_of(borders: Iterable[Iterable[Side]]) -> Dict[Side, int]:
    """How often each side is left where a side takes away one that runs the other way."""
    left: Dict[Side, int] = {}
    for sides in borders:
        for start, end in sides:
            found = left.get((end, start), 0)
            if found > 1:
                left[end, start] = found - 1
            elif found:
                del left[end, start]
            else:
                left[start, end] = left.get((start, end), 0) + 1
    return left


def _difference(own: Dict[Side, int], wanted: Dict[Side, int]) -> Optional[Side]:
    """The least side of which there are more in one than in the other."""
    unlike = (side for side in {*own, *wanted} if own.get(side) != wanted.get(side))
    return min(unlike, default=None)


def outline_fault(world: World, done: Dict[str, Checked], names: List[str]) -> str:
    """Names a side that isn't in the outline that was cut, or is only there; empty where none."""
    left = sum_of(done[name].sides for name in names)
    outline = sides_of(world, OUTLINE)
    side = _difference(left, sum_of([outline]))
    if side is None:
        return ""
    start, end = map(told, side)
    if side not in left:
        return f"no tile has the side from {start} to {end} of the outline: build all tiles anew"
    owner = next(name for name in names if side in done[name].sides)
    return (
        f"{owner}: its side from {start} to {end} has no partner and isn't in the outline: build"
        " all tiles anew from the files of one cut"
    )


def parent_faults(world: World, done: Dict[str, Checked]) -> List[str]:
    """The border of each parent is that of its children together."""
    faults = []
    for tile in world.tiles.values():
        if tile.level and tile.name in done and all(name in done for name in tile.children):
            children = sum_of(done[name].sides for name in tile.children)
            side = _difference(sum_of([done[tile.name].sides]), children)
            if side is not None:
                start, end = map(told, side)
                faults.append(
                    f"{tile.name}: its border isn't that of its children, first at the side from"
                    f" {start} to {end}: make it anew"
                )
    return faults


def cut_at(world: World, level: int, done: Dict[str, Checked]) -> List[str]:
    """The tiles of this level, and of lesser ones where no parent of it is there."""
    parents = world.parents()
    found = []
    for name in done:
        above = parents.get(name, "")
        if world.tiles[name].level <= level and (
            above not in done or world.tiles[above].level > level
        ):
            found.append(name)
    return found


def _task(given: Tuple[Path, World, Tile]) -> Union[Checked, str]:
    try:
        return check_tile(*given)
    except WorldFault as fault:
        return str(fault)


def _begun(
    pool: Executor, tasks: List[Tuple[Path, World, Tile]]
) -> "List[Future[Union[Checked, str]]]":
    """The tasks, given to processes that leave Ctrl-C to this one."""
    before = signal.signal(signal.SIGINT, signal.SIG_IGN)
    try:
        return [pool.submit(_task, task) for task in tasks]
    finally:
        signal.signal(signal.SIGINT, before)


def _side_by_side(
    tasks: List[Tuple[Path, World, Tile]], jobs: int, add: Callable[[Union[Checked, str]], None]
) -> None:
    """Adds what is found of each tile; all processes end with this one where the user stops."""
    with ProcessPoolExecutor(jobs, mp_context=get_context("spawn")) as pool:
        try:
            for task in _begun(pool, tasks):
                add(task.result())
        except BrokenProcessPool:
            raise WorldFault("a process was ended from outside: take fewer --jobs") from None
        except BaseException:
            for process in active_children():
                process.terminate()
            raise


def _each_checked(
    tasks: List[Tuple[Path, World, Tile]], jobs: int, work: Work
) -> List[Union[Checked, str]]:
    found: List[Union[Checked, str]] = []
    work.begin(f"checks {len(tasks)} streams", len(tasks))

    def add(one: Union[Checked, str]) -> None:
        found.append(one)
        work.done += 1

    if jobs == 1:
        for task in tasks:
            add(_task(task))
    else:
        _side_by_side(tasks, jobs, add)
    return found


def whole_faults(world: World, done: Dict[str, Checked]) -> List[str]:
    """What keeps the tiles of the least level that has a fault from being one manifold with the
    outline; the parents' own faults, where they have some."""
    for level in range(world.levels):
        names = cut_at(world, level, done)
        union = fault_of_union({name: done[name].border for name in names})
        outline = outline_fault(world, done, names)
        faults = [fault for fault in (union, outline) if fault]
        if faults:
            return (parent_faults(world, done) if level else []) or faults
    return []


def check_world(
    vdpm: Path, world: World, jobs: int, say: Say = lambda _: None
) -> List[Checked]:
    """Checks all tiles, and the parents whose streams are there."""
    tiles = [
        tile for tile in world.tiles.values() if not tile.level or world.stream(tile).is_file()
    ]
    with Work(say) as work:
        found = _each_checked([(vdpm, world, tile) for tile in tiles], jobs, work)
    faults = [one for one in found if isinstance(one, str)]
    done = {one.name: one for one in found if isinstance(one, Checked)}
    faults = faults or whole_faults(world, done)
    if faults:
        more = [f"and {len(faults) - MOST_FAULTS} more"] if len(faults) > MOST_FAULTS else []
        raise WorldFault("\n".join(faults[:MOST_FAULTS] + more))
    return list(done.values())
