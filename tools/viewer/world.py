"""The window of a world of tiles (docs/WORLDS.md): a program for each tile that is open, within a
bound on their memory, and the server of their page."""
import json
import threading
from collections import OrderedDict
from functools import partial
from pathlib import Path
from typing import Dict, List, Optional

from worlds.form import Tile, World, WorldFault, box_of, read_world
from worlds.parents import error_of, told_path

from . import manual
from .address import Address
from .drape import Drape
from .model import Done, needed, run, tell, unpacked
from .page_files import FILES, PAGE
from .program import ALL_MOVES, Answer, BadScript, Program, ProgramEnded, beside, replies_to
from .server import BYTES, JSON, TEXT, Content, drape_content
from .server import Page as ServedPage

WORLD_PAGE = Path(__file__).resolve().parent / "world_page"
OWN_FILES = ("finest.js", "tiles.js", "tiling.js", "world_bar.js", "world_worker.js")
# Measured: `vdpm live` takes 33.8 MB of a stream of 100,000 faces, and 17.9 of one of 50,100, once
# all is shown.
MEMORY_A_FACE = 340
MOST_TEXTS = 8
_HEAD = "tile "
NAMED = 5  # of the streams that are missing


class WorldShowing:
    """A world and the programs of its open tiles. Calls may come from several threads."""

    def __init__(self, path: Path, world: World, memory: int) -> None:
        self.path, self.world, self.memory = path, world, memory
        self.drape: Optional[Drape] = None
        self.tiles = usable(world)
        self.proved = self._is_proved()
        self._lock = threading.Lock()
        self._open: "OrderedDict[str, Program]" = OrderedDict()  # the last one asked is last
        self._texts: "OrderedDict[str, bytes]" = OrderedDict()  # unpacked, and not yet opened

    def _is_proved(self) -> bool:
        """Looks at one tile, which lets the program be built."""
        stream = self._read(next(iter(self.tiles.values())))
        checked = needed(run(self.path, ["check"], stream.out, "checking"), manual.STREAM)
        return stream.proved and checked.proved

    def about(self) -> Dict[str, object]:
        """What the page tells of the world, and chooses tiles by."""
        low, _ = box_of([tile.low for tile in self.tiles.values()])
        _, high = box_of([tile.high for tile in self.tiles.values()])
        return {
            "name": self.world.folder.resolve().name, "unit": self.world.unit,
            "origin": self.world.origin, "low": low, "high": high, "memory": self.memory,
            "proved": self.proved,
            "faces": sum(tile.faces for tile in self.world.level(0)),
            "tiles": [self._told(tile) for tile in self.tiles.values()],
            "drape": self.drape and self.drape.rows(self.world.unit, self.world.origin),
        }

    def _told(self, tile: Tile) -> Dict[str, object]:
        children: List[str] = [name for name in tile.children if name in self.tiles]
        return {
            "name": tile.name, "level": tile.level, "offset": tile.offset, "low": tile.low,
            "high": tile.high, "children": children, "error": error_of(self.world, tile),
            "faces": faces_of(self.world, tile), "memory": self._memory(tile),
        }

    def _memory(self, tile: Tile) -> int:
        return MEMORY_A_FACE * faces_of(self.world, tile)

    def _read(self, tile: Tile) -> Done:
        """A tile's stream text, which is unpacked where it is packed."""
        try:
            return unpacked(self.world.stream(tile).read_bytes(), beside(self.path, "pack"))
        except ProgramEnded as fault:
            raise ProgramEnded(f"{tile.name}: {fault.reason}", fault.cure) from None

    def stream(self, tile: Tile) -> bytes:
        """For the page, which then asks the tile's program. What was unpacked for one is there for
        the other."""
        text = self._read(tile).out
        if self.world.packed:
            self._texts[tile.name] = text
            while len(self._texts) > MOST_TEXTS:
                self._texts.popitem(last=False)
        return text

    def base(self, tile: Tile) -> bytes:
        """The frame of a closed tile, by a program that ends at once."""
        return replies_to(self.path, self._read(tile).out, b"w\n")

    def ask(self, name: str, script: str) -> Answer:
        tile = self.tiles.get(name)
        if tile is None:
            raise BadScript(f"there is no tile {name}")
        with self._lock:
            return self._program(tile).ask(script)

    def _program(self, tile: Tile) -> Program:
        """The tile's program, which is opened where it isn't. Those that weren't asked for longest
        are ended before, until all fit into the memory."""
        if tile.name not in self._open:
            self._make_room(self._memory(tile))
            text = self._texts.pop(tile.name, None) or self._read(tile).out
            self._open[tile.name] = Program(self.path, text, ALL_MOVES)
        self._open.move_to_end(tile.name)
        return self._open[tile.name]

    def _make_room(self, memory: int) -> None:
        while self._open and self.held + memory > self.memory:
            _, program = self._open.popitem(last=False)
            program.close()

    @property
    def held(self) -> int:
        """What the open programs take."""
        return sum(self._memory(self.tiles[name]) for name in self._open)

    @property
    def open(self) -> List[str]:
        return list(self._open)

    def close(self) -> None:
        with self._lock:
            for program in self._open.values():
                program.close()
            self._open.clear()


def faces_of(world: World, tile: Tile) -> int:
    """How many faces a tile's full mesh has."""
    if tile.level == 0:
        return tile.faces
    return int(json.loads(told_path(world, tile).read_text(encoding="ascii"))["faces"])


def usable(world: World) -> Dict[str, Tile]:
    """The tiles that can be shown: all of level 0, which have to be there, and the parents that
    were made."""
    found = {tile.name: tile for tile in world.tiles.values() if is_built(world, tile)}
    missing = [tile for tile in world.tiles.values() if tile.name not in found]
    if any(tile.level == 0 for tile in missing):
        raise WorldFault(f"{missing_of(world, missing)} first")
    if missing:
        tell(f"{missing_of(world, missing)}; until then far views show more faces, and are slow")
    return found


def is_built(world: World, tile: Tile) -> bool:
    return world.stream(tile).is_file() and (not tile.level or told_path(world, tile).is_file())


def missing_of(world: World, missing: List[Tile]) -> str:
    """How many streams are missing and which, and what makes them."""
    names = [tile.name for tile in missing[:NAMED]]
    more = f" and {len(missing) - NAMED} more" if len(missing) > NAMED else ""
    told = f"{len(missing)} of {len(world.tiles)} streams aren't built, {', '.join(names)}{more}"
    return f"{told}: `python3 tools/world.py build {world.folder}`"


class WorldServer(Address):
    """The window of a world, which may be on its way."""

    def __init__(
        self, showing: Optional[WorldShowing], port: int = 0, token: Optional[str] = None
    ) -> None:
        super().__init__(port, WorldHandler, token)
        self._showing = showing

    @property
    def is_ready(self) -> bool:
        return self._showing is not None

    @property
    def showing(self) -> WorldShowing:
        if self._showing is None:
            raise ProgramEnded("the world isn't there yet")
        return self._showing

    @showing.setter
    def showing(self, showing: WorldShowing) -> None:
        self._showing = showing


class WorldHandler(ServedPage):
    server: WorldServer
    files = {
        **{name: PAGE / name for name in FILES if name != "index.html"},
        **{name: WORLD_PAGE / name for name in OWN_FILES},
        "main.js": WORLD_PAGE / "world.js",  # the page is the window's, and this begins it
        "": PAGE / "index.html",
    }

    def content(self, path: str) -> Optional[Content]:
        showing = self.server.showing
        if path == "about":
            return JSON, lambda: json.dumps(showing.about()).encode()
        if path == "drape":
            return drape_content(showing.drape).get(path)
        what, _, name = path.partition("/")
        tile = showing.tiles.get(name)
        if tile is None:
            return None
        if what == "stream":
            return BYTES, partial(showing.stream, tile)
        return (TEXT, partial(showing.base, tile)) if what == "base" else None

    def answer(self, script: str) -> Answer:
        head, _, rest = script.partition("\n")
        if not head.startswith(_HEAD):
            raise BadScript("the first line names a tile")
        return self.server.showing.ask(head[len(_HEAD):], rest)


def showing_of(path: Path, file: Path, memory: int) -> WorldShowing:
    """The world of a world.json; ProgramEnded where it can't be shown."""
    try:
        world = read_world(file)
        showing = WorldShowing(path, world, memory)
    except (WorldFault, OSError) as fault:
        raise ProgramEnded(str(fault)) from fault
    parents = len(showing.tiles) - len(world.level(0))
    tell(f"{file}: {len(world.level(0))} tiles, {parents} parents")
    return showing
