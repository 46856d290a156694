"""Shows a mesh in a window of the browser: what is refined follows the camera.

    ./viewer MODEL [--open] [--fresh] [--budget N] [--memory MB] [--program PATH] [--library]
        [--port P] [--drape IMAGE [WEST SOUTH EAST NORTH]] [--spacing S] [--rise H] [--world]
    ./viewer --film FLIGHT MODEL [--budget N] [--program PATH] > film.html
    ./viewer --page [MODEL] [--module FILE] > page.html

MODEL is a stream, packed or not; or an OBJ, PLY or STL file, which `simplify` builds first, after
`prepare` where it isn't fit; or a height field; or the world.json of a world of tiles
(docs/WORLDS.md), into which --world cuts what has too many faces for one mesh. The page's
address is printed, and --open opens it; Ctrl-C ends all. With --film the script FLIGHT is played,
and its frames are written as one page that needs no server. With --page the window itself is
written as one page that needs no server: it shows MODEL, or what is dropped on it, by the engine as
a WebAssembly module, which FILE has or else is built. With --drape a picture lies over a terrain,
by where its edges are in the file's coordinates or by a world file beside it. Needs Python 3.8 and
a browser with WebGL 2, and no network.

Ends with status 1 where the model or the module can't be had, or the program can't be started or
ends early.
"""
import argparse
import signal
import sys
import threading
import webbrowser
from math import inf
from pathlib import Path
from types import FrameType
from typing import List, Optional, Union

from dressing.dressed import has_dress
from dressing.materials import Picture, pictures_for

from . import kept, progress, seat
from .alone import page_of
from .drape import BadDrape, Drape, drape_of
from .fields import ONE, Steps, is_field
from .film import BadFlight, film_page
from .large import WORLD, shown_for
from .library import NOT_BUILT, TO_BUILD, built_library
from .model import Dress, Model, Programs, is_built, model_of, tell, with_packed_stream
from .module import NoModule, module_of
from .program import ALL_MOVES, ProgramEnded, beside
from .server import Server, is_budget
from .seat import Seat
from .showing import Showing
from .world import WorldServer, WorldShowing, showing_of

MEMORY = 1000  # megabytes
TOLD = 2.0     # seconds that a page has to hear why there is nothing to show
TOP = Path(__file__).resolve().parent.parent.parent


def budget_of(text: str) -> int:
    if not is_budget(text):
        raise argparse.ArgumentTypeError(f"{text} isn't a number from 0 to {ALL_MOVES}")
    return int(text)


def positive(text: str) -> float:
    number = float(text)
    if not 0 < number < inf:
        raise argparse.ArgumentTypeError(f"{text} isn't above 0")
    return number


def arguments(words: Optional[List[str]] = None) -> argparse.Namespace:
    parser = argparse.ArgumentParser(
        prog="viewer",
        description="Shows a mesh in the browser, refined for where the camera looks.",
    )
    add = parser.add_argument
    model = "a stream, an OBJ, PLY or STL file, a height field, or a world.json"
    add("model", type=Path, nargs="?", help=model)
    add("--open", action="store_true", help="open the page in the browser")
    add("--budget", type=budget_of, default=ALL_MOVES, help="splits and collapses a view may make")
    add("--program", type=Path, default=TOP / "vdpm", help="vdpm, if not this repository's")
    add("--library", action="store_true", help="by libvdpm, and not by a program beneath")
    add("--memory", type=int, default=MEMORY, help="megabytes that a world's open tiles may take")
    add("--port", type=int, default=0, help="a free one is taken where none is given")
    add("--film", type=Path, metavar="FLIGHT", help="write a page that plays this script")
    add("--page", action="store_true", help="write the window as a page that needs no server")
    add("--module", type=Path, metavar="FILE", help="the page's engine, if not the one built here")
    edges = "a picture over a terrain, with its west, south, east and north, or a world file's"
    add("--drape", nargs="+", metavar=("IMAGE", "EDGE"), help=edges)
    add("--fresh", action="store_true", help="build a model anew that was built before")
    add("--world", action="store_true", help="cut a file that has too many faces into tiles")
    add("--spacing", type=positive, default=1.0, help="between the points of a .pgm")
    add("--rise", type=positive, default=1.0, help="of a step of grey of a .pgm")
    asked = parser.parse_args(words)
    if asked.model is None and not asked.page:
        parser.error("a model is needed, but for --page")
    return asked


def programs_of(vdpm: Path) -> Programs:
    """vdpm, and the other programs beside it or else at the top of the repository."""

    others = [beside(vdpm, name) for name in ("prepare", "simplify", "pack", "paint")]
    return Programs(vdpm.resolve(), *others)


def found(asked: argparse.Namespace) -> Model:
    """The model that is asked for; ProgramEnded where it can't be had."""
    try:
        dresses = asked.film is None  # (a film shows no textures)
        programs, steps = programs_of(asked.program), Steps(asked.spacing, asked.rise)
        model = model_kept(asked.model, programs, asked.fresh, dresses, steps)
    except OSError as fault:
        raise ProgramEnded(f"it can't be read: {fault.strerror}") from fault
    tell(f"{asked.model}: {model.counts}")
    return model


def loaded(asked: argparse.Namespace) -> Model:
    """The same for a page or a film, of which there is none without it."""
    try:
        return found(asked)
    except ProgramEnded as fault:
        sys.exit(f"viewer: {asked.model}: {fault}")


def model_kept(
    path: Path, programs: Programs, fresh: bool, dresses: bool = False, steps: Steps = ONE
) -> Model:
    """The model of a file. What was built of a text once is taken again, unless it shall be built
    afresh."""
    text = path.read_bytes()
    dresses = dresses and has_dress(path, text)
    given = text + repr(steps).encode() if is_field(path) else text
    key = None if is_built(text) else kept.name_for(given, programs, dresses)
    found = None if fresh or key is None else kept.found(key, path.name)
    if found is not None:
        tell(f"it was built before, and kept in {kept.folder()}: --fresh builds it anew")
        return found
    model = model_of(path, programs, dresses, steps)
    key = None if is_built(text) else kept.name_for(given, programs, dresses)
    if key is not None:  # (programs that are built by their first run are known after it)
        kept.keep(key, model)
    return model


def write_film(asked: argparse.Namespace) -> None:
    if asked.model.name == WORLD:
        sys.exit("viewer: a film is made of one model, and not of a world")
    if sys.stdout.isatty():
        sys.exit("viewer: the film goes to standard output: add > film.html")
    try:
        flight = asked.film.read_bytes()
    except OSError as fault:
        sys.exit(f"viewer: {asked.film} can't be read: {fault.strerror}")
    model = loaded(asked)
    try:
        page = film_page(asked.program.resolve(), model, flight, asked.budget)
    except (ProgramEnded, BadFlight) as fault:
        sys.exit(f"viewer: {asked.film}: {fault}")
    sys.stdout.write(page)
    tell(f"{len(page):,} bytes")


def write_page(asked: argparse.Namespace) -> None:
    if asked.model is not None and asked.model.name == WORLD:
        sys.exit("viewer: a page shows one model, and not a world")
    if sys.stdout.isatty():
        sys.exit("viewer: the page goes to standard output: add > page.html")
    model = loaded(asked) if asked.model else None
    try:
        packed = with_packed_stream(model, programs_of(asked.program)) if model else None
        pictures = pictures_of(asked.model, model.dress) if model else []
        page = page_of(module_of(asked.module), packed, pictures)
    except (NoModule, ProgramEnded) as why:
        sys.exit(f"viewer: {why}")
    sys.stdout.write(page)
    tell(f"{len(page.encode()):,} bytes")


def showing_for(asked: argparse.Namespace) -> Union[Showing, WorldShowing]:
    program = asked.program.resolve()
    if asked.model.name == WORLD:
        return showing_of(program, asked.model, asked.memory * 1_000_000)
    library = built_library() if asked.library else None
    if asked.library and library is None:
        raise ProgramEnded(NOT_BUILT, TO_BUILD)
    model = found(asked)
    progress.current.begins("opening")
    showing = Showing(program, model, asked.budget, library)
    showing.pictures = pictures_of(asked.model, model.dress)
    return showing


def pictures_of(path: Path, dress: Optional[Dress]) -> List[Picture]:
    """What the pages of a texture are drawn with; each that is missing is told."""
    pictures = pictures_for(path, dress.pages, dress.libraries) if dress else []
    for name in sorted({picture.missing for picture in pictures if picture.missing}):
        tell(f"{name} isn't beside {path.name}, or is no picture that browsers show")
    return pictures


def seat_for(asked: argparse.Namespace, place: Path) -> Seat:
    """Where the window listens: where it did the last time, if it may. Ends where it still runs
    there, and shows the same file."""
    before, of = seat.last(place), seat.state_of(asked.model)
    pages = seat.pages_at(before) if before else None
    if before is None or (pages is not None and before.of != of):
        return seat.fresh(asked.port, of)
    if pages is None:
        return before._replace(of=of, port=asked.port or before.port)
    print(f"viewer: {before.address} shows it already", flush=True)
    if asked.open and pages == 0:
        webbrowser.open(before.address)
    sys.exit(0)


def listening(asked: argparse.Namespace) -> Union[Server, WorldServer]:
    """The server of a window, before there is something to look at."""
    words = {name: word for name, word in vars(asked).items() if name not in ("open", "fresh")}
    place = seat.place_of({**words, "model": asked.model.resolve()})
    taken, kind = seat_for(asked, place), WorldServer if asked.model.name == WORLD else Server
    try:
        server = kind(None, taken.port, taken.token)
    except (OSError, OverflowError) as fault:
        if asked.port:
            sys.exit(f"viewer: port {asked.port} can't be had: {fault}")
        server = kind(None, 0, taken.token)  # another program has the port of the last time
    seat.keep(place, taken._replace(port=server.server_port))
    server.progress = progress.of(asked.model.name)
    return server


def _stop(number: int, frame: Optional[FrameType]) -> None:
    raise KeyboardInterrupt


def fill(
    server: Union[Server, WorldServer], asked: argparse.Namespace, drape: Optional[Drape]
) -> None:
    """Gives the server what it shows. Where there is nothing the page is told so before all
    ends."""
    try:
        showing = showing_for(asked)
        showing.drape = drape
        server.showing = showing  # type: ignore[assignment]
    except ProgramEnded as fault:
        server.progress.fails(fault.reason, fault.cure)
        if server.is_awaited:
            server.progress.is_told.wait(TOLD)
        sys.exit(f"viewer: {asked.model}: {fault}")


def window(asked: argparse.Namespace) -> None:
    """Serves until Ctrl-C, the end of the terminal or a request to end; then ends the program
    too."""
    try:
        drape = drape_of(asked.drape) if asked.drape else None
        programs, steps = programs_of(asked.program), Steps(asked.spacing, asked.rise)
        asked.model = shown_for(asked.model, asked.world, programs, steps)
        server = listening(asked)
    except BadDrape as bad:
        sys.exit(f"viewer: {bad}")
    except ProgramEnded as fault:
        sys.exit(f"viewer: {asked.model}: {fault}")
    except OSError as fault:
        sys.exit(f"viewer: {asked.model} can't be read: {fault.strerror}")
    for name in ("SIGHUP", "SIGTERM"):
        if hasattr(signal, name):
            signal.signal(getattr(signal, name), _stop)
    serving = threading.Thread(target=server.serve_forever, daemon=True)
    serving.start()
    try:
        print(f"viewer: {server.address} (Ctrl-C ends)", flush=True)
        if asked.open:
            threading.Thread(target=webbrowser.open, args=(server.address,), daemon=True).start()
        fill(server, asked, drape)
        serving.join()
    except KeyboardInterrupt:
        if not server.is_ready:
            raise
    finally:
        server.shutdown()
        server.server_close()
        if server.is_ready:
            server.showing.close()


def main() -> None:
    asked = arguments()
    try:
        if asked.page:
            write_page(asked)
        elif asked.film:
            write_film(asked)
        else:
            window(asked)
    except KeyboardInterrupt:
        sys.exit(130)
