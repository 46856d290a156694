"""The engine as a WebAssembly module, for pages that need no server. It is built once of these
sources, without their proofs, and kept in `unproved/`."""
import os
import sys
from pathlib import Path
from typing import Optional

from plain_rust import webassembly
from quick_start.cargo import sum_with_maker
from quick_start.sources import LIBRARY, Program
from quick_start.stopped import Stopped

from .model import run, tell
from .program import ProgramEnded

TOP = Path(__file__).resolve().parent.parent.parent
MAKER = TOP / "tools/plain_rust.py"
LATEST = b"vdpm_unpack"  # the function of a module that pages have asked for last


class NoModule(Exception):
    """Why there is no module."""


def module_of(given: Optional[Path]) -> bytes:
    """The module of a file; or else the one of these sources, which is built where it isn't there
    yet."""
    path = given or _kept()
    try:
        found = path.read_bytes()
    except OSError as fault:
        raise NoModule(f"{path} can't be read: {fault.strerror}") from fault
    if not found.startswith(webassembly.MAGIC):
        raise NoModule(f"{path} is no WebAssembly module")
    if LATEST not in found:
        raise NoModule(f"{path} is an older module: make it anew, as docs/RUST.md tells")
    return found


def _kept() -> Path:
    folder = TOP / "unproved"
    try:
        path = folder / f"vdpm-{sum_with_maker(Program(TOP, LIBRARY))[:16]}.wasm"
        if not path.is_file():
            folder.mkdir(exist_ok=True)
            _build(path)
    except (Stopped, ProgramEnded, OSError) as why:
        raise NoModule(str(why)) from why
    return path


def _build(path: Path) -> None:
    """Makes the module, tells meanwhile how long that takes, and takes those of other sources
    away."""
    tell("building the engine as a WebAssembly module, once: about a minute")
    made = path.with_suffix(f".{os.getpid()}")
    maker = [str(MAKER), "--wasm", str(made)]
    try:
        done = run(Path(sys.executable), maker, b"", "building the engine")
        if done.status or not made.is_file():
            said = "\n".join(done.said) or f"{MAKER.name} ended with status {done.status}"
            raise NoModule(said.replace(f"{MAKER.stem}: ", "", 1))
        for old in path.parent.glob("vdpm-*.wasm"):
            old.unlink()
        os.replace(made, path)
    finally:
        made.unlink(missing_ok=True)
