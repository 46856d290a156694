"""Builds a program without a proof, with the checks of the run time left in: by the Rattle kit, or
without one by cargo.

An overflow, an index out of range, a cast that loses bits, a zero divisor, a wrong alignment or a
place that can't be reached stops such a program by a trap. Contracts aren't looked at.
"""
import contextlib
import fcntl
import os
import shutil
import tempfile
import time
from pathlib import Path
from typing import Callable, Iterator

from .cargo import TO_INSTALL, way_of_cargo
from .kit import Kit, find_kit, stop_where_it_lacks
from .module import module_of
from .record import is_current, path_of, write_record
from .running import run_tool, say, telling_time
from .sources import CODE, Program, sum_of_sources
from .stopped import Stopped
from .way import Way

TARGET = "x86_64-unknown-linux-gnu"
# What rattle itself gives clang for a program, but for the level: -O1 is built soonest, and what it
# builds is about as fast.
FLAGS = f"""--target={TARGET} -march=x86-64-v2 -mllvm -no-trap-after-noreturn -ffunction-sections
 -fdata-sections -mllvm -trap-unreachable -mllvm -no-x86-call-frame-opt
 -mllvm -disable-machine-licm -mllvm -disable-postra-machine-licm
 -mllvm -sink-common-insts=false --no-default-config -no-canonical-prefixes
 -fno-crash-diagnostics -fPIE -O1 -w""".split()
TRIES = 3


@contextlib.contextmanager
def alone(program: Program) -> Iterator[None]:
    """Waits until no other build of the program runs, and keeps others out until this one ends."""
    folder = program.unproved.parent
    try:
        folder.mkdir(exist_ok=True)
        lock = open(folder / f"{program.name}.lock", "w", encoding="utf-8")
    except OSError as error:
        raise Stopped(f"nothing can be written to {folder} ({error.strerror})") from error
    with lock:
        try:
            fcntl.flock(lock, fcntl.LOCK_EX | fcntl.LOCK_NB)
        except BlockingIOError:
            say(program, "it is being built already; waiting for that")
            fcntl.flock(lock, fcntl.LOCK_EX)
        yield


def drop_leftovers(program: Program) -> None:
    """Removes the folders of builds that were killed. None is under way while the lock is held."""
    for folder in program.unproved.parent.glob(f".{program.name}-*"):
        shutil.rmtree(folder, ignore_errors=True)


def compiled(kit: Kit, module: Path, room: Path, made: Path) -> None:
    """The module compiled and linked. The sanitizer's pass isn't asked for, so the module's marks
    for it stay without effect; nothing is taken out of it."""
    code = room / "program.o"
    run_tool([str(kit.clang), *FLAGS, "-c", "-x", "ir", str(module), "-o", str(code)])
    link = [str(kit.folder / "bin/rattle-link"), "--target", TARGET]
    link += ["--toolchain", str(kit.folder / "toolchain"), "-o", str(made), str(code)]
    run_tool(link + [str(archive) for archive in kit.archives])


def way_of_kit() -> Way:
    """Building by the kit on the path."""
    kit = find_kit()
    stop_where_it_lacks(kit)

    def make(program: Program, room: Path) -> None:
        compiled(kit, module_of(program, kit, room), room, room / program.name)

    return Way(kit.version, lambda it: sum_of_sources(it, CODE), make, "without a proof")


def way_at_hand(of_kit: Callable[[], Way]) -> Way:
    """The kit's way where its `rt` is on the path, and else cargo's."""
    if shutil.which("rt") is not None:
        return of_kit()
    if shutil.which("cargo") is not None:
        return way_of_cargo()
    raise Stopped("the command rt of the Rattle kit isn't on the path, and neither is cargo, which "
                  f"builds it too, without a proof: {TO_INSTALL}")


def build_once(program: Program, way: Way) -> bool:
    """Builds in a folder beside the target, renames, and tells whether no source changed since."""
    sources = way.sum_of(program)
    with tempfile.TemporaryDirectory(prefix=f".{program.name}-", dir=program.unproved.parent) as it:
        way.make(program, Path(it))
        seen = time.time_ns()
        if way.sum_of(program) != sources:
            return False
        # (without a record the old program isn't run, so no moment has a wrong pair)
        with contextlib.suppress(FileNotFoundError):
            path_of(program.unproved).unlink()
        os.replace(Path(it) / program.name, program.unproved)
    write_record(program, program.unproved, False, way.by, sources, seen)
    return True


def build(program: Program) -> None:
    """Makes `unproved/NAME` the program of the sources as they are, unless it is that already."""
    way = way_at_hand(way_of_kit)
    with alone(program):
        if is_current(program, program.unproved):
            return
        drop_leftovers(program)
        again = " anew" if program.unproved.exists() else ""
        say(program, f"building{again} from the sources, {way.told}: about a minute")
        try:
            with telling_time(program):
                is_built = any(build_once(program, way) for _ in range(TRIES))
            if not is_built:
                raise Stopped("the sources changed while it was built: start it again")
        except OSError as error:
            place = error.filename or program.unproved.parent
            raise Stopped(f"it can't be built in {place} ({error.strerror})") from error
