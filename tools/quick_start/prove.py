"""Proves and builds programs, and the library, by `rt`, on as many processors as there are.

`rt run` alone proves the libraries below a program one after another. `rt all check` proves as many
crates side by side as it is told, each once those below it are done, and keeps them, so that
`rt run` then has only the program itself to look at again, to compile and to link, and `rt lib`
only the library. (`rt ci` works
side by side too, but tries each must-fail edit and each test on the way, which takes several times
as long, and of its own run it leaves no record of what a program was built from.)
"""
import contextlib
import fcntl
import os
import queue
import re
import shutil
import subprocess
import sys
import threading
import time
from pathlib import Path
from typing import IO, Dict, Generator, Iterator, List, Optional, Sequence, TextIO, Tuple

from . import library
from .joining import stop_without_tools
from .kit import Kit, find_kit
from .progress import Watch, open_crate, open_goals
from .record import is_current, path_of, read_record, write_record
from .sources import (LIBRARY, PROGRAMS, PROVED, Program, crate_rows, crates_below,
                      sum_of_file, sum_of_sources)
from .stopped import Stopped

# The memory that a check may take, in kilobytes.
EACH = 3_000_000
# How often, in seconds, it is looked whether there is news to give.
TICK = 2
# An empty input has an empty answer, so these end with 0 exactly where all was proved and built.
TRIAL_WORDS: Dict[str, List[str]] = {
    "vdpm": ["--", "canon"],
    "prepare": [],
    "simplify": [],
    "pack": [],
    "paint": [],
}


def say(line: str) -> None:
    print(f"prove: {line}", file=sys.stderr, flush=True)


def lanes() -> int:
    """How many checks to run side by side: as many as there are processors, and memory for."""
    found = re.search(r"MemAvailable:\s+(\d+)", Path("/proc/meminfo").read_text())
    memory = int(found[1]) if found else EACH
    return max(1, min(len(os.sched_getaffinity(0)), memory // EACH))


@contextlib.contextmanager
def opened_log(top: Path) -> Iterator[TextIO]:
    """The log, once no other proof writes it."""
    try:
        log = open(top / "build.log", "a", encoding="utf-8")
    except OSError as error:
        raise Stopped(f"{top}/build.log can't be written ({error.strerror})") from error
    with log:
        try:
            fcntl.flock(log, fcntl.LOCK_EX | fcntl.LOCK_NB)
        except BlockingIOError:
            say("another ./prove works here; waiting for it")
            fcntl.flock(log, fcntl.LOCK_EX)
        log.truncate(0)
        yield log


def lines_of(stream: IO[str]) -> Iterator[Optional[str]]:
    """The stream's lines, and None where none came for a moment."""
    waiting: "queue.Queue[Optional[str]]" = queue.Queue()

    def read() -> None:
        for line in stream:
            waiting.put(line)
        waiting.put(None)

    reader = threading.Thread(target=read, daemon=True)
    reader.start()
    while True:
        try:
            line = waiting.get(timeout=TICK)
        except queue.Empty:
            yield None
            continue
        if line is None:
            return
        yield line.rstrip("\n")


def ran(words: List[str], folder: Path,
        log: TextIO) -> Generator[Optional[str], None, int]:
    """The lines that a command of `rt` prints, each put in the log too, and then its status."""
    with subprocess.Popen(words, cwd=folder, stdin=subprocess.DEVNULL, stdout=subprocess.PIPE,
                          stderr=subprocess.STDOUT, text=True, errors="replace") as process:
        assert process.stdout is not None
        try:
            for line in lines_of(process.stdout):
                if line is not None:
                    print(line, file=log, flush=True)
                yield line
        except BaseException:
            # (nobody waits for the rest)
            process.terminate()
            raise
    if process.returncode < 0:
        raise Stopped(f"rt was stopped by signal {-process.returncode}: start ./prove again")
    return process.returncode


def whole_run(words: List[str], folder: Path, log: TextIO) -> Tuple[int, List[str]]:
    """The status of a command of `rt`, and the lines that it printed."""
    running = ran(words, folder, log)
    lines: List[str] = []
    while True:
        try:
            line = next(running)
        except StopIteration as end:
            return end.value, lines
        lines += [line] if line else []


def prove_crates(programs: Sequence[Program], log: TextIO) -> List[str]:
    """Proves the crates of these programs, and returns those that failed. It ends early where none
    of the programs can be proved any more."""
    top, rows = programs[0].top, crate_rows(programs[0].top)
    below = [crates_below(rows, program.crate) for program in programs]
    # At the top of the repository rt takes each crate, in a program's folder what is below it.
    folder, crates = (programs[0].folder, below[0]) if len(programs) == 1 else (top, list(rows))
    say(f"{len(crates)} crates, {lanes()} side by side; the whole output goes to build.log")
    watch = Watch(crates, say)
    for line in ran(["rt", "all", "check", "--jobs", str(lanes())], folder, log):
        if line is None:
            watch.wait(top)
        else:
            watch.take(line)
        if all({*watch.failed} & {*crates} for crates in below):
            return watch.failed
    if not watch.done:
        lines = open_goals(watch.lines) or watch.lines[-3:]
        raise Stopped("\n    ".join(["rt stopped before any proof:", *lines]))
    return watch.failed


def made_by_rt(program: Program) -> Path:
    """Where `rt run` leaves a program. `rt ci` takes all away there, so it doesn't stay."""
    return program.folder / "out" / program.name


def stamp_of(program: Program) -> Path:
    """Where `rt run` notes the program that it proved and built."""
    return made_by_rt(program).with_suffix(".stamp")


def is_stamped(program: Program) -> bool:
    try:
        stamp = stamp_of(program).read_text(encoding="utf-8")
        return stamp.endswith(sum_of_file(made_by_rt(program)))
    except OSError:
        return False


def put_in_place(program: Program) -> None:
    """Copies what `rt run` made to where it stays, as one step. Its record comes last."""
    half = program.proved.with_name(f".{program.name}.{os.getpid()}")
    program.proved.parent.mkdir(exist_ok=True)
    shutil.copy(made_by_rt(program), half)
    with contextlib.suppress(FileNotFoundError):
        path_of(program.proved).unlink()
    os.replace(half, program.proved)


def make_program(program: Program, log: TextIO) -> Tuple[bool, List[str]]:
    """Has rt compile and link a program: whether it is proved and built, and what rt said."""
    # (where rt fails, an older program is not to pass for this one)
    with contextlib.suppress(FileNotFoundError):
        stamp_of(program).unlink()
    words = ["rt", "run", *TRIAL_WORDS[program.name]]
    _, lines = whole_run(words, program.folder, log)
    return is_stamped(program), lines


def make_library(program: Program, log: TextIO) -> Tuple[bool, List[str]]:
    """The same of the library. No stamp is left of one; `rt lib` ends with 0 where it is proved."""
    made = library.made_by_rt(program)
    with contextlib.suppress(FileNotFoundError):
        made.unlink()
    status, lines = whole_run(["rt", "lib"], program.folder, log)
    return status == 0 and made.exists(), lines


def build_program(program: Program, kit: Kit, log: TextIO) -> bool:
    """Builds a program or the library, whose crates are proved, and writes its record."""
    say(f"building {program.name}")
    sources = sum_of_sources(program, PROVED)
    is_made, lines = (make_library if program.is_library else make_program)(program, log)
    if not is_made:
        say("\n".join(open_crate(program.crate, lines)))
        return False
    seen = time.time_ns()
    if sum_of_sources(program, PROVED) != sources:
        say(f"the sources of {program.name} changed meanwhile: start ./prove again")
        return False
    if program.is_library:
        library.put_proved(program, kit)
    else:
        put_in_place(program)
    for built in program.files_in("proved"):
        write_record(program, built, True, kit.version, sources, seen)
    places = " and ".join(f"proved/{name}" for name in program.files)
    say(f"{program.name} is proved and built: {places}")
    return True


def is_done(program: Program, kit: Kit) -> bool:
    """Whether the program is proved already, of the sources as they are and by this kit."""
    files = program.files_in("proved")
    by_this_kit = all(it and it.kit == kit.version for it in map(read_record, files))
    done = by_this_kit and all(is_current(program, built) for built in files)
    if done:
        say(f"{program.name} is proved already, of these sources: ./prove --status tells more")
    return done


def prove(top: Path, names: Sequence[str]) -> bool:
    """Proves and builds these, or all programs, and returns whether that was done."""
    kit, rows = find_kit(), crate_rows(top)
    if LIBRARY in names:
        stop_without_tools()
    with opened_log(top) as log:
        named = [Program(top, name) for name in dict.fromkeys(names or PROGRAMS)]
        programs = [program for program in named if not is_done(program, kit)]
        if not programs:
            return True
        failed = {*prove_crates(programs, log)}
        done = [not failed & {*crates_below(rows, it.crate)} and build_program(it, kit, log)
                for it in programs]
    return all(done)
