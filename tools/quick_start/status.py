"""What is known of the programs and of the library that stand in this repository."""
from pathlib import Path
from typing import Iterator

from .kit import find_kit
from .record import Record, is_current, read_record, sum_now
from .sources import LIBRARY, PROGRAMS, Program, sum_of_file
from .stopped import Stopped


def kit_now() -> str:
    try:
        return find_kit().version
    except Stopped:
        return "no kit on the path"


def standing(program: Program, built: Path, record: Record) -> str:
    """How a program or a library stands to the sources as they are."""
    # (the scripts at the top look at each program; whoever loads the library doesn't)
    so = "" if program.is_library else ", so it isn't run"
    if not built.is_file() or record.sum != sum_of_file(built):
        return f"is another file than was built{so}"
    if record.sources != sum_now(program, record):
        return f"of other sources than these{so}"
    return "of these sources"


def told_of(program: Program, built: Path, kit: str) -> Iterator[str]:
    """The lines on one file that was built."""
    record, place = read_record(built), built.relative_to(program.top)
    if record is None:
        yield f"{place}: nothing is known of it" if built.exists() else f"{place}: not built"
        return
    how = "proved" if record.proved else "not proved, run-time checks on"
    yield f"{place}: {how}; {standing(program, built, record)}"
    other = "" if record.kit == kit or record.is_by_cargo else f" (now: {kit})"
    yield f"    built {record.built} at commit {record.commit} by {record.kit}{other}"
    yield f"    sha256 {record.sum}"


def version_lines(program: Program) -> Iterator[str]:
    """What the program is, and of the one that would be run, whether it is proved and of what."""
    usage = program.top / "tools/quick_start/usage" / program.name
    yield usage.read_text(encoding="utf-8").partition(". ")[0] + "."
    for built in (program.proved, program.unproved):
        record = read_record(built)
        if record and is_current(program, built):
            yield "proved" if record.proved else "not proved, run-time checks are on"
            yield f"built {record.built} at commit {record.commit} by {record.kit}"
            yield f"of these sources, sha256 {record.sources}"
            return
    yield "not built of these sources yet: the next run builds it"


def status_lines(top: Path) -> Iterator[str]:
    kit = kit_now()
    for name in (*PROGRAMS, LIBRARY):
        program = Program(top, name)
        for built in program.files_in("proved") + program.files_in("unproved"):
            yield from told_of(program, built, kit)
