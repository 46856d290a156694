"""Reads the tables of program cases in tests/cases/*.cases; tests/README.md tells their form.

`read_cases` answers every case of some files. Texts and streams that a file names may be used in
all of them, so all files are read together.
"""
import re
import shlex
from pathlib import Path
from typing import Dict, Iterator, List, NamedTuple, Optional, Sequence, Tuple

import builders

CASES = Path(__file__).resolve().parent / "cases"
# The keys that take one value, and stand once in a case at most.
ONCE = ("run", "status", "pieces", "memory", "seconds", "rows", "live")
STEPS = ("in", "out", "through")
DEVICES = {
    "stdin": ("closed", "folder", "file", "open", "reset", "terminal", "interrupted"),
    "stdout": ("closed", "full", "gone", "leaves", "room", "interrupted"),
    "stderr": ("closed", "full"),
}
SUM = re.compile(r"sum ([0-9a-f]{64}) (\d+)")


class CaseFault(Exception):
    """What is wrong with a file of cases, and in which line."""

    def __init__(self, place: str, reason: str) -> None:
        super().__init__(f"{place}: {reason}")


class Sum(NamedTuple):
    """An output that is told by its SHA-256 and its length."""

    digest: str
    length: int


class Line(NamedTuple):
    place: str
    key: str
    value: str


class Case(NamedTuple):
    """A run of a program, and what has to come of it.

    The lines `in`, `out` and `through` stand as they are, since what they tell may be large: a run
    builds their bytes.
    """

    name: str
    place: str
    program: str
    words: List[str]
    steps: List[Line]
    named: Dict[str, bytes]
    live: bool
    output_sum: Optional[Sum]
    errors: bytes
    status: int
    devices: Dict[str, List[str]]
    pieces: Optional[int]
    memory: Optional[int]  # in KiB
    seconds: float


class Block(NamedTuple):
    """A named text, a named stream or a case: its head, and the lines under it."""

    head: Line
    lines: List[Line]


def lines_of(path: Path) -> Iterator[Line]:
    """The lines that aren't blank and no comments, as a key and what follows it."""
    for number, line in enumerate(path.read_text(encoding="utf-8").splitlines(), 1):
        if line.strip() and not line.startswith("#"):
            key, _, value = line.partition(" ")
            yield Line(f"{path.name}:{number}", key, value)


def blocks_of(path: Path) -> List[Block]:
    blocks: List[Block] = []
    for line in lines_of(path):
        if line.key in ("case", "text", "stream"):
            blocks.append(Block(line, []))
        elif blocks:
            blocks[-1].lines.append(line)
        else:
            raise CaseFault(line.place, "a `case`, `text` or `stream` comes first")
    return blocks


def named_bytes(block: Block) -> bytes:
    """What a block `text` or `stream` names."""
    for line in block.lines:
        if line.key != "|":
            raise CaseFault(line.place, "each line of a text or stream begins with `| `")
    values = [line.value for line in block.lines]
    if block.head.key == "stream":
        return builders.stream_of(int(word) for value in values for word in value.split())
    return b"".join(builders.unescaped(value) + b"\n" for value in values)


def rows_of(block: Block) -> List[Dict[str, str]]:
    """The names and values that a case is made with: one empty row where it has no `rows`."""
    heads = [line for line in block.lines if line.key == "rows"]
    if not heads:
        return [{}]
    counted = re.fullmatch(r"(\w+) (\d+)\.\.(\d+)", heads[0].value)
    if counted:
        name, low, high = counted.groups()
        return [{name: str(value)} for value in range(int(low), int(high) + 1)]
    names = [name.strip() for name in heads[0].value.split("|")]
    rows = []
    for line in block.lines:
        if line.key == "|":
            fields = [field.strip() for field in f" {line.value} ".split(" | ")]
            if len(fields) != len(names):
                raise CaseFault(line.place, f"{len(names)} fields were to come")
            rows.append(dict(zip(names, fields)))
    return rows


def filled(line: Line, row: Dict[str, str]) -> Line:
    value = line.value
    for name, field in row.items():
        value = value.replace("{" + name + "}", field)
    return line._replace(value=value)


def device_of(line: Line) -> Tuple[str, List[str]]:
    stream, *kind = line.value.split()
    if not kind or kind[0] not in DEVICES.get(stream, ()):
        raise CaseFault(line.place, "no such device")
    return stream, kind


def words_of(words: Sequence[str]) -> List[str]:
    return [builders.unescaped(word).decode("utf-8", "surrogateescape") for word in words]


def number_of(once: Dict[str, str], key: str) -> Optional[int]:
    return int(once[key]) if key in once else None


def check_keys(lines: Sequence[Line]) -> None:
    seen = set()
    for line in lines:
        if line.key not in ONCE + STEPS + ("err", "device", "|"):
            raise CaseFault(line.place, f"`{line.key}` is no key")
        if line.key in ONCE and line.key in seen:
            raise CaseFault(line.place, f"`{line.key}` stands twice")
        seen.add(line.key)


def case_of(block: Block, row: Dict[str, str], named: Dict[str, bytes]) -> Case:
    check_keys(block.lines)
    lines = [filled(line, row) for line in block.lines if line.key not in ("rows", "|")]
    once = {line.key: line.value for line in lines if line.key in ONCE}
    errors = [builders.unescaped(line.value) + b"\n" for line in lines if line.key == "err"]
    if "run" not in once:
        raise CaseFault(block.head.place, "a case has a line `run PROGRAM WORD..`")
    program, *words = shlex.split(once["run"])
    sums = [SUM.fullmatch(line.value) for line in lines if line.key == "out"]
    told = [Sum(found[1], int(found[2])) for found in sums if found]
    name = block.head.value.strip()
    return Case(
        name=f"{name}[{' '.join(row.values())}]" if row else name,
        place=block.head.place,
        program=program,
        words=words_of(words),
        steps=[line for line in lines if line.key in STEPS and not SUM.fullmatch(line.value)],
        named=named,
        live="live" in once,
        output_sum=told[0] if told else None,
        errors=b"".join(errors),
        status=int(once.get("status", "0")),
        devices=dict(device_of(line) for line in lines if line.key == "device"),
        pieces=number_of(once, "pieces"),
        memory=number_of(once, "memory"),
        seconds=float(once.get("seconds", "300")),
    )


def all_named(blocks: Sequence[Block]) -> Dict[str, bytes]:
    """The texts and streams that have a name."""
    named: Dict[str, bytes] = {}
    for block in blocks:
        name = block.head.value.strip()
        if block.head.key != "case":
            if name in named:
                raise CaseFault(block.head.place, f"{name} stands twice")
            named[name] = named_bytes(block)
    return named


def read_cases(paths: Sequence[Path]) -> List[Case]:
    """All cases of these files, in their order. No two have one name."""
    blocks = [block for path in paths for block in blocks_of(path)]
    named = all_named(blocks)
    heads = [block for block in blocks if block.head.key == "case"]
    cases = [case_of(block, row, named) for block in heads for row in rows_of(block)]
    names = set()
    for case in cases:
        if case.name in names:
            raise CaseFault(case.place, f"{case.name} stands twice")
        names.add(case.name)
    return cases
