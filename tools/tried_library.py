"""What the tests of the library share: the library itself, and the cases that it is tried on.

The library that VDPM_LIBRARY names, with its archive beside it, is tried. Where the variable isn't
set it is the one in unproved/, which is built anew where it isn't of these sources.
"""
import os
import re
import subprocess
import sys
import unittest
from pathlib import Path
from typing import Iterable, Iterator, List, NamedTuple, Optional, Sequence, Tuple

TOP = Path(__file__).resolve().parent.parent
sys.path[:0] = [str(TOP / "tools"), str(TOP / "tests"), str(TOP / "python")]

import builders  # noqa: E402
from case_files import CASES, Case, read_cases  # noqa: E402
from library import build  # noqa: E402
from quick_start.record import is_current  # noqa: E402
from quick_start.sources import LIBRARY, Program  # noqa: E402
from quick_start.stopped import Stopped  # noqa: E402

FAULT = re.compile(rb"^\w+: fault (\d+)(?: \w+ (\d+))?(?: \(.*\))?$", re.M)
LONGEST = 1_000_000


def take_library() -> None:
    """Has VDPM_LIBRARY name a library of these sources. Tests are skipped where none is built."""
    if os.environ.get("VDPM_LIBRARY"):
        return
    program = Program(TOP, LIBRARY)
    try:
        if not all(is_current(program, file) for file in program.files_in("unproved")):
            build(TOP / "unproved")
    except Stopped as why:
        raise unittest.SkipTest(str(why)) from why
    os.environ["VDPM_LIBRARY"] = str(TOP / "unproved" / "libvdpm.so")


def compiled(name: str, folder: Path, *more: str) -> Path:
    """A program of examples/library, with the static library beside the shared one."""
    archive, made = Path(os.environ["VDPM_LIBRARY"]).with_suffix(".a"), folder / name
    words = ["cc", "-std=c99", "-Wall", "-Wextra", "-Werror", "-O1", f"-I{TOP}"]
    words += [str(TOP / f"examples/library/{name}.c"), str(archive), "-o", str(made), *more]
    subprocess.run(words, check=True)
    return made


# The Nth allocation fails, where N is the value of FAIL_AT, and says so.
FAILING = """
#include <stdio.h>
#include <stdlib.h>
void *__real_malloc(size_t size);
void *__real_realloc(void *at, size_t size);
static int fails(void) {
    static long done;
    if (++done != atol(getenv("FAIL_AT"))) return 0;
    fprintf(stderr, "allocation failed\\n");
    return 1;
}
void *__wrap_malloc(size_t size) { return fails() ? NULL : __real_malloc(size); }
void *__wrap_realloc(void *at, size_t size) { return fails() ? NULL : __real_realloc(at, size); }
"""


def runs_that_fail(name: str, folder: Path, words: Sequence[str],
                   given: bytes) -> Iterator["subprocess.CompletedProcess[bytes]"]:
    """Runs a program of examples/library with each allocation failing in turn, and at last with
    none."""
    source = folder / "failing.c"
    source.write_text(FAILING, encoding="utf-8")
    made = compiled(name, folder, str(source), "-Wl,--wrap=malloc,--wrap=realloc")
    number, fails = 0, True
    while fails:
        number += 1
        told = {**os.environ, "FAIL_AT": str(number)}
        done = subprocess.run([str(made), *words], input=given, capture_output=True, env=told,
                              check=False)
        fails = b"allocation failed" in done.stderr
        yield done


class Asked(NamedTuple):
    """A case as the library meets it."""

    name: str
    words: List[str]
    given: bytes
    output: Optional[bytes]
    digest: Optional[str]
    errors: bytes

    @property
    def fault(self) -> Optional[Tuple[int, Optional[int]]]:
        """The fault that is told, and its place."""
        told = FAULT.search(self.errors)
        return (int(told[1]), None if told[2] is None else int(told[2])) if told else None


def asked_of(case: Case) -> Optional[Asked]:
    """The case, if nothing but its input and its words bears on it."""
    if case.devices or case.memory or case.status not in (0, 1):
        return None
    if any(step.key == "through" for step in case.steps):
        return None
    parts = {key: b"".join(builders.flat(builders.build(step.value, case.named))
                           for step in case.steps if step.key == key) for key in ("in", "out")}
    stored = None if case.output_sum else parts["out"]
    digest = case.output_sum.digest if case.output_sum else None
    return Asked(case.name, case.words, parts["in"], stored, digest, case.errors)


def cases_of(program: str, *commands: str) -> Iterator[Asked]:
    """The cases of a program, or of these commands of it, that aren't too long."""
    for case in read_cases(sorted(CASES.glob("*.cases"))):
        if case.program != program or commands and case.words[:1] not in [[it] for it in commands]:
            continue
        asked = asked_of(case)
        if asked is not None and len(asked.given) < LONGEST:
            yield asked


def stream_length(data: bytes) -> int:
    """How many bytes of a whole stream the data begins with (docs/FORMATS.md)."""

    def word(at: int) -> int:
        return int.from_bytes(data[at : at + 4], "little")

    at = 8 if word(4) == 1 else 12
    _, roots, bases, records = (word(at + 4 * i) for i in range(4))
    at += 16 + 20 * roots + 16 * bases
    for _ in range(records):
        at += 44 + 24 * bin(word(at + 40)).count("1")
    return at


def all_asked() -> Iterator[Asked]:
    """The scripts of `view` and `live`."""
    for asked in cases_of("vdpm", "view", "live"):
        if len(asked.words) == 2 and asked.words[1].isdigit():
            yield asked


def flat(array: Iterable[int]) -> List[int]:
    """The numbers of an array."""
    return [int(n) for n in getattr(array, "ravel", lambda: array)()]
