"""Runs the program cases of tests/cases over the programs: python3 tests/run.py

Each case that fails is told with what had to come and what came. The last line is
`N passed, M failed`, and the status is 0 exactly where cases ran and none failed. `./vdpm`,
`./prepare`, `./simplify`, `./pack` and `./paint` are run where no other program is named;
tests/README.md tells the form of the cases.
"""
import argparse
import hashlib
import os
import shlex
import subprocess
import sys
from concurrent.futures import ThreadPoolExecutor
from pathlib import Path
from typing import List, Optional, Sequence, Tuple

import builders
from builders import Data
from case_files import CASES, Case, CaseFault, read_cases, words_of
from programs import READING, TOP, NoProgram, Programs
from running import Ended, Send, run

OUT_OF_MEMORY = 5
SHOWN = 300
# What comes of a case that can't be run: a builder, program or device that isn't there.
NOT_RUN = (builders.BuildFault, ValueError, KeyError, OSError, subprocess.SubprocessError)


def passed_through(case: Case, line: str, sends: Sequence[Send], programs: Programs) -> Send:
    """What a program makes of the input so far, to be read in its place."""
    program, *rest = shlex.split(line)
    given = b"".join(builders.flat(send.data) for send in sends)
    words = [str(programs.paths[program]), *words_of(rest)]
    done = subprocess.run(words, input=given, capture_output=True, timeout=case.seconds, check=True)
    return Send([(done.stdout, 1)], 0)


def told(case: Case, programs: Programs) -> Tuple[List[Send], bytes]:
    """What a case's program reads, and what it has to write."""
    sends: List[Send] = []
    output = b""
    for step in case.steps:
        if step.key == "through":
            sends = [passed_through(case, step.value, sends, programs)]
            continue
        data: Data = builders.build(step.value, case.named)
        if step.key == "in":
            sends.append(Send(data, len(output) if case.live else 0))
        else:
            output += builders.flat(data)
    return sends, output


def short(some: bytes) -> str:
    text = repr(some)[2:-1]
    return text if len(text) <= SHOWN else f"{text[:SHOWN]}.. ({len(some)} bytes)"


def first_difference(wanted: bytes, got: bytes) -> List[str]:
    """Both texts from shortly before the byte at which they part."""
    pairs = enumerate(zip(wanted, got))
    at = next((i for i, (a, b) in pairs if a != b), min(len(wanted), len(got)))
    start = max(0, at - 40)
    where = "" if start == 0 else f" from byte {start}"
    return [
        f"output, wanted{where}: {short(wanted[start:])}",
        f"output, got{where}:    {short(got[start:])}",
    ]


def differences(case: Case, output: bytes, ended: Ended) -> List[str]:
    found = []
    if ended.status is None:
        found.append(f"stopped after {case.seconds:g} seconds")
    elif ended.status != case.status:
        found.append(f"status, wanted: {case.status}, got: {ended.status}")
    if case.output_sum is not None:
        digest, length = hashlib.sha256(ended.output).hexdigest(), len(ended.output)
        if (digest, length) != tuple(case.output_sum):
            found.append(f"output, wanted: sum {case.output_sum.digest} {case.output_sum.length}")
            found.append(f"output, got:    sum {digest} {length}: {short(ended.output)}")
    elif ended.output != output:
        found += first_difference(output, ended.output)
    if ended.errors != case.errors:
        found.append(f"errors, wanted: {short(case.errors)}")
        found.append(f"errors, got:    {short(ended.errors)}")
    return found


def has_no_memory(case: Case, ended: Ended) -> bool:
    """Whether a case with a limit of memory ended for want of it, as is right."""
    line = f"{case.program}: out of memory\n".encode()
    return case.memory is not None and ended == Ended(OUT_OF_MEMORY, b"", line)


def failure(case: Case, programs: Programs) -> Optional[str]:
    """What is told of a case that failed."""
    try:
        sends, output = told(case, programs)
        ended = run(case, str(programs.paths[case.program]), sends)
    except NOT_RUN as fault:
        found = [f"not run: {fault!r}"]
    else:
        found = [] if has_no_memory(case, ended) else differences(case, output, ended)
    if not found:
        return None
    words = " ".join([case.program, *map(shlex.quote, case.words)])
    return "\n  ".join([f"FAILED {case.name} ({case.place}): {words}", *found])


def failures(cases: Sequence[Case], programs: Programs, jobs: int) -> int:
    """Runs the cases side by side, tells of those that failed, and answers how many did."""
    failed = 0
    with ThreadPoolExecutor(jobs) as pool:
        for text in pool.map(lambda case: failure(case, programs), cases):
            if text is not None:
                failed += 1
                print(text, flush=True)
    return failed


def with_live(case: Case) -> List[Case]:
    """The case; and where it is a whole run of `view`, the same of `live`, which does what `view`
    does with a script that has no fault."""
    if case.program != "vdpm" or case.words[:1] != ["view"] or case.status != 0:
        return [case]
    words = ["live", *case.words[1:]]
    return [case, case._replace(name=f"{case.name} as live", words=words)]


def asked(arguments: argparse.Namespace) -> List[Case]:
    written = read_cases(arguments.files or sorted(CASES.glob("*.cases")))
    cases = [case for one in written for case in with_live(one)]
    return [case for case in cases if arguments.only in f"{case.place} {case.name}"]


def parsed() -> argparse.Namespace:
    parser = argparse.ArgumentParser(description=__doc__.split("\n\n")[0])
    parser.add_argument("files", nargs="*", type=Path, help="files of cases; else tests/cases")
    parser.add_argument("--only", default="", metavar="TEXT", help="cases whose name has TEXT")
    parser.add_argument("--list", action="store_true", help="tell the names, and run nothing")
    parser.add_argument("--jobs", type=int, default=os.cpu_count() or 1, help="runs at a time")
    for name in READING:
        parser.add_argument(f"--{name}", type=Path, default=TOP / name, metavar="PATH")
    return parser.parse_args()


def main() -> int:
    arguments = parsed()
    try:
        cases = asked(arguments)
    except CaseFault as fault:
        print(fault, file=sys.stderr)
        return 2
    if arguments.list:
        print("\n".join(case.name for case in cases))
        return 0
    programs = Programs({name: getattr(arguments, name) for name in READING})
    try:
        programs.settle()
    except NoProgram as fault:
        print(f"{fault}, so no case was run")
        failed = len(cases)
    else:
        failed = failures(cases, programs, arguments.jobs)
    print(f"{len(cases) - failed} passed, {failed} failed")
    return 0 if cases and not failed else 1


if __name__ == "__main__":
    sys.exit(main())
