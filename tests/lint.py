"""Looks over the Python and the modules of JavaScript: python3 tests/lint.py [PROGRAM..]

    flake8   names that nothing defines or uses, and the width; settings in .flake8
    mypy     the types of the Python; settings in pyproject.toml
    tsc      the types of the modules; settings in tsconfig.json

Each is run where it is installed, and what isn't is told. Each tells what it finds by place and
line. The last line is `N passed, M failed`, with one for each that was run.
"""
import shutil
import subprocess
import sys
import tempfile
import time
from pathlib import Path
from typing import Dict, List, NamedTuple

TOP = Path(__file__).resolve().parent.parent


class Linter(NamedTuple):
    """How a program is called, and the package of Debian that has it."""

    package: str
    calls: List[List[str]]


# (mypy takes the scripts of one folder at a time, since two folders have files of one name; those
# of benches/ aren't strict yet)
LINTERS: Dict[str, Linter] = {
    "flake8": Linter("flake8", [["."]]),
    "mypy": Linter("mypy", [["tests"], ["tools", "python"]]),
    "tsc": Linter("node-typescript", [["--project", "tsconfig.json"]]),
}


def words_of(name: str, room: str) -> List[List[str]]:
    """The commands of a program, whose files of its own go into the room."""
    own = ["--cache-dir", room] if name == "mypy" else []
    return [[name, *own, *call] for call in LINTERS[name].calls]


def is_clean(name: str) -> bool:
    """Whether a program finds nothing."""
    began = time.monotonic()
    with tempfile.TemporaryDirectory(prefix="lint-") as room:
        ended = [subprocess.run(words, cwd=TOP, check=False).returncode
                 for words in words_of(name, room)]
    clean = not any(ended)
    told = "is clean" if clean else "FAILED"
    print(f"{name}: {told} ({time.monotonic() - began:.0f} seconds)", flush=True)
    return clean


def main(names: List[str]) -> int:
    unknown = [name for name in names if name not in LINTERS]
    if unknown:
        print(__doc__, file=sys.stderr)
        return 2
    passed, failed = 0, 0
    for name in names or LINTERS:
        if shutil.which(name) is None:
            package = LINTERS[name].package
            print(f"LEFT OUT: {name} isn't installed (Debian's package {package} has it)")
        elif is_clean(name):
            passed += 1
        else:
            failed += 1
    print(f"{passed} passed, {failed} failed")
    return 1 if failed else 0


if __name__ == "__main__":
    sys.exit(main(sys.argv[1:]))
