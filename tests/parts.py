"""Runs all tests of this repository, or the parts that are named: ./test [PART..]

    proofs      every proof, wrong body, test and program, by `rt ci`
    rows        the cases of tests/cases, by tests/run.py
    tools       the tests of the tools and of these tests: tools/test_*.py and tests/test_*.py
    random      random cases, compared with a plain model, by tests/random_cases.py
    rust        the same sources as plain Rust, where there is a cargo: made by tools/plain_rust.py
                and built once with the checks of the run time; its own tests, the cases, and the
                library's tests
    documents   names, links and length of all pages, by tests/pages.py, the width of all lines, by
                tests/widths.py, and the commands that pages print, by tools/try_document.py
    lint        the style and types of the Python and of the modules for browsers, by tests/lint.py,
                as far as flake8, mypy and tsc are installed

`./test wrong [CRATE..]` tries the wrong bodies of tests/wrong_bodies instead, by tests/wrong.py,
and `./test worlds SEED COUNT` random fronts of so many random worlds, by tests/random_worlds.py:
they take hours and minutes, so that they are no part of the others.

Each part tells how many passed and failed. What can't be run here is said aloud. The last line is
`N passed, M failed` over all parts, and the status is 0 exactly where something passed and nothing
failed. After `proofs` the other parts run the programs that were proved there.
"""
import os
import re
import resource
import shutil
import subprocess
import sys
import tempfile
import time
from pathlib import Path
from typing import Callable, Dict, List, NamedTuple, Optional, Tuple

TOP = Path(__file__).resolve().parent.parent
PROGRAMS = ("vdpm", "prepare", "simplify", "pack", "paint")
DOCUMENTS = (
    "README.md", "CONTRIBUTING.md", "docs/GUIDE.md", "docs/WORLDS.md",
    "docs/commands/view.md", *(f"docs/commands/{name}.md" for name in PROGRAMS),
)  # fmt: skip
# What is tried over cargo's library too.
LIBRARY_TESTS = (
    "", "_making", "_means", "_fits", "_inputs", "_sizes", "_views", "_packed", "_slots",
    "_buffers",
)  # fmt: skip
SEED, RANDOM_CASES = "1", "300"


class Count(NamedTuple):
    """How many passed and failed, and what was left out."""

    passed: int
    failed: int
    left_out: Tuple[str, ...] = ()

    def plus(self, other: "Count") -> "Count":
        left_out = self.left_out + other.left_out
        return Count(self.passed + other.passed, self.failed + other.failed, left_out)


NONE = Count(0, 0)
FAILURE = Count(0, 1)


class Run(NamedTuple):
    """What came of a command."""

    status: int
    text: str


def ran(words: List[str], **settings: str) -> Run:
    """Runs a command at the top, with these settings, shows what it says and answers it."""
    said: List[str] = []
    quiet, pipe, both = subprocess.DEVNULL, subprocess.PIPE, subprocess.STDOUT
    env = {**os.environ, **settings}
    with subprocess.Popen(
        words, cwd=TOP, env=env, stdin=quiet, stdout=pipe, stderr=both
    ) as process:
        assert process.stdout is not None
        for line in process.stdout:
            said.append(line.decode(errors="replace"))
            print(said[-1], end="", flush=True)
    return Run(process.returncode, "".join(said))


def counted(run: Run, form: str) -> Count:
    """The numbers of the last line of this form, where the status agrees with them."""
    found = re.findall(form, run.text, re.MULTILINE)
    if not found:
        return FAILURE
    passed, failed = (int(number) for number in found[-1])
    return Count(passed, failed if failed or run.status == 0 else 1)


LAST_LINE = r"^(\d+) passed, (\d+) failed$"


def proofs(given: Dict[str, Path], room: Path) -> Count:
    """The gate of the kit; the programs that it leaves are copied into the room."""
    if shutil.which("rt") is None:
        print("rt isn't on the path, so nothing is proved")
        return FAILURE
    count = counted(ran(["rt", "ci"]), LAST_LINE)
    built = {name: TOP / "crates" / name / "out" / name for name in PROGRAMS}
    if not count.failed and all(path.is_file() for path in built.values()):
        given.update({name: Path(shutil.copy(path, room)) for name, path in built.items()})
    return count


def paths(given: Dict[str, Path]) -> List[str]:
    return [word for name, path in given.items() for word in (f"--{name}", str(path))]


def rows(given: Dict[str, Path], room: Path) -> Count:
    return counted(ran([sys.executable, "tests/run.py", *paths(given)]), LAST_LINE)


def tools(given: Dict[str, Path], room: Path) -> Count:
    count = NONE
    for folder in ("tools", "tests"):
        for file in sorted((TOP / folder).glob("test_*.py")):
            count = count.plus(unit_tests(file, given))
    return count


def unit_tests(file: Path, given: Dict[str, Path], library: str = "", package: str = "") -> Count:
    """The numbers that unittest tells of a file, and what it left out."""
    # (the tests of the window ask for their program so; its prepare stands beside it)
    settings = {"VIEWER_TESTS_PROGRAM": str(given["vdpm"])} if given else {}
    settings.update({"VDPM_LIBRARY": library} if library else {})
    settings.update({"RUST_PACKAGE": package} if package else {})
    run = ran([sys.executable, str(file)], **settings)
    found = re.search(r"^Ran (\d+) tests?", run.text, re.MULTILINE)
    if not found:
        return FAILURE
    numbers = re.findall(r"(failures|errors|skipped)=(\d+)", run.text)
    told = {word: int(number) for word, number in numbers}
    failed, skipped = told.get("failures", 0) + told.get("errors", 0), told.get("skipped", 0)
    if not failed and run.status:
        failed = 1
    reasons = re.findall(r"^LEFT OUT: (.*)", run.text, re.MULTILINE)
    if skipped and not reasons:
        reasons = [f"{skipped} tests"]
    left_out = tuple(f"{file.name}: {reason}" for reason in reasons)
    return Count(max(0, int(found[1]) - failed - skipped), failed, left_out)


def random(given: Dict[str, Path], room: Path) -> Count:
    if not (TOP / "tests/random_cases.py").is_file():
        return Count(0, 0, ("tests/random_cases.py isn't there",))
    words = [sys.executable, "tests/random_cases.py", SEED, RANDOM_CASES, *paths(given)]
    return counted(ran(words), LAST_LINE)


def rust(given: Dict[str, Path], room: Path) -> Count:
    """What cargo builds of the sources, tried as the proved programs are."""
    if shutil.which("cargo") is None:
        return Count(0, 0, ("cargo isn't on the path, so the sources weren't tried as plain Rust",))
    package, checked = room / "rust", ["--profile", "checked", "--features", "c"]
    places = ["--manifest-path", str(package / "Cargo.toml"), "--target-dir", str(room / "target")]
    made = ran([sys.executable, "tools/plain_rust.py", str(package)])
    if made.status or ran(["cargo", "build", "--quiet", *checked, *places]).status:
        return FAILURE
    count = cargo_tests(ran(["cargo", "test", *checked, *places]))
    built = room / "target/checked"
    programs = {name: built / name for name in PROGRAMS}
    count = count.plus(counted(ran([sys.executable, "tests/run.py", *paths(programs)]), LAST_LINE))
    for name in LIBRARY_TESTS:
        file = TOP / "tools" / f"test_library{name}.py"
        count = count.plus(unit_tests(file, {}, str(built / "libvdpm.so")))
    return count.plus(web_module(package))


def cargo_tests(run: Run) -> Count:
    """The numbers that cargo tells of each file of tests, and of the docs."""
    found = re.findall(r"^test result: .* (\d+) passed; (\d+) failed;", run.text, re.MULTILINE)
    passed, failed = (sum(int(numbers[at]) for numbers in found) for at in (0, 1))
    return Count(passed, failed if failed or (found and not run.status) else 1)


def web_module(package: Path) -> Count:
    """The tests of the module for browsers, where this repository has them."""
    file = TOP / "tools/wasm/test_module.py"
    return unit_tests(file, {}, package=str(package)) if file.is_file() else NONE


def documents(given: Dict[str, Path], room: Path) -> Count:
    pages = ran([sys.executable, "tests/pages.py"])
    count = counted(pages, r"^(\d+) pages are as told, (\d+) aren't$")
    widths = ran([sys.executable, "tests/widths.py"])
    count = count.plus(counted(widths, r"^(\d+) files are within 100 columns, (\d+) aren't$"))
    return count.plus(commands(given, room))


def commands(given: Dict[str, Path], room: Path) -> Count:
    """Tries the documents, with the programs' own paths in the commands where they were proved."""
    named = [with_paths(TOP / name, room, given) for name in DOCUMENTS]
    # (scripts that they call ask for their programs so)
    settings = {name.upper(): str(path) for name, path in given.items()}
    run = ran([sys.executable, "tools/try_document.py", *map(str, named)], **settings)
    return counted(run, r"^(\d+) commands print what is told, (\d+) don't$")


def with_paths(document: Path, room: Path, given: Dict[str, Path]) -> Path:
    """The document, or a copy whose commands name the given programs."""
    if not given:
        return document
    lines = document.read_text(encoding="utf-8").splitlines(keepends=True)
    copy = room / document.name
    copy.write_text("".join(with_path(line, given) for line in lines), encoding="utf-8")
    return copy


def with_path(line: str, given: Dict[str, Path]) -> str:
    if not line.startswith("    $ "):
        return line
    for name, path in given.items():
        line = re.sub(rf"(?<![\w/.])\./{name}(?![\w-])", str(path), line)
    return line


def lint(given: Dict[str, Path], room: Path) -> Count:
    run = ran([sys.executable, "tests/lint.py"])
    left_out = tuple(re.findall(r"^LEFT OUT: (.*)", run.text, re.MULTILINE))
    return counted(run, LAST_LINE).plus(Count(0, 0, left_out))


# What a part does with the programs that were proved, by name, and a folder for its files.
Part = Callable[[Dict[str, Path], Path], Count]
PARTS: Dict[str, Part] = {
    "proofs": proofs, "rows": rows, "tools": tools, "random": random, "rust": rust,
    "documents": documents, "lint": lint,
}  # fmt: skip


def processor_seconds() -> float:
    used = resource.getrusage(resource.RUSAGE_CHILDREN)
    return used.ru_utime + used.ru_stime


def part(name: str, given: Dict[str, Path], room: Path) -> Count:
    print(f"== {name}", flush=True)
    began, used = time.monotonic(), processor_seconds()
    count = PARTS[name](given, room)
    for what in count.left_out:
        print(f"LEFT OUT of {name}: {what}")
    seconds, processor = time.monotonic() - began, processor_seconds() - used
    told = f"{count.passed} passed, {count.failed} failed"
    print(f"{name}: {told} ({seconds:.0f} seconds, {processor:.0f} of processor time)", flush=True)
    return count


def main(names: List[str]) -> int:
    if names[:1] in (["wrong"], ["worlds"]):
        file = "tests/wrong.py" if names[0] == "wrong" else "tests/random_worlds.py"
        return ran([sys.executable, file, *names[1:]]).status
    unknown: Optional[str] = next((name for name in names if name not in PARTS), None)
    if unknown is not None:
        print(f"test: `{unknown}` is no part\n\n{__doc__}", file=sys.stderr)
        return 2
    given: Dict[str, Path] = {}
    count = NONE
    with tempfile.TemporaryDirectory(prefix="test-") as room:
        for name in PARTS:
            if not names or name in names:
                count = count.plus(part(name, given, Path(room)))
    print(f"{count.passed} passed, {count.failed} failed")
    return 0 if count.passed and not count.failed else 1


if __name__ == "__main__":
    sys.exit(main(sys.argv[1:]))
