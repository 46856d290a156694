"""Looks whether the lines of code, definitions, proofs and pages have at most 100 columns:
python3 tests/widths.py

A line that can't be broken may be longer: an attribute (`rt fmt` keeps it on one line) and the
import of a single name in Rattle; a row of a table, a picture, what a program prints, and a word or
a link alone in a page. The last line is `N files are within 100 columns, M aren't`, and the status
is 0 exactly where there is a file and none fails.
"""
import re
import subprocess
import sys
from pathlib import Path
from typing import Iterator, List, Tuple

TOP = Path(__file__).resolve().parent.parent
MOST_COLUMNS = 100
KINDS = (".rt", ".rs", ".antt", ".py", ".mjs", ".js", ".c", ".h", ".html", ".md")
# An attribute; an import of one name; one word, after what begins a list or a comment.
UNBROKEN = {
    ".rt": re.compile(r"\s*#\["),
    ".antt": re.compile(r"\s*(?:pub )?use [^\s{]+\.\{[^\s,]+\}$"),
    ".md": re.compile(r"\s*(?:[|!]|\[!|    |(?:[-*] )?\S+$)"),
}


def files_at(top: Path) -> List[Path]:
    """The files of these kinds that git keeps."""
    names = subprocess.run(
        ["git", "ls-files", "-z"], cwd=top, stdout=subprocess.PIPE, check=True
    ).stdout.decode()
    return [top / name for name in names.split("\0") if name.endswith(KINDS)]


def wide_lines(kind: str, text: str) -> Iterator[Tuple[int, int]]:
    """The numbers of the lines that are too long, from 1, and their columns."""
    unbroken = UNBROKEN.get(kind)
    for number, line in enumerate(text.splitlines(), 1):
        if len(line) > MOST_COLUMNS and not (unbroken and unbroken.match(line)):
            yield number, len(line)


def main() -> int:
    within = beyond = 0
    for path in files_at(TOP):
        if not path.is_file():
            continue
        wide = list(wide_lines(path.suffix, path.read_text(encoding="utf-8")))
        for number, columns in wide:
            print(f"{path.relative_to(TOP)}:{number} has {columns} columns")
        within, beyond = within + (not wide), beyond + bool(wide)
    print(f"{within} files are within {MOST_COLUMNS} columns, {beyond} aren't")
    return 0 if within and not beyond else 1


if __name__ == "__main__":
    sys.exit(main())
