"""What the manual, docs/COMMANDS.md and the pages of docs/commands, says of faults and statuses:
its tables are the one place where meanings and cures stand."""
import re
from pathlib import Path
from typing import Dict, List, Optional

DOCS = Path(__file__).resolve().parent.parent.parent / "docs"
# The headings under which the faults of a text stand.
OBJ = "`vdpm canon`"
STREAM = "The faults of a stream"
SCRIPT = "`vdpm view B`"
PREPARE = "`prepare`"
PACK = "`pack`"
PAINT = "`paint`"
STATUSES = "The statuses of all commands"
_HEADING = re.compile(r"(#+) (.*)")
_FAULT = re.compile(r"fault (\d+)")


def cure_of(said: str, heading: str, status: Optional[int] = None) -> str:
    """What a line `vdpm: fault NUMBER ..` means and what to do about it; where it names no fault,
    what to do about the status. Empty where the manual has no word on it."""
    fault = _FAULT.search(said)
    if fault:
        return _explained(heading).get(int(fault[1]), "")
    return _explained(STATUSES).get(status, "") if status else ""


def _explained(heading: str) -> Dict[int, str]:
    """The rows of the tables under a heading, by the number in their first cell."""
    found: Dict[int, str] = {}
    head: List[str] = []
    for line in _under(heading):
        cells = [cell.strip() for cell in line.strip("|").split("|")]
        number = re.fullmatch(r"\d+", cells[0]) or _FAULT.search(cells[0])
        if number:
            found.setdefault(int(number[number.lastindex or 0]), _sentence(head, cells))
        elif not line.startswith("|-"):
            head = cells
    return found


def _under(heading: str) -> List[str]:
    """The lines of tables under a heading and its own headings."""
    # (where the tools lie without the documents, there is none, and nothing is known)
    pages = sorted([*DOCS.glob("COMMANDS.md"), *DOCS.glob("commands/*.md")])
    text = "".join(page.read_text(encoding="utf-8") for page in pages)
    lines: List[str] = []
    level = 0  # of the heading, while its part goes on
    for line in text.splitlines():
        other = _HEADING.fullmatch(line)
        if other and (level == 0 or len(other[1]) <= level):
            level = len(other[1]) if other[2].startswith(heading) else 0
        elif level and line.startswith("|"):
            lines.append(line)
    return lines


def _sentence(head: List[str], cells: List[str]) -> str:
    """What a row says: `The line` of its head, what it has, and what to do."""
    meaning, cure = cells[-2], cells[-1]
    if not head[-2].startswith("The "):
        return cure
    return f"{head[-2]} {meaning}: {cure}" if cure else f"{head[-2]} {meaning}"
