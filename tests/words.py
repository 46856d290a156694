"""What the table of words, docs/WORDS.md, asks of pages, helps and messages; pages.py tells it.

No page uses what stands in the table's last column, outside code and names in backquotes, and no
tool says it. What a reader may search for leads to the right page.
"""
import ast
import re
from pathlib import Path
from typing import Dict, Iterator, List, Tuple

TABLE = "docs/WORDS.md"
# The table itself, and what tells of versions before.
MAY_SAY_ANY = (TABLE, "CHANGELOG.md", "docs/CHANGES.md")
# A word that a reader searches for, and the page that it has to lead to.
SEARCHED: Dict[str, str] = {
    "non-manifold": "docs/commands/prepare.md",
    "degenerate": "docs/commands/prepare.md",
    "duplicate": "docs/commands/prepare.md",
    "winding": "docs/commands/prepare.md",
    "flipped": "docs/commands/prepare.md",
    "weld": "docs/commands/prepare.md",
    "isolated vertex": "docs/commands/prepare.md",
    "ear clipping": "docs/commands/prepare.md",
    "bounding box": "docs/commands/prepare.md",
    "watertight": "docs/commands/vdpm.md",
    "silhouette": "docs/commands/view.md",
    "frustum": "docs/commands/view.md",
    "screen-space": "docs/commands/view.md",
    "geomorph": "docs/commands/view.md",
    "level of detail": "docs/commands/view.md",
    "boundary": "docs/commands/simplify.md",
    "half-edge": "docs/DEFINITIONS.md",
    "LOD": "docs/COMMANDS.md",
    "out of memory": "docs/COMMANDS.md",
    "distance to the surface": "docs/QUALITY.md",
}
# Calls whose texts a reader sees, beside those of faults and errors.
SPEAKERS = ("add_argument", "ArgumentParser", "say", "print", "Stopped", "exit")


def old_words(top: Path) -> List[str]:
    """What the table's last column has, a comma between two."""
    table = top / TABLE
    if not table.is_file():
        return []
    rows = [line for line in table.read_text(encoding="utf-8").splitlines() if line[:2] == "| "]
    cells = (row.strip("|").split("|")[-1] for row in rows[1:])
    return [word.strip() for cell in cells for word in cell.split(",") if word.strip()]


def used_in(text: str, words: List[str]) -> Iterator[str]:
    """Those of the words that stand in a text outside code, links and names."""
    bare = re.sub(r"`[^`]*`|\]\([^)]*\)", " ` ", text)
    for word in words:
        if re.search(rf"(?<![\w-]){re.escape(word)}(?![\w-])", bare, re.IGNORECASE):
            yield f"`{word}` is no word of {TABLE}"


def name_of(call: ast.Call) -> str:
    return getattr(call.func, "attr", "") or getattr(call.func, "id", "")


def said_by(file: Path) -> Iterator[str]:
    """The texts that a script says: helps, messages, faults."""
    for call in ast.walk(ast.parse(file.read_text(encoding="utf-8"))):
        if isinstance(call, ast.Call):
            name = name_of(call)
            if name in SPEAKERS or name.endswith(("Fault", "Error")):
                parts = (it.value for it in ast.walk(call) if isinstance(it, ast.Constant))
                yield from (part for part in parts if isinstance(part, str) and " " in part)


def shown_by(file: Path) -> Iterator[str]:
    """The texts that a page of the window shows, and those on hover."""
    text = file.read_text(encoding="utf-8")
    for on_hover, shown in re.findall(r'(?:title|label)="([^"]*)"|>([^<>{}]+)<', text):
        yield on_hover or shown


def told_of_tools(top: Path) -> Iterator[Tuple[str, List[str]]]:
    """Each help, script and page of the window that says an old word."""
    words = old_words(top)
    texts = {it: [it.read_text(encoding="utf-8")] for it in top.glob("tools/quick_start/usage/*")}
    for folder in ("tools", "python", "benches") if words else ():
        files = [it for it in top.glob(f"{folder}/**/*.py") if "tests" not in it.parts]
        texts.update({it: list(said_by(it)) for it in files if not it.name.startswith("test_")})
    texts.update({it: list(shown_by(it)) for it in top.glob("tools/viewer/**/*.html")})
    for file, parts in sorted(texts.items()):
        found = [fault for part in parts for fault in used_in(part, words)]
        if found:
            yield str(file.relative_to(top)), found


def told_of_search(top: Path) -> Iterator[Tuple[str, List[str]]]:
    """The pages that a search doesn't lead to."""
    for word, name in SEARCHED.items() if (top / TABLE).is_file() else ():
        page = top / name
        text = page.read_text(encoding="utf-8") if page.is_file() else ""
        if word.lower() not in re.sub(r"\s+", " ", text).lower():
            yield name, [f"a search for {word} doesn't lead here"]
