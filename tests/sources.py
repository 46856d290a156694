"""Reads from the sources of the crates what they promise: the public functions with the names of
their clauses, and all words that stand in code, definitions and proofs.

A function is public where lib.rt hands it out by `pub use`, or is a method of a type or trait that
lib.rt hands out, or is exported to C; of a program, which hands nothing out, where it is a
`pub fn`. A law is a public function without steps: its body is empty, and its clauses are what it
says.
"""
import re
from pathlib import Path
from typing import Iterator, List, NamedTuple, Optional, Set, Tuple

COMMENT = re.compile(r"//[^\n]*")
NOTE = re.compile(r"(?m)--[^\n]*")
# A text may have braces of its own.
TEXT = re.compile(r'"(?:\\.|[^"\\])*"')
USE = re.compile(r"^pub use (?:crate::)?(\w+)::(\{[^}]*\}|\w+(?: as \w+)?);", re.MULTILINE)
BLOCK = re.compile(r"(?m)^(?:(pub )?trait (\w+)|(?:unsafe )?impl(?:<[^>{]*>)? ([^{;]+))")
# (texts are empty by then)
FUNCTION = re.compile(r'(pub )?(?:const )?(?:unsafe )?(extern "" )?fn (\w+)')
CLAUSE = re.compile(r"(requires|ensures)\s*(\w+)?\s*$")
WORD = re.compile(r"[A-Za-z_][\w'-]*")


class Function(NamedTuple):
    """A function: its type or trait if it has one, and the names of its clauses, of which the
    promises are those that it ensures.

    It is open where callers of the crate can name it; one of a trait that is told elsewhere isn't.
    """

    owner: Optional[str]
    name: str
    clauses: Tuple[str, ...] = ()
    promises: Tuple[str, ...] = ()
    is_law: bool = False
    is_open: bool = True

    def full_name(self) -> str:
        return f"{self.owner}::{self.name}" if self.owner else self.name


class Block(NamedTuple):
    """An `impl` or a trait: where it stands, of what it is, and whether it tells of a trait."""

    start: int
    end: int
    owner: str
    is_trait: bool
    is_of_trait: bool


class Crate(NamedTuple):
    """A crate's name and its functions, those for its own use among them."""

    name: str
    functions: Tuple[Function, ...]


def without_comments(text: str) -> str:
    return TEXT.sub('""', COMMENT.sub("", text))


def end_of_braces(text: str, start: int) -> int:
    """The place after the brace that closes the one at this place."""
    depth = 0
    for place in range(start, len(text)):
        depth += {"{": 1, "}": -1}.get(text[place], 0)
        if depth == 0:
            return place + 1
    return len(text)


def handed_out(lib: str) -> Set[str]:
    """The names that lib.rt hands out of modules of its own, or tells itself."""
    own = set(re.findall(r"^(?:pub )?mod (\w+)", lib, re.MULTILINE))
    names = set(re.findall(r"^pub (?:fn|struct|enum|trait) (\w+)", lib, re.MULTILINE))
    for module, what in USE.findall(lib):
        if module in own:
            names.update(name.split(" as ")[-1].strip() for name in what.strip("{}").split(","))
    return names - {""}


class Head(NamedTuple):
    """The clauses of a function, with how each begins and its name, and whether it has no steps."""

    clauses: List[Tuple[str, str]]
    is_empty: bool

    def names(self, *kinds: str) -> Tuple[str, ...]:
        return tuple(dict.fromkeys(name for kind, name in self.clauses if name and kind in kinds))


def head_at(text: str, start: int) -> Head:
    """The clauses of the function whose name ends here."""
    clauses: List[Tuple[str, str]] = []
    place = start
    while True:
        brace, end = text.find("{", place), text.find(";", place)
        if brace < 0 or 0 <= end < brace:
            return Head(clauses, False)
        head = CLAUSE.search(text, place, brace)
        closing = end_of_braces(text, brace)
        if head is None:
            return Head(clauses, not text[brace + 1 : closing - 1].strip())
        clauses.append((head[1], head[2]))
        place = closing


def blocks_of(text: str) -> List[Block]:
    found = []
    for match in BLOCK.finditer(text):
        brace = text.find("{", match.end())
        is_trait = match[2] is not None
        owner = match[2] or re.split(r"\bfor\b", match[3])[-1].strip().split("::")[-1]
        owner = re.split(r"[<\s{]", owner)[0]
        is_of_trait = not is_trait and " for " in match[3]
        found.append(Block(brace, end_of_braces(text, brace), owner, is_trait, is_of_trait))
    return found


def functions_of(text: str, given: Optional[Set[str]]) -> Iterator[Function]:
    """The functions of a source of which these names are handed out; none: every `pub fn` is."""
    text = without_comments(text)
    blocks = blocks_of(text)
    for found in FUNCTION.finditer(text):
        inside = next((b for b in blocks if b.start < found.start() < b.end), None)
        head = head_at(text, found.end())
        owner, name = inside.owner if inside else None, found[3]
        is_given = given is None or (owner or name) in given or bool(found[2])
        is_open = is_given and (bool(found[1]) or inside is not None and inside.is_trait)
        clauses, promises = head.names("requires", "ensures"), head.names("ensures")
        is_law = is_open and head.is_empty
        yield Function(owner, name, clauses, promises, is_law, is_open)


def crate_of(folder: Path) -> Crate:
    lib = folder / "src" / "lib.rt"
    given = handed_out(lib.read_text(encoding="utf-8")) if lib.is_file() else None
    files = sorted((folder / "src").rglob("*.rt"))
    texts = [file.read_text(encoding="utf-8") for file in files]
    return Crate(folder.name, tuple(f for text in texts for f in functions_of(text, given)))


def words_of(folder: Path) -> Set[str]:
    """All words of a crate's code, definitions and proofs, and the names of its files."""
    found: Set[str] = {folder.name}
    for file in sorted(folder.rglob("*")):
        if "out" in file.relative_to(folder).parts:
            continue
        found.add(file.stem)
        if file.suffix == ".rt":
            found.update(WORD.findall(COMMENT.sub("", file.read_text(encoding="utf-8"))))
        elif file.suffix == ".antt":
            found.update(WORD.findall(NOTE.sub("", file.read_text(encoding="utf-8"))))
    return found
