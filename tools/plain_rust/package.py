"""The package: each crate a module, the programs, and what is written by hand."""
import hashlib
from pathlib import Path
from typing import AbstractSet, Dict, Iterator, List, NamedTuple

from quick_start.record import commit_of
from quick_start.sources import PROGRAMS, crate_rows

from .source import Source, erased
from .stop import Refusal, Stop
from .tokens import get, joined, lex

PARTS = Path(__file__).resolve().parent / "parts"
MARK = "# Made by tools/plain_rust.py"
TESTS, FOR_C = "library_tests", "vdpm_c"
# What rustc and clippy say of code whose proof has other needs than a reader of Rust: imports for
# ghosts, names that only clauses read, and forms that a proof goes through more easily.
ALLOWED = ("unused_imports", "unused_variables", "dead_code", "clippy::all")

Files = Dict[str, bytes]


class Unknown(Exception):
    """Names the file, the line and the form that can't be made Rust."""


class Crate(NamedTuple):
    """A crate as a module: its files by their place in src/, and its functions of C."""

    files: Dict[str, str]
    exports: List[str]


def sources_of(top: Path, crate: str) -> List[Path]:
    return sorted((top / "crates" / crate / "src").rglob("*.rt"))


def source_at(top: Path, path: Path, crate: str, below: AbstractSet[str]) -> Source:
    try:
        return erased(path.read_text(encoding="utf-8"), path.stem, crate, below)
    except (Stop, Refusal) as why:
        raise Unknown(f"{path.relative_to(top)}:{why}") from why


def module_of(top: Path, crate: str) -> Crate:
    """The module of a crate. Files of `parts/in_place/` stand for those that name memory by
    pointers."""
    rows, here = crate_rows(top), top / "crates" / crate / "src"
    below = {name for name in rows[crate] if name in rows}
    files: Dict[str, str] = {}
    exports: List[str] = []
    for path in sources_of(top, crate):
        place = path.relative_to(here).with_suffix(".rs")
        by_hand = PARTS / "in_place" / crate / place
        if by_hand.is_file():
            files[f"{crate}/{place}"] = by_hand.read_text(encoding="utf-8")
            continue
        source = source_at(top, path, crate, below)
        exports += source.exports
        if str(place) in ("lib.rs", "main.rs"):
            root = with_public_main(source.text) if place.stem == "main" else source.text
            files[f"{crate}/mod.rs"] = with_allowed(root)
        else:
            files[f"{crate}/{place}"] = source.text
    return Crate(files, exports)


def with_allowed(text: str) -> str:
    """The root of a module, with what is allowed in it after its docs."""
    lines = text.splitlines(keepends=True)
    heads = (at for at, line in enumerate(lines) if not line.startswith("//!"))
    head = next(heads, len(lines))
    return "".join([*lines[:head], f"#![allow({', '.join(ALLOWED)})]\n", *lines[head:]])


def with_public_main(text: str) -> str:
    """The program's module with a `main` that its start can call."""
    tokens = lex(text)
    for at, token in enumerate(tokens):
        if token.is_word("fn") and get(tokens, at + 2).is_word("main"):
            tokens[at] = token._replace(text="pub fn")
    return joined(tokens)


def read(place: str) -> str:
    return (PARTS / place).read_text(encoding="utf-8")


def by_hand() -> Iterator[Path]:
    """The files of `parts/package/`, which go into the package as they are."""
    for path in sorted((PARTS / "package").rglob("*")):
        if path.is_file() and "target" not in path.parts and path.name != "Cargo.lock":
            yield path


def row_of(crate: str, module: Crate) -> str:
    """The line of the library's root that names a crate's module."""
    if crate == TESTS:
        return f"#[cfg(test)]\nmod {crate};\n"
    return ('#[cfg(feature = "c")]\n' if module.exports else "") + f"pub mod {crate};\n"


def package(top: Path) -> Files:
    """All files of the package, by their places in it."""
    crates = list(crate_rows(top))
    texts: Dict[str, str] = {}
    root = read("lib_head.rs")
    for crate in sorted(crates):
        module = module_of(top, crate)
        if module.exports:
            module.files[f"{crate}/c.rs"] = read("c_head.rs") + "".join(module.exports)
            module.files[f"{crate}/mod.rs"] += "\npub mod c;\n"
        texts.update({f"src/{place}": text for place, text in module.files.items()})
        root += row_of(crate, module)
    for program in PROGRAMS:
        texts[f"src/bin/{program}.rs"] = read("program.rs").replace("PROGRAM", program)
    texts["src/lib.rs"] = root
    texts["README.md"] = readme(top)
    files = {place: text.encode() for place, text in texts.items()}
    for name in ("LICENSE-APACHE", "LICENSE-MIT"):
        files[name] = (top / name).read_bytes()
    for path in by_hand():
        files[path.relative_to(PARTS / "package").as_posix()] = path.read_bytes()
    return dict(sorted(files.items()))


def readme(top: Path) -> str:
    """The package's page, with the sources that it was made of."""
    text = read("README.md").replace("COMMIT", commit_of(top))
    return text.replace("SOURCES", sum_of_all(top))


def sum_of_all(top: Path) -> str:
    """A sum of all sources that the package is made of."""
    total = hashlib.sha256((top / "crates.txt").read_bytes())
    for crate in sorted(crate_rows(top)):
        for path in sources_of(top, crate):
            name = path.relative_to(top).as_posix()
            total.update(f"{name} {hashlib.sha256(path.read_bytes()).hexdigest()}\n".encode())
    return total.hexdigest()


def is_made(out: Path) -> bool:
    """Whether a folder is a package that was made before, or nothing yet."""
    if not out.exists() or out.is_dir() and not any(out.iterdir()):
        return True
    try:
        return (out / "Cargo.toml").read_text(encoding="utf-8").startswith(MARK)
    except OSError:
        return False


def write(files: Files, out: Path) -> None:
    """Makes the folder have these files. One that has them already isn't written, so that cargo
    builds again what has changed and no more."""
    folders = {place.partition("/")[0] for place in files if "/" in place}
    for folder in folders:
        for path in sorted((out / folder).rglob("*"), reverse=True):
            if path.is_dir() and not any(path.iterdir()):
                path.rmdir()
            elif path.is_file() and path.relative_to(out).as_posix() not in files:
                path.unlink()
    for place, data in files.items():
        path = out / place
        path.parent.mkdir(parents=True, exist_ok=True)
        if not path.is_file() or path.read_bytes() != data:
            path.write_bytes(data)
