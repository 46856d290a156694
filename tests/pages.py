"""Looks whether the pages of the repository name what is there: python3 tests/pages.py

Of each crate's page, crates/NAME/README.md:

- each public function of the crate is named, and each clause of a law (a public function without
  steps) where the law is named; of a program each clause that `run` ensures;
- what is written as `function`: `clause`, `clause` is there: the function has these clauses; so is
  `specs/File`: `word`, and `crate`: `word`;
- each name in backquotes is a word of some crate's code, definitions or proofs, or a file's name.

Of every page, each link to a file or to a heading of a page leads to one, and a page has at most
8 KB, but for those of users. No page and no tool says what docs/WORDS.md has newer words for
(words.py). README.md and all pages together have no more words than is told below; how many they
have is said. The last line is `N pages are as told, M aren't`, and the status
is 0 exactly where there is a page and none fails.
"""
import re
import sys
from pathlib import Path
from typing import Dict, Iterator, List, NamedTuple, Set, Tuple

import words as vocabulary
from sources import Crate, Function, crate_of, words_of

TOP = Path(__file__).resolve().parent.parent
MOST_BYTES = 8192
# Pages for users, which may be longer.
FOR_USERS = ("README.md", "docs/FORMATS.md", "docs/GUIDE.md")
MOST_WORDS_OF_README, MOST_WORDS = 900, 62000
# Pages whose backquoted names are of the code, beside those of the crates.
OF_CODE = ("docs/PROMISES.md", "docs/CRATES.md", "docs/DEFINITIONS.md", "docs/OVERVIEW.md")
NAME = r"`[^`\n]+`"
JOINED = rf"{NAME}(?:(?:,| and|, and) {NAME})*"
CITED = re.compile(rf"({JOINED}): ({JOINED})")
TOLD = re.compile(r"`([^`\n]+)`")
PATH_OF_NAMES = re.compile(r"[A-Za-z_][\w'-]*(?:::[A-Za-z_][\w'-]*)*")
LINK = re.compile(r"(?<!!)\[[^\]]*\]\(([^)\s]+)\)|!\[[^\]]*\]\(([^)\s]+)\)")
HEADING = re.compile(r"^#+ (.*)$", re.MULTILINE)


class Known(NamedTuple):
    """What pages may name: the crates, the words of each, and these with the files at the top."""

    crates: Dict[str, Crate]
    words: Dict[str, Set[str]]
    every: Set[str]


def known_at(top: Path) -> Known:
    folders = sorted(path.parent for path in (top / "crates").glob("*/src"))
    words = {folder.name: words_of(folder) for folder in folders}
    every = {path.stem for path in top.glob("*")}.union(*words.values())
    return Known({folder.name: crate_of(folder) for folder in folders}, words, every)


def without_code(text: str) -> str:
    """The text without its indented blocks, which begin after a blank line."""
    kept: List[str] = []
    inside, before = False, ""
    for line in text.splitlines():
        inside = line.startswith("    ") and (inside or not before.strip())
        before = line
        if not inside:
            kept.append(line)
    return "\n".join(kept)


def plain(text: str) -> str:
    """The text without blocks of code, with each run of blanks and line ends as one blank."""
    return re.sub(r"\s+", " ", without_code(text))


def blocks(text: str) -> List[str]:
    """The paragraphs, the rows and the items of lists of a page, each as one line."""
    parts = re.split(r"\n(?=\s*(?:- |\d+\. |\||#))|\n\s*\n", without_code(text))
    return [re.sub(r"\s+", " ", part) for part in parts]


def not_named(crate: Crate, text: str) -> Iterator[str]:
    """The public functions, and the clauses of laws and programs, that a page doesn't name."""
    told = [set(TOLD.findall(block)) for block in blocks(text)]
    everywhere = {name for names in told for name in names}
    for function in crate.functions:
        both = {function.name, function.full_name()}
        if not function.is_open:
            continue
        if not everywhere & both:
            yield f"`{function.full_name()}` isn't named"
        if function.is_law:
            beside = {name for names in told if names & both for name in names}
            missing = [clause for clause in function.clauses if clause not in beside]
            yield from (f"clause `{c}` isn't named beside `{function.name}`" for c in missing)
        elif function.name == "run":
            missing = [clause for clause in function.promises if clause not in everywhere]
            yield from (f"clause `{c}` of `run` isn't named" for c in missing)


def meant(name: str, known: Known, own: str) -> List[Function]:
    """The functions that a name may mean: of the crate whose page it is, or else of any."""
    *before, last = name.split("::")
    crates = [known.crates[own]] if own in known.crates else []
    if before and before[0] in known.crates:
        crates, before = [known.crates[before[0]]], before[1:]
    owner = before[-1] if before else None
    for some in (crates, list(known.crates.values())):
        functions = [f for crate in some for f in crate.functions if f.name == last]
        found = [f for f in functions if owner is None or f.owner == owner]
        if found:
            return found
    return []


def wrong_citations(text: str, known: Known, own: str) -> Iterator[str]:
    for left, right in CITED.findall(text):
        names, cited = TOLD.findall(left), TOLD.findall(right)
        found = [(name, meant(name, known, own)) for name in names]
        if all(functions for _, functions in found):
            clauses = {c for _, functions in found for f in functions for c in f.clauses}
            # A name of a function may follow one too: which of them calls it, say.
            wrong = [c for c in cited if c not in clauses and not meant(c, known, own)]
            yield from (f"{left} has no clause `{c}`" for c in wrong)
        elif len(names) == 1 and names[0] in known.words:
            wrong = [c for c in cited if last_word(c) not in known.words[names[0]]]
            yield from (f"crate `{names[0]}` has no `{c}`" for c in wrong)


def last_word(name: str) -> str:
    return name.split("::")[-1].split("/")[-1].split(" ")[0]


def missing_files(text: str, folder: Path) -> Iterator[str]:
    for name in TOLD.findall(text):
        is_spec = re.fullmatch(r"(specs|src|proofs)/[\w./-]+", name)
        if is_spec and not any(folder.glob(f"{name}*")):
            yield f"there is no file `{name}`"


def unknown_names(text: str, words: Set[str]) -> Iterator[str]:
    for name in TOLD.findall(text):
        if PATH_OF_NAMES.fullmatch(name):
            for part in name.split("::"):
                if part not in words:
                    yield f"nothing is called `{part}`"


def slugs(text: str) -> Set[str]:
    """The anchors of a page's headings, as GitHub and GitLab make them."""
    found: Set[str] = set()
    for heading in HEADING.findall(text):
        slug = re.sub(r"[^\w\- ]", "", re.sub(r"[`*]", "", heading).lower()).replace(" ", "-")
        found.add(slug)
    return found


def word_count(text: str) -> int:
    """How many of the pieces between blanks have a letter or a digit."""
    return sum(any(letter.isalnum() for letter in piece) for piece in text.split())


def words_at(top: Path) -> Dict[str, int]:
    """How many words each page has."""
    names = [*pages_of_crates(top), *pages_at(top)]
    return {name: word_count((top / name).read_text(encoding="utf-8")) for name in names}


def too_many_words(words: Dict[str, int]) -> Iterator[Tuple[str, str]]:
    """README.md and all pages together, where they have more words than they may."""
    both = (
        ("README.md", words.get("README.md", 0), MOST_WORDS_OF_README),
        ("all pages", sum(words.values()), MOST_WORDS),
    )
    yield from ((name, f"{n} words are more than {most}") for name, n, most in both if n > most)


def too_many_bytes(text: str) -> Iterator[str]:
    if len(text.encode()) > MOST_BYTES:
        yield f"{len(text.encode())} bytes are more than {MOST_BYTES}"


def wrong_links(page: Path) -> Iterator[str]:
    text = page.read_text(encoding="utf-8")
    for target in (link or picture for link, picture in LINK.findall(text)):
        if re.match(r"[a-z]+:", target):
            continue
        path, _, anchor = target.partition("#")
        file = page.parent / path if path else page
        if not file.exists():
            yield f"link to {target}: there is no such file"
        elif anchor and anchor not in slugs(file.read_text(encoding="utf-8")):
            yield f"link to {target}: there is no such heading"


def faults_of_crate(folder: Path, known: Known) -> List[str]:
    page = folder / "README.md"
    if not page.is_file():
        return [f"there is no page {folder.name}/README.md"]
    whole = page.read_text(encoding="utf-8")
    text = plain(whole)
    found = list(not_named(known.crates[folder.name], whole))
    found += wrong_citations(text, known, folder.name)
    found += missing_files(text, folder)
    found += unknown_names(text, known.every)
    found += too_many_bytes(whole)
    return found + list(wrong_links(page))


def faults_of_page(page: Path, name: str, known: Known) -> List[str]:
    found = list(wrong_links(page))
    text = page.read_text(encoding="utf-8")
    if name in OF_CODE:
        found += wrong_citations(plain(text), known, "")
        found += unknown_names(plain(text), known.every)
    if name not in FOR_USERS:
        found += too_many_bytes(text)
    return found


def pages_of_crates(top: Path) -> List[str]:
    return sorted(str(path.relative_to(top)) for path in top.glob("crates/*/README.md"))


def pages_at(top: Path) -> List[str]:
    """The pages that are no crate's."""
    found = [*top.glob("*.md"), *top.glob("*/*.md"), *top.glob("docs/*/*.md")]
    return sorted(str(path.relative_to(top)) for path in found)


def old_words(top: Path, name: str) -> List[str]:
    page = top / name
    if name in vocabulary.MAY_SAY_ANY or not page.is_file():
        return []
    text = plain(page.read_text(encoding="utf-8"))
    return list(vocabulary.used_in(text, vocabulary.old_words(top)))


def told_of(top: Path) -> Iterator[Tuple[str, List[str]]]:
    """Each page with what is wrong in it."""
    known = known_at(top)
    for name in known.crates:
        page = f"crates/{name}/README.md"
        yield page, faults_of_crate(top / "crates" / name, known) + old_words(top, page)
    for name in pages_at(top):
        yield name, faults_of_page(top / name, name, known) + old_words(top, name)
    yield from vocabulary.told_of_tools(top)
    yield from vocabulary.told_of_search(top)
    for name, fault in too_many_words(words_at(top)):
        yield name, [fault]


def main(top: Path = TOP) -> int:
    right = wrong = 0
    for page, faults in told_of(top):
        right, wrong = right + (not faults), wrong + bool(faults)
        for fault in dict.fromkeys(faults):
            print(f"{page}: {fault}")
    words = words_at(top)
    print(f"{sum(words.values())} words, {words.get('README.md', 0)} of them in README.md")
    print(f"{right} pages are as told, {wrong} aren't")
    return 0 if right and not wrong else 1


if __name__ == "__main__":
    sys.exit(main())
