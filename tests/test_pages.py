"""Tries what looks over the pages: python3 tests/test_pages.py"""
import contextlib
import io
import tempfile
import unittest
from pathlib import Path
from typing import Dict, List, Tuple
from unittest import mock

import pages
import sources
import words as vocabulary
from sources import Function

LIB = """//! A crate.
mod shelf;
mod own;
pub use shelf::{Shelf, put as place};
pub use theory::{shelves_are_sound};
mod theory;
"""
SHELF = """ghost use Rattle.box.specs.Shelves.{IsFull};
pub struct Shelf { items: Vec<u8> }
impl Model for Shelf {
    ghost Value = { List };
}
impl Shelf {
    /// A comment with fn gone() in it.
    pub fn take(&mut self, c: char) -> bool
        requires full { IsFull self.old }
        // Why it is so.
        ensures taken { result ≡ { true } }
        ensures { x }
        ensures rest { y }
    {
        if c == '\\'' { write("}{") } else { () }
    }
    fn hidden(&self) ensures unseen { x } { loop {} }
    pub(crate) fn inner(&self) {}
}
impl Shut for Shelf {
    fn shut(&mut self) ensures closed { x } { loop {} }
}
pub trait Shut {
    fn shut(&mut self) ensures closed { x };
}
pub fn place() {}
"""
THEORY = """pub fn shelves_are_sound()
    ensures apart { A }
    ensures few { B }
{}
pub fn another() ensures far { C } { let x = 1; }
pub extern "C" fn box_take(handle: u32) -> u32 ensures given { C } { 0 }
"""
SPEC = "-- The word gone stands here alone.\npub IsFull : Type 0\n"
PAGE = """# box

Shelves: `Shelf::take` (`take`: `full`, `rest`), `place`; for C `box_take`.

- A law (`shelves_are_sound`: `apart`,
  `few`), by `specs/Shelves`: `IsFull`.
"""


def made(top: Path, files: Dict[str, str]) -> Path:
    for name, text in files.items():
        path = top / name
        path.parent.mkdir(parents=True, exist_ok=True)
        path.write_text(text, encoding="utf-8")
    return top


def crate(page: str) -> Dict[str, str]:
    return {
        "crates/box/src/lib.rt": LIB,
        "crates/box/src/shelf.rt": SHELF,
        "crates/box/src/theory.rt": THEORY,
        "crates/box/specs/Shelves.antt": SPEC,
        "crates/box/README.md": page,
        "README.md": "# Top\n\n[the box](crates/box/README.md#box)\n",
    }


def faults(files: Dict[str, str]) -> List[str]:
    with tempfile.TemporaryDirectory() as room:
        told = pages.told_of(made(Path(room), files))
        return [f"{page}: {fault}" for page, found in told for fault in found]


class Sources(unittest.TestCase):
    def functions(self) -> Dict[str, Function]:
        with tempfile.TemporaryDirectory() as room:
            top = made(Path(room), crate(PAGE))
            found = sources.crate_of(top / "crates/box").functions
        return {f.full_name(): f for f in found}

    def test_public_functions_are_those_that_are_handed_out(self) -> None:
        open_ones = {name for name, f in self.functions().items() if f.is_open}
        self.assertEqual(open_ones, {"Shelf::take", "place", "shelves_are_sound", "box_take"})

    def test_clauses_are_read_past_braces_in_texts(self) -> None:
        take = self.functions()["Shelf::take"]
        self.assertEqual(take.clauses, ("full", "taken", "rest"))
        self.assertEqual(take.promises, ("taken", "rest"))

    def test_a_law_has_no_steps_and_is_public(self) -> None:
        laws = {name for name, f in self.functions().items() if f.is_law and f.clauses}
        self.assertEqual(laws, {"shelves_are_sound"})

    def test_comments_are_no_words(self) -> None:
        with tempfile.TemporaryDirectory() as room:
            top = made(Path(room), crate(PAGE))
            words = sources.words_of(top / "crates/box")
        self.assertIn("IsFull", words)
        self.assertNotIn("gone", words)


class Pages(unittest.TestCase):
    def test_a_page_that_names_all_is_right(self) -> None:
        self.assertEqual(faults(crate(PAGE)), [])

    def test_what_is_wrong_is_told(self) -> None:
        where = "crates/box/README.md: "
        rows: List[Tuple[str, str, str]] = [
            ("`place`", "it", "`place` isn't named"),
            ("`few`", "few", "clause `few` isn't named beside `shelves_are_sound`"),
            ("\n  `few`", "\n- `few`", "clause `few` isn't named beside `shelves_are_sound`"),
            ("`rest`", "`apart`", "`take` has no clause `apart`"),
            ("specs/Shelves", "specs/Racks", "there is no file `specs/Racks`"),
            ("`IsFull`", "`IsEmpty`", "nothing is called `IsEmpty`"),
            ("`IsFull`", "`gone`", "nothing is called `gone`"),
            ("# box", "# box " + 9000 * "x", "9266 bytes are more than 8192"),
            ("Shelves:", "[Shelves](../racks.md):", "link to ../racks.md: there is no such file"),
            ("Shelves:", "[S](#racks):", "link to #racks: there is no such heading"),
            ("Shelves:", "`box`: `Rack`", "crate `box` has no `Rack`"),
        ]
        for old, new, wanted in rows:
            self.assertIn(old, PAGE)
            told = [f for f in faults(crate(PAGE.replace(old, new))) if f.startswith(where)]
            size = len(PAGE.encode()) + 9001
            self.assertIn(where + wanted.replace("9266", str(size)), told)

    def test_a_crate_without_a_page_is_told(self) -> None:
        files = crate(PAGE)
        del files["crates/box/README.md"]
        self.assertIn("crates/box/README.md: there is no page box/README.md", faults(files))

    def test_clauses_of_a_program_are_asked_for(self) -> None:
        run = "pub fn run() -> u8\n    requires few { a }\n    ensures whole { b }\n{ 0 }\n"
        files = {"crates/p/src/main.rt": run, "crates/p/README.md": "# p\n\n`run`\n"}
        self.assertEqual(faults(files), ["crates/p/README.md: clause `whole` of `run` isn't named"])

    def test_code_is_no_text(self) -> None:
        text = "A list:\n\n10. one\n    `two`\n\n    $ `three`\n"
        self.assertEqual(pages.plain(text).strip(), "A list: 10. one `two`")

    def test_headings_are_found_as_links_name_them(self) -> None:
        headings = "## `prepare` and `prepare SIZE`\n# 13. A window\n"
        self.assertEqual(pages.slugs(headings), {"prepare-and-prepare-size", "13-a-window"})

    def test_a_word_has_a_letter_or_a_digit(self) -> None:
        self.assertEqual(pages.word_count("| `a` | - | 2 / 3 |\n|---|\n\n    $ l'été (b)"), 5)

    def test_too_many_words_are_told(self) -> None:
        rows = [
            ({"README.md": 900, "docs/A.md": 50600}, []),
            ({"README.md": 901}, [("README.md", "901 words are more than 900")]),
            ({"docs/A.md": 62000, "b.md": 1}, [("all pages", "62001 words are more than 62000")]),
        ]
        for words, wanted in rows:
            self.assertEqual(list(pages.too_many_words(words)), wanted)
        self.assertIn(
            "README.md: 902 words are more than 900",
            faults({"README.md": "a - " * 902}),
        )

    def test_old_words_are_told(self) -> None:
        rows = ("Word | Meant | Not", "---|---|---", "weld | one | glue, glues on", "b | c | ")
        table = "".join(f"| {row} |\n" for row in rows)
        files = {
            "docs/WORDS.md": table,
            "README.md": "It\nGlues on `glue` and glue-pots.\n\n    glue\n",
            "CHANGELOG.md": "glue",
            "tools/quick_start/usage/vdpm": "the glue",
            "tools/a.py": "say(f'no glue {1}')\nraise BadFault('glue it')\nuse('glue it')\n",
            "tools/viewer/a.html": "<b id='glue' title=\"the glue\">all\nglue</b>",
        }
        with mock.patch.object(vocabulary, "SEARCHED", {"weld": "docs/WORDS.md"}):
            told = faults(files)
        fault = "`glue` is no word of docs/WORDS.md"
        wanted = [f"README.md: {fault.replace('glue', 'glues on')}"]
        wanted += [f"tools/a.py: {fault}"] * 2 + [f"tools/quick_start/usage/vdpm: {fault}"]
        wanted += [f"tools/viewer/a.html: {fault}"] * 2
        self.assertEqual(told, wanted)

    def test_a_search_that_leads_nowhere_is_told(self) -> None:
        files = {"docs/WORDS.md": "# Words\n", "docs/A.md": "an isolated\nVertex\n"}
        searched = {"isolated vertex": "docs/A.md", "LOD": "docs/A.md", "weld": "docs/B.md"}
        with mock.patch.object(vocabulary, "SEARCHED", searched):
            told = faults(files)
        wanted = ["docs/A.md: a search for LOD doesn't lead here"]
        self.assertEqual(told, wanted + ["docs/B.md: a search for weld doesn't lead here"])

    def test_a_page_for_users_may_be_longer(self) -> None:
        files = {"docs/GUIDE.md": 9000 * "x", "docs/SPEED.md": 9000 * "x"}
        self.assertEqual(faults(files), ["docs/SPEED.md: 9000 bytes are more than 8192"])

    def test_the_pages_are_counted(self) -> None:
        said = io.StringIO()
        with tempfile.TemporaryDirectory() as room, contextlib.redirect_stdout(said):
            top = made(Path(room), crate(PAGE.replace("`place`", "it")))
            status = pages.main(top)
        last = ["21 words, 3 of them in README.md", "1 pages are as told, 1 aren't"]
        self.assertEqual(said.getvalue().splitlines()[-2:], last)
        self.assertEqual(status, 1)


if __name__ == "__main__":
    unittest.main()
