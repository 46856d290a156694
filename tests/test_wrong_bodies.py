"""Tries the runner of the wrong bodies over a kit that only says it: tests/test_wrong_bodies.py"""
import contextlib
import os
import tempfile
import unittest
from pathlib import Path
from typing import List
from unittest import mock

import wrong

LIST = """# A comment.
body: leaves the sum out
crate: some
function: sums::add
by: clause-sum loop
file: src/sums.rt
old:     a + b
new:     a

body: adds two
crate: some
function: sums::one_more
by: clause-more
file: src/sums.rt
old:     n + 1
new:     n + 2
"""
SOURCE = "fn add() {\n    a + b\n}\nfn one_more() {\n    n + 1\n}\n"
SAID = """checked some::sums::add, 1 of 2
note: src/sums.rt:2:5: the clause holds here (`returns-clause-sum`); `search` did not prove it
fn some::sums::add: not proved: see above
note: src/sums.rt:5:5: no sum wraps (`overflow_add-result`)
fn some::sums::one_more: no proof: `search` did not prove `overflow_add-result`
logic=not-proved
"""
# A kit whose check says what stands in a file, and keeps the words that it was called with.
KIT = """#!/bin/sh
echo "$@" >> "{room}/calls"
cat src/sums.rt >> "{room}/texts"
cat "{room}/said"
"""


class TheList(unittest.TestCase):
    def test_bodies_are_read(self) -> None:
        first, second = wrong.bodies_in(LIST)
        self.assertEqual(first.by, ["clause-sum", "loop"])
        self.assertEqual(second.function, "sums::one_more")
        self.assertEqual(second.changes, [("src/sums.rt", "    n + 1", "    n + 2")])

    def test_a_body_may_change_several_lines(self) -> None:
        more = "old: a\nnew:\nfile: src/more.rt\nold: b\nold:     }\nnew: c: d\n"
        [body] = wrong.bodies_in(LIST.split("\n\n")[0] + "\n" + more)
        wanted = [("src/sums.rt", "a", ""), ("src/more.rt", "b\n    }", "c: d")]
        self.assertEqual(body.changes[1:], wanted)

    def test_what_is_no_list_is_refused(self) -> None:
        for line in ("new: x", "crate: other", "odd: x", "old: x\n\n", "body: adds two\n\n"):
            with self.assertRaises(wrong.ListFault, msg=line):
                wrong.bodies_in(LIST.split("\n\n")[0].replace("by: clause-sum loop", line))
        with self.assertRaises(wrong.ListFault):
            wrong.bodies_in(LIST + "\n" + LIST)

    def test_the_list_of_this_repository_applies(self) -> None:
        bodies = wrong.bodies_in(wrong.LIST.read_text(encoding="utf-8"))
        for body in bodies:
            folder = wrong.TOP / "crates" / body.crate
            self.assertIsNotNone(wrong.changed(folder, body), f"{body.name} doesn't apply")


class Verdicts(unittest.TestCase):
    def setUp(self) -> None:
        self.first, self.second = wrong.bodies_in(LIST)

    def test_a_body_is_refused_by_its_clause(self) -> None:
        done = wrong.outcome(self.first, SAID)
        self.assertEqual((done.passed, done.told), (True, "refused by returns-clause-sum"))

    def test_a_body_that_another_goal_refuses_fails(self) -> None:
        done = wrong.outcome(self.second, SAID)
        self.assertEqual((done.passed, done.told), (False, "refused, but by overflow_add-result"))

    def test_a_body_that_is_proved_fails(self) -> None:
        done = wrong.outcome(self.first, "fn some::sums::add: proved (2 goals)\n")
        self.assertEqual((done.passed, done.told), (False, "PROVED"))

    def test_an_answer_that_is_not_taken_counts(self) -> None:
        said = "proofs/sums/add/Answers.antt:3:1: error: `returns-clause-sum`: is no proof\n"
        for between in ("", "fn some::sums::one_more: proved (1 goal)\n"):
            done = wrong.outcome(self.first, f"{said}{between}fn some::sums::add: not proved\n")
            self.assertTrue(done.passed)

    def test_a_check_that_says_nothing_of_it_fails(self) -> None:
        for said in ("", "rt: no such function\n", SAID.replace("some::", "other::")):
            self.assertFalse(wrong.outcome(self.first, said).passed)


class Runs(unittest.TestCase):
    """Runs over a repository of one crate."""

    def setUp(self) -> None:
        folder = tempfile.TemporaryDirectory(prefix="test-wrong-")
        self.addCleanup(folder.cleanup)
        self.room = Path(folder.name)
        self.top = self.room / "top"
        self.put("top/crates.txt", "# Some.\nlow:\nsome: low std\n")
        self.put("top/crates/some/src/sums.rt", SOURCE)
        self.put("top/crates/low/out/rlib/stamp", "1")
        self.put("top/docs/none.md", "")
        self.list = self.put("list.txt", LIST)
        self.put("said", SAID)
        self.put("bin/rt", KIT.format(room=self.room)).chmod(0o755)
        settings = {"TOP": self.top, "LIST": self.list, "RECORD": self.top / "docs/wrong.txt"}
        patches = contextlib.ExitStack()
        self.addCleanup(patches.close)
        for name, value in settings.items():
            patches.enter_context(mock.patch.object(wrong, name, value))
        path = f"{self.room}/bin:{os.environ['PATH']}"
        patches.enter_context(mock.patch.dict(os.environ, {"PATH": path}))
        patches.enter_context(mock.patch("builtins.print", self.keep))
        self.told: List[str] = []

    def put(self, name: str, text: str) -> Path:
        path = self.room / name
        path.parent.mkdir(parents=True, exist_ok=True)
        path.write_text(text)
        return path

    def keep(self, text: str, **settings: object) -> None:
        self.told.append(text)

    def test_bodies_of_different_functions_share_a_check(self) -> None:
        self.assertEqual(wrong.main([]), 1)
        self.assertEqual(self.told[-1], "1 passed, 1 failed")
        only = "check --only some::sums::add --only some::sums::one_more"
        self.assertIn(only, (self.room / "calls").read_text())
        both = SOURCE.replace("a + b", "a").replace("n + 1", "n + 2")
        self.assertEqual((self.room / "texts").read_text(), both)
        self.assertEqual((self.top / "crates/some/src/sums.rt").read_text(), SOURCE)

    def test_bodies_of_one_function_are_tried_one_by_one(self) -> None:
        self.list.write_text(LIST.replace("one_more", "add"))
        wrong.main(["some"])
        first, second = SOURCE.replace("a + b", "a"), SOURCE.replace("n + 1", "n + 2")
        self.assertEqual((self.room / "texts").read_text(), first + second)

    def test_a_body_that_does_not_apply_fails(self) -> None:
        for source in (SOURCE.replace("a + b", "b + a"), SOURCE + "    a + b\n"):
            self.put("top/crates/some/src/sums.rt", source)
            wrong.main([])
            self.assertIn("some: leaves the sum out: doesn't apply", self.told)

    def test_a_crate_without_bodies_fails(self) -> None:
        for name in ("low", "--unknown"):
            self.assertEqual(wrong.main([name]), 2)
            self.assertIn(f"no body of a crate `{name}`", self.told[-1])
        self.assertFalse(wrong.RECORD.exists())

    def test_help_tries_nothing(self) -> None:
        self.assertEqual(wrong.main(["--help"]), 0)
        self.assertFalse(wrong.RECORD.exists())

    def test_a_library_has_to_be_proved(self) -> None:
        (self.top / "crates/low/out/rlib/stamp").unlink()
        (self.top / "crates/low/out/rlib").rmdir()
        self.assertEqual(wrong.main([]), 1)
        self.assertIn("low isn't proved here", self.told[-1])

    def test_the_record_keeps_the_last_run_of_each_crate(self) -> None:
        wrong.RECORD.write_text(wrong.with_run("", "other", "abc", 1.0, []))
        wrong.main([])
        wrong.main([])
        text = wrong.RECORD.read_text()
        self.assertIn("other: 0 of 0 refused, at abc, 1.0 minutes\n\nsome: 1 of 2 refused", text)
        self.assertEqual(text.count("leaves the sum out: refused by returns-clause-sum"), 1)


if __name__ == "__main__":
    unittest.main()
