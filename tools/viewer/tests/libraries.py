"""The window by the library: the same replies as by the program beneath."""
import os
import threading
import unittest
from pathlib import Path
from typing import Optional

from viewer.library import LibraryProgram, built_library
from viewer.model import Model
from viewer.program import ALL_MOVES, Program, ProgramEnded
from viewer.server import Server
from viewer.showing import Showing

from .common import STREAM, Case, asked_at_once, end, model, program
from .following import Following
from .programs import VIEW
from .telling import told


def library() -> Optional[Path]:
    """The one that VDPM_LIBRARY names, or one that is built here of these sources."""
    told = os.environ.get("VDPM_LIBRARY")
    return Path(told) if told else built_library()


@unittest.skipUnless(library(), "no library")
class Libraries(Case):
    def opened(self, budget: int = ALL_MOVES) -> LibraryProgram:
        path = library()
        assert path is not None
        opened = LibraryProgram(path, STREAM.read_bytes(), budget)
        self.addCleanup(opened.close)
        return opened

    def test_its_replies_are_those_of_the_program(self) -> None:
        ours, theirs = self.opened(1), Program(program(), STREAM.read_bytes(), 1)
        self.addCleanup(theirs.close)
        for script in ("m\n", "w\nk\n", f"{VIEW}\nd\nl\n", "b 9\n", f"{VIEW}\nw\nd\n", "d\nm\n"):
            one, other = ours.ask(script), theirs.ask(script)
            self.assertEqual(one.text, other.text)
            self.assertEqual(one.before == one.after, other.before == other.after)

    def test_its_arrays_have_the_numbers_of_its_texts(self) -> None:
        ours, theirs = self.opened(), self.opened()
        far, near = VIEW, VIEW.replace(" -900 ", " -90 ")
        for script in ("w\nk\n", f"{near}\nd\n", f"{far}\nd\n", f"{near}\nd\nm\n", "d\n", "m\n"):
            answer, text = ours.ask(script, arrays=True), theirs.ask(script)
            if answer.arrays is None and script != "m\n":
                self.skipTest("the library tells no change as arrays")
            self.assertEqual((answer.text, answer.arrays), (told(text).text, told(text).arrays))
        twice = "d\nw\n"
        self.assertEqual(ours.ask(twice, arrays=True).text, theirs.ask(twice).text)

    def test_calls_from_several_threads_are_done_one_by_one(self) -> None:
        texts = asked_at_once(self.opened().ask, "w\nm\n", 8)
        self.assertEqual((len(texts), len(set(texts))), (8, 1))

    def test_faults_and_the_end_are_told(self) -> None:
        opened = self.opened()
        opened.ask("m\n")
        with self.assertRaises(ProgramEnded) as caught:
            opened.ask("v 0 0 0 70000 1\n")
        self.assertEqual(caught.exception.reason, "fault 30 line 2")
        self.assertIn("one space between fields", caught.exception.cure)
        opened.close()
        with self.assertRaisesRegex(ProgramEnded, "closed"):
            opened.ask("m\n")
        with self.assertRaisesRegex(ProgramEnded, "fault 22 byte 50"):
            LibraryProgram(library() or STREAM, STREAM.read_bytes()[:50], 1)


@unittest.skipUnless(library(), "no library")
class Looking(Following):
    """The pages of `following`, by the library."""

    def served(self, looked_at: Model, budget: int = ALL_MOVES) -> Server:
        server = Server(Showing(program(), looked_at, budget, library()))
        threading.Thread(target=server.serve_forever, args=(0.02,), daemon=True).start()
        self.addCleanup(end, server)
        return server

    test_a_program_that_was_killed_and_started_again = None  # type: ignore[assignment]

    def test_a_session_that_failed_is_opened_again(self) -> None:
        task = "{ task: 'ask', script: 'v 0 0 0 70000 1\\n' }"
        self.value(f"viewer.work.ask({task}).catch((fault) => viewer.fail(fault)); 0")
        self.page.until("!document.getElementById('fault').hidden")
        self.assertIn("fault 30 line", self.text("fault-reason"))
        self.value("document.getElementById('again').click()")
        self.check(2)
        self.assertEqual(self.server.showing.model, model("asteroid.obj"))


del Following  # it is tried by its own module
