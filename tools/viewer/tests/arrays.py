"""Frames and changes that come as arrays."""
import struct
import threading
from typing import Union

from viewer.arrays import FIRST_LINE, Arrays, packed, parted
from viewer.library import LibraryProgram
from viewer.model import Model
from viewer.program import ALL_MOVES, Program
from viewer.server import Server
from viewer.showing import Showing

from .common import Case, end, model, program
from .following import Followed
from .programs import VIEW
from .telling import TellingProgram, bytes_of


class Packing(Case):
    def test_what_stands_behind_a_text(self) -> None:
        lists = ([7], [], [8, 9], [1, 2], [3, 4, 5, 8, 9, 3])
        arrays = Arrays(*(bytes_of(numbers) for numbers in lists))
        for text in (b"ok\n", b"miss", b"change 1 2\n" * 5):
            found = packed(text, arrays)
            begin = (len(text) + 3) // 4 * 4
            self.assertEqual(found[:begin].rstrip(b"\0"), text)
            numbers = struct.unpack(f"<{4 + 11}I", found[begin:])
            self.assertEqual(numbers, (1, 0, 2, 2, *(n for one in lists for n in one)))

    def test_a_script_that_asks_for_arrays(self) -> None:
        self.assertEqual(parted(f"{FIRST_LINE}m\nd\n"), (True, "m\nd\n"))
        self.assertEqual(parted("m\nd\n"), (False, "m\nd\n"))


class TellingShowing(Showing):
    def _started(self, budget: int) -> Union[Program, LibraryProgram]:
        return TellingProgram(self.path, self.model.stream, budget)


class Looking(Followed):
    def served(self, looked_at: Model, budget: int = ALL_MOVES) -> Server:
        server = Server(TellingShowing(program(), looked_at, budget))
        threading.Thread(target=server.serve_forever, args=(0.02,), daemon=True).start()
        self.addCleanup(end, server)
        return server

    def test_the_mesh_that_is_kept_by_them_is_the_front(self) -> None:
        self.fly()
        self.check(1)
        self.choose("distance")
        self.slide("tolerance", 4)
        self.fly(6)
        self.check(1)
        told = [answer for answer in self.answers if answer.arrays is not None]
        self.assertGreater(sum(b"change " in answer.text for answer in told), 2)
        self.assertFalse(any(b"end" in answer.text for answer in told))
        self.assertNotIn("arrays", self.server.showing.flight().decode())
        self.assertEqual(self.page.errors(), [])

    def test_changes_that_do_not_fit_are_made_good(self) -> None:
        wholes = 1
        for tolerance, word in ((14, "-f "), (8, "-v "), (14, "v "), (8, "f ")):
            self.spoil(word)
            self.slide("tolerance", tolerance)
            self.fly(2)
            wholes = self.check(wholes + 1, wholes + 2)


class Programs(Case):
    def test_a_program_beneath_tells_a_text(self) -> None:
        showing = Showing(program(), model("octahedron.vdpm"))
        self.addCleanup(showing.close)
        answer = showing.ask(f"{FIRST_LINE}{VIEW}\nd\n")
        self.assertIsNone(answer.arrays)
        self.assertTrue(answer.text.endswith(b"end\n"))
        self.assertEqual(showing.flight(), f"{VIEW}\nd\n".encode())
