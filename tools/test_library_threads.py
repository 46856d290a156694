"""Tries sessions of python/vdpm in threads: python3 tools/test_library_threads.py"""
import contextlib
import threading
import unittest
from typing import Callable, List, Set

from tried_library import TOP, flat, take_library

import vdpm

TORUS = (TOP / "examples/torus.obj").read_bytes()
EYE = (0, -60000, 40000)


def setUpModule() -> None:
    take_library()


def torus() -> vdpm.Session:
    return vdpm.Session(vdpm.simplify(vdpm.prepare(TORUS, 30000).text))


class Threads(unittest.TestCase):
    def run_all(self, works: List[Callable[[], None]]) -> None:
        failed: List[BaseException] = []

        def work(it: Callable[[], None]) -> None:
            try:
                it()
            except BaseException as fault:  # pylint: disable=broad-except
                failed.append(fault)

        threads = [threading.Thread(target=work, args=(it,)) for it in works]
        for thread in threads:
            thread.start()
        for thread in threads:
            thread.join()
        self.assertEqual(failed, [])

    def test_three_threads_have_one_session(self) -> None:
        with torus() as session:
            seen: Set[bytes] = set()

            def look() -> None:
                for turn in range(60):
                    session.view(EYE, 900, 1 + turn % 7)
                    frame = session.frame()
                    self.assertEqual(len(flat(frame.places)), 3 * len(frame.nodes))
                    self.assertLess(max(flat(frame.corners)), len(frame.nodes))
                    self.assertTrue(session.line("w").endswith(b"end\n"))
                    seen.add(session.line("l").split()[0])
                    session.change()

            self.run_all([look] * 3)
            self.assertEqual(seen, {b"level"})

    def test_sixteen_threads_have_a_session_each(self) -> None:
        stream, frames = vdpm.simplify(TORUS), set()

        def look() -> None:
            with vdpm.Session(stream) as session:
                for turn in range(20):
                    session.view((0, -3000, 100 * turn), 900, 1 + turn % 7)
                frames.add(session.line("w"))

        self.run_all([look] * 16)
        self.assertEqual(len(frames), 1)

    def test_a_session_may_be_closed_meanwhile(self) -> None:
        session = torus()

        def look() -> None:
            with contextlib.suppress(vdpm.NotOpen):
                for _ in range(200):
                    session.view(EYE, 900, 3)
                    session.frame()

        self.run_all([look, look, session.close])
        with self.assertRaises(vdpm.NotOpen):
            session.frame()


if __name__ == "__main__":
    unittest.main()
