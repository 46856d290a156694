"""The child over pipes, and the cures of its faults."""
import os
import signal
from pathlib import Path

from viewer import manual
from viewer.program import BadScript, Program, ProgramEnded, replies_to, script_lines

from .common import STREAM, Case, asked_at_once, program

VIEW = "v 0 -900 300 1000 4 32433 4553 -1016 6531000"


class Scripts(Case):
    def test_lines_that_a_page_may_send(self) -> None:
        views = (VIEW, "v 0 0 0 0 0", "vs 1 -2 3 4 5 6", "vd 0 0 0 0 0", "vds 1 -2 3 4 5 6")
        for line in (*views, "w", "m", "p 0 0 0 0 0 -1", "d", "k", "l", "b 0", "b 4294967295"):
            self.assertEqual(script_lines(line + "\n"), [line])

    def test_lines_that_it_may_not(self) -> None:
        bad = ["q\n", "s 0\n", "c 0\n", "t\n", "g 0 1\n", "w", "", "\n", "w \n", "w\r\n", "d 1\n"]
        bad += ["b\n", "b -1\n", "b 01\n", "l 0\n", "vsd 1 -2 3 4 5 6\n", "vds 1 -2 3 4 5\n"]
        bad += ["v 1 2 3 4\n", "v 0 0 0 0 01\n", "p 0 0 0 0 0 -0\n", "v ١ 0 0 0 0\n", "w\n" * 65]
        for text in bad:
            with self.assertRaises(BadScript, msg=repr(text)):
                script_lines(text)


class Running(Case):
    def setUp(self) -> None:
        self.program = Program(program(), STREAM.read_bytes(), 9)
        self.addCleanup(self.program.close)

    def test_each_line_has_its_reply(self) -> None:
        text = self.program.ask(f"{VIEW}\nm\nw\np 0 0 0 0 0 1\nm\n").text.decode()
        words = [line.split()[0] for line in text.splitlines() if line[0] not in "v"]
        kept = [word for word in words if word != "f"]
        self.assertEqual(kept, ["settled", "shape", "frame", "end", "hit", "shape"])

    def test_lines_of_a_live_session_have_theirs(self) -> None:
        text = self.program.ask(f"b 1\n{VIEW}\nd\nl\nd\nk\nm\n").text.decode()
        lines = [line for line in text.splitlines() if not line.startswith(("v ", "f ", "-"))]
        words = ["ok", "spent 1 1", "change 5 6", "end", "level 5 6 1", "change 5 6", "end", "ok"]
        for line, begins in zip(lines, words):
            self.assertTrue(line.startswith(begins), line)
        self.assertEqual(len(lines), len(words) + 1)

    def test_each_marked_front_has_a_number_of_its_own(self) -> None:
        other = Program(program(), STREAM.read_bytes(), 9)
        self.addCleanup(other.close)
        marks = []
        for one, script in ((self.program, "m\n"), (self.program, "w\nk\n"), (self.program, "d\n")):
            answer, aside = one.ask(script), other.ask("d\n")
            marks += [answer.before, answer.after, aside.after]
        first, after_m, _, before_k, after_k, _, before_d, after_d, _ = marks
        self.assertEqual((first, before_k, before_d), (after_m, after_m, after_k))
        kept = [first, after_k, after_d, *marks[2::3]]
        self.assertEqual(len(set(kept)), len(kept))

    def test_calls_from_several_threads_are_done_one_by_one(self) -> None:
        texts = asked_at_once(self.program.ask, "w\nm\n", 8)
        self.assertEqual((len(texts), len(set(texts))), (8, 1))

    def test_its_fault_line_is_told_with_the_cure(self) -> None:
        with self.assertRaises(ProgramEnded) as caught:
            self.program.ask("v 0 0 0 70000 1\n")  # the line before is the `m` at the start
        self.assertIn("vdpm: fault 30 line 2", caught.exception.reason)
        self.assertIn("one space between fields", caught.exception.cure)
        with self.assertRaisesRegex(ProgramEnded, "fault 30"):
            self.program.ask("w\n")

    def test_a_signal_is_told(self) -> None:
        os.kill(self.program.number, signal.SIGKILL)
        with self.assertRaisesRegex(ProgramEnded, "ended by signal 9"):
            self.program.ask("w\n")


class Starting(Case):
    def test_a_missing_program_is_told(self) -> None:
        missing = Path("/nowhere/vdpm")
        with self.assertRaisesRegex(ProgramEnded, "can't be started: No such file"):
            Program(missing, STREAM.read_bytes(), 1)
        with self.assertRaisesRegex(ProgramEnded, "can't be started: No such file"):
            replies_to(missing, b"", b"")

    def test_a_program_that_says_nothing_is_told(self) -> None:
        silent = self.written("vdpm", b"#!/bin/sh\nexit 7\n", runs=True)
        with self.assertRaisesRegex(ProgramEnded, "status 7 and said nothing"):
            Program(silent, STREAM.read_bytes(), 1)


class Cures(Case):
    def test_the_manual_has_a_cure_for_each_fault(self) -> None:
        faults = {
            manual.OBJ: range(1, 13),
            manual.STREAM: [11, *range(20, 30), 33],
            manual.SCRIPT: [30, 31, 32],
            manual.PREPARE: [1, 2, 3, 4, 6, 7, *range(9, 16), *range(21, 29), *range(41, 57)],
        }
        for heading, numbers in faults.items():
            for number in numbers:
                cure = manual.cure_of(f"vdpm: fault {number} line 1", heading)
                self.assertGreater(len(cure), 5, f"{heading}: fault {number}")

    def test_a_status_without_a_fault_has_its_own(self) -> None:
        self.assertIn("memory", manual.cure_of("vdpm: out of memory", manual.OBJ, 5))
        self.assertEqual(manual.cure_of("killed", manual.OBJ), "")
