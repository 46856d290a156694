"""Tries the runner of the cases on programs that answer wrongly: python3 tests/test_run.py"""
import subprocess
import sys
import tempfile
import unittest
from pathlib import Path
from typing import List, Optional

import builders
from case_files import CaseFault, read_cases
from programs import READING, Programs, without_notice
from run import failure, with_live

TESTS = Path(__file__).resolve().parent
NOTICE = "vdpm: not proved on this machine yet, run-time checks are on; ./prove proves it"
# Tells the size of each piece that it reads, and how the reading ended.
READER = """#!/usr/bin/env python3
import os
while True:
    try:
        piece = os.read(0, 65536)
    except OSError as error:
        print(f"failed {error.errno}", flush=True)
        break
    print(len(piece), flush=True)
    if not piece:
        break
"""
# Calls the C library until a call fails, since Python makes its own ones again after a signal.
CALLER = """#!/usr/bin/env python3
import ctypes, os
libc = ctypes.CDLL(None, use_errno=True)
room = ctypes.create_string_buffer(16)
done = 1
while done > 0:
    done = libc.{call}
    told = str(done) if done >= 0 else f"failed {{ctypes.get_errno()}}"
    os.write(2, f"{{told}}\\n".encode())
"""


class Runner(unittest.TestCase):
    """Runs a case over a program that is written for it."""

    def setUp(self) -> None:
        self.folder = tempfile.TemporaryDirectory(prefix="test-run-")
        self.room = Path(self.folder.name)

    def tearDown(self) -> None:
        self.folder.cleanup()

    def program(self, text: str) -> Path:
        path = self.room / "vdpm"
        path.write_text(text if text.startswith("#!") else f"#!/bin/sh\n{text}\n")
        path.chmod(0o755)
        return path

    def cases(self, lines: List[str]) -> Path:
        path = self.room / "some.cases"
        path.write_text("\n".join(lines) + "\n")
        return path

    def told(self, program: str, *lines: str) -> Optional[str]:
        """What is told of a case of these lines over this program; none where it passes."""
        [case] = read_cases([self.cases(["case one", *lines])])
        return failure(case, Programs({"vdpm": self.program(program)}))

    def assert_told(self, part: str, program: str, *lines: str) -> None:
        text = self.told(program, *lines)
        self.assertIsNotNone(text)
        self.assertIn(part, text or "")


class WhatIsCompared(Runner):
    def test_a_right_answer_passes(self) -> None:
        program = 'cat; echo "$*" >&2; exit 3'
        lines = ["run vdpm a 'b c'", "in lines x; y", "out lines x; y", "err a b c", "status 3"]
        self.assertIsNone(self.told(program, *lines))

    def test_a_wrong_status_is_told(self) -> None:
        self.assert_told("status, wanted: 0, got: 1", "exit 1", "run vdpm")

    def test_a_death_by_a_signal_is_told(self) -> None:
        self.assert_told("status, wanted: 0, got: -11", "kill -SEGV $$", "run vdpm")

    def test_a_wrong_output_is_told(self) -> None:
        self.assert_told("output, got:    ab\\n", "echo ab", "run vdpm", "out lines ac")

    def test_an_output_too_much_is_told(self) -> None:
        self.assert_told("output, got:    x\\n", "echo x", "run vdpm")

    def test_a_missing_output_is_told(self) -> None:
        self.assert_told("output, wanted: x\\n", "true", "run vdpm", "out lines x")

    def test_a_missing_lf_is_told(self) -> None:
        self.assert_told("output, got:    x", "printf x", "run vdpm", "out lines x")

    def test_a_wrong_error_line_is_told(self) -> None:
        self.assert_told("errors, got:    b\\n", "echo b >&2", "run vdpm", "err a")

    def test_an_error_line_too_much_is_told(self) -> None:
        self.assert_told("errors, got:    b\\n", "echo b >&2", "run vdpm")

    def test_a_sum_is_compared(self) -> None:
        right = "out sum 87428fc522803d31065e7bce3cf03fe475096631e5e07bbd7a0fde60c4cf25c7 2"
        self.assertIsNone(self.told("echo a", "run vdpm", right))
        self.assert_told("output, got:    sum", "echo b", "run vdpm", right)

    def test_a_program_that_goes_on_is_stopped(self) -> None:
        lines = ["run vdpm", "seconds 0.5"]
        self.assert_told("stopped after 0.5 seconds", "exec sleep 60", *lines)

    def test_want_of_memory_passes_under_a_limit_alone(self) -> None:
        program = "echo vdpm: out of memory >&2; exit 5"
        self.assertIsNone(self.told(program, "run vdpm", "memory 500000", "out lines x"))
        self.assert_told("status", program, "run vdpm", "out lines x")
        with_output = f"echo x; {program}"
        self.assert_told("status", with_output, "run vdpm", "memory 500000", "out lines x")

    def test_only_the_first_line_is_a_notice(self) -> None:
        self.assertEqual(without_notice("vdpm", f"{NOTICE}\nx\n".encode()), b"x\n")
        by_cargo = NOTICE.replace("./prove proves it", "cargo built it")
        self.assertEqual(without_notice("vdpm", f"{by_cargo}\nx\n".encode()), b"x\n")
        twice = f"{NOTICE}\n{NOTICE}\n".encode()
        self.assertEqual(without_notice("vdpm", twice), f"{NOTICE}\n".encode())
        for text in (f"x\n{NOTICE}\n", f"{NOTICE}.\n", NOTICE):
            self.assertEqual(without_notice("vdpm", text.encode()), text.encode())
        self.assertEqual(without_notice("prepare", f"{NOTICE}\n".encode()), f"{NOTICE}\n".encode())


class Devices(Runner):
    def test_pieces_come_one_by_one(self) -> None:
        lines = ["run vdpm", "in text abcdefg", "pieces 3", "out lines 3; 3; 1; 0"]
        self.assertIsNone(self.told(READER, *lines))

    def test_an_input_may_stay_open(self) -> None:
        lines = ["run vdpm", "in text abc", "device stdin open", "seconds 0.5"]
        self.assert_told("stopped after", READER, *lines)

    def test_a_connection_is_reset_after_its_bytes(self) -> None:
        lines = ["run vdpm", "in text abc", "device stdin reset", "out lines 3; failed 104"]
        self.assertIsNone(self.told(READER, *lines))

    def test_a_terminal_is_ended_once(self) -> None:
        lines = ["run vdpm", "in lines ab", "device stdin terminal", "out lines 3; 0"]
        self.assertIsNone(self.told(READER, *lines))

    def test_a_read_is_interrupted_once_all_is_taken(self) -> None:
        lines = ["run vdpm", "in text abc", "device stdin interrupted", "err 3", "err failed 4"]
        self.assertIsNone(self.told(CALLER.format(call="read(0, room, 16)"), *lines))
        # (a program that asks again comes to the end of its input)
        lines = ["run vdpm", "in text abc", "device stdin interrupted", "out lines 3; 0"]
        self.assertIsNone(self.told(READER, *lines))

    def test_a_write_is_interrupted(self) -> None:
        lines = ["run vdpm", "in text abc", "device stdout interrupted", "err failed 4"]
        self.assertIsNone(self.told(CALLER.format(call="write(1, room, 16)"), *lines))

    def test_an_input_may_be_no_input(self) -> None:
        program = "cat 2>/dev/null"
        for kind in ("folder", "closed"):
            lines = ["run vdpm", f"device stdin {kind}", "status 1"]
            self.assertIsNone(self.told(program, *lines))

    def test_an_output_has_so_much_room(self) -> None:
        program = """#!/usr/bin/env python3
import os, sys
print(os.write(1, b"abcdef"), file=sys.stderr)
"""
        for room in (1, 5, 2000):
            lines = ["run vdpm", f"device stdout room {room}", f"out text abcdef | cut {room}"]
            self.assertIsNone(self.told(program, *lines, f"err {min(room, 6)}"))

    def test_a_reader_leaves(self) -> None:
        lines = ["run vdpm", "device stdout leaves 5", "out text y\\ny\\ny", "status 1"]
        self.assertIsNone(self.told("trap '' PIPE; yes 2>/dev/null", *lines))

    def test_no_reader_is_there(self) -> None:
        lines = ["run vdpm", "device stdout gone", "status 1"]
        self.assertIsNone(self.told("trap '' PIPE; yes 2>/dev/null", *lines))

    def test_an_answer_is_waited_for(self) -> None:
        lines = ["run vdpm", "live", "in lines a", "out lines a", "in lines b", "out lines b"]
        self.assertIsNone(self.told("while read x; do echo $x; done", *lines))
        late = ["seconds 1", *lines]
        self.assert_told("stopped after", "read x; read y; echo a; echo b", *late)


class Reading(Runner):
    def refused(self, part: str, *lines: str) -> None:
        with self.assertRaises(CaseFault) as caught:
            read_cases([self.cases(list(lines))])
        self.assertIn(part, str(caught.exception))

    def test_rows_make_cases(self) -> None:
        lines = ["case one", "rows a | b", "| 1 | x y", "| 2 | z", "run vdpm {a}", "err {b}"]
        cases = read_cases([self.cases(lines)])
        self.assertEqual([case.name for case in cases], ["one[1 x y]", "one[2 z]"])
        self.assertEqual([case.words for case in cases], [["1"], ["2"]])
        self.assertEqual([case.errors for case in cases], [b"x y\n", b"z\n"])

    def test_a_range_makes_cases(self) -> None:
        cases = read_cases([self.cases(["case one", "rows n 9..11", "run vdpm {n}"])])
        self.assertEqual([case.words for case in cases], [["9"], ["10"], ["11"]])

    def test_a_whole_run_of_view_is_one_of_live_too(self) -> None:
        lines = ["case one", "run vdpm view 5", "", "case two", "run vdpm view 5", "status 1"]
        cases = [twin for case in read_cases([self.cases(lines)]) for twin in with_live(case)]
        self.assertEqual([case.name for case in cases], ["one", "one as live", "two"])
        self.assertEqual(cases[1].words, ["live", "5"])

    def test_faults_of_a_file_are_named(self) -> None:
        self.refused("some.cases:2: `ran` is no key", "case one", "ran vdpm")
        self.refused("some.cases:3: `run` stands twice", "case one", "run vdpm", "run vdpm")
        self.refused("some.cases:1: a case has a line `run", "case one", "status 1")
        self.refused("some.cases:3: one stands", "case one", "run vdpm", "case one", "run vdpm")
        self.refused("some.cases:3: 2 fields were to", "case one", "rows a | b", "| 1", "run vdpm")
        self.refused("some.cases:3: no such device", "case one", "run vdpm", "device stdin x")
        self.refused("some.cases:1: a `case`", "run vdpm")

    def test_a_builder_that_is_none_fails_its_case(self) -> None:
        self.assert_told("`lime` names no builder", "true", "run vdpm", "in lime x")
        self.assert_told("`snip` is no filter", "true", "run vdpm", "in text x | snip 1")

    def test_an_input_goes_through_a_program(self) -> None:
        lines = ["run vdpm 2", "in text abc", "through vdpm 3", "in text de", "out text de"]
        self.assertIsNone(self.told("tail -c +$1", *lines))


class Builders(unittest.TestCase):
    def bytes_of(self, line: str) -> bytes:
        return builders.flat(builders.build(line, {"named": b"named"}))

    def test_texts(self) -> None:
        rows = [
            ("lines a; b", b"a\nb\n"),
            ("text a\\r\\n\\x00\\s\\\\", b"a\r\n\0 \\"),
            ("repeat 2 ab", b"ab\nab\n"),
            ("byte 3 x", b"xxx"),
            ("comments 2 3", b"##\n##\n"),
            ("named | cut 2", b"na"),
            ("lines a; b | crlf", b"a\r\nb\r\n"),
            ("byte 6 \\0 | set 1 258", b"\0\2\1\0\0\0"),
            ("text abc | byte 1 66", b"aBc"),
            ("header 5 4 3 1", b"VDPM\1\0\0\0\5\0\0\0\4\0\0\0\3\0\0\0\1\0\0\0"),
        ]
        for line, wanted in rows:
            self.assertEqual(self.bytes_of(line), wanted, line)

    def test_blocks_join_to_the_whole(self) -> None:
        data = [(b"abc", 7), (b"", 3), (b"d" * 50, 1), (b"e", 1)]
        for size in (1, 2, 3, 7, 64, 1000):
            blocks = list(builders.blocks(data, size))
            self.assertEqual(b"".join(blocks), builders.flat(data))
            self.assertTrue(all(len(block) == size for block in blocks[:-1]))

    def test_a_chain_has_a_face_a_record(self) -> None:
        for many in (2, 3, 100):
            self.assertEqual(len(self.bytes_of(f"chain {many}")), 24 + 76 + 68 * (many - 1))


class Whole(Runner):
    def run_all(self, program: str, *lines: str) -> "subprocess.CompletedProcess[str]":
        path = str(self.program(program))
        named = [word for name in READING for word in (f"--{name}", path)]
        words = ["run.py", str(self.cases(list(lines))), *named]
        words.insert(0, sys.executable)
        pipe = subprocess.PIPE
        return subprocess.run(words, cwd=TESTS, stdout=pipe, stderr=pipe, text=True, check=False)

    def test_the_status_is_0_where_all_passed(self) -> None:
        done = self.run_all("cat >/dev/null", "case one", "run vdpm", "case two", "run vdpm")
        self.assertEqual((done.returncode, done.stdout), (0, "2 passed, 0 failed\n"))

    def test_the_status_is_1_where_one_failed(self) -> None:
        cases = ["case one", "run vdpm", "case two", "run vdpm x"]
        done = self.run_all("cat >/dev/null; exit $#", *cases)
        self.assertEqual(done.returncode, 1)
        self.assertIn("FAILED two (some.cases:3): vdpm x\n", done.stdout)
        self.assertEqual(done.stdout.splitlines()[-1], "1 passed, 1 failed")

    def test_the_status_is_1_where_there_is_no_program(self) -> None:
        done = self.run_all("echo vdpm: no kit >&2; exit 70", "case one", "run vdpm")
        self.assertEqual(done.returncode, 1)
        self.assertIn("ended with status 70, so no case was run\n", done.stdout)
        self.assertEqual(done.stdout.splitlines()[-1], "0 passed, 1 failed")

    def test_the_status_is_1_where_no_case_ran(self) -> None:
        done = self.run_all("cat >/dev/null", "text one", "| x")
        self.assertEqual((done.returncode, done.stdout), (1, "0 passed, 0 failed\n"))


if __name__ == "__main__":
    unittest.main()
