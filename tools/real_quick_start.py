"""What test_quick_start.py tries with --real: a clone of this commit, with the kit on the path, and
without it by cargo."""
import os
import shutil
import subprocess
import tempfile
import time
import unittest
from pathlib import Path
from typing import List, Tuple

TOP = Path(__file__).resolve().parent.parent
NOTICE = "vdpm: not proved on this machine yet, run-time checks are on; ./prove proves it"
# A number that is read grows past 64 bits where it isn't held at its most.
NUMBER = ("crates/pm_io/src/number.rt", ".min(most);", ";")
# The last byte that is held isn't given out.
TAKER = ("crates/pm_io/src/taker.rt", "if self.from < self.to {", "if self.from + 1 < self.to {")


class OverClone(unittest.TestCase):
    notice = NOTICE

    def setUp(self) -> None:
        room = tempfile.TemporaryDirectory(prefix="quick-start-")
        self.addCleanup(room.cleanup)
        self.top, self.home = Path(room.name) / "clone", Path(room.name) / "home"
        subprocess.run(["git", "clone", "-q", TOP, self.top], check=True)
        self.home.mkdir()
        self.environment = {**os.environ, "HOME": str(self.home)}

    def start(self, *words: str) -> "subprocess.Popen[str]":
        with open(self.top / "examples/octahedron.view", "rb") as given:
            return subprocess.Popen([self.top / words[0], *words[1:]], cwd=self.top, stdin=given,
                                    stdout=subprocess.PIPE, stderr=subprocess.PIPE, text=True,
                                    env=self.environment)

    def timed(self, *words: str, times: int = 1) -> List[Tuple[int, str, str]]:
        """What some runs at once end with and print; says how long they took."""
        begun, was = time.monotonic(), os.times()
        started = [self.start(*words) for _ in range(times)]
        ended = [(*one.communicate(), one.returncode) for one in started]
        now = os.times()
        spent = now.children_user + now.children_system - was.children_user - was.children_system
        wall = time.monotonic() - begun
        print(f"{' '.join(words)}, {times} at once: {wall:.1f} s, of processors {spent:.1f} s")
        return [(status, said, told) for said, told, status in ended]

    def change(self, place: str, old: str, new: str) -> None:
        text = (self.top / place).read_text(encoding="utf-8")
        self.assertEqual(text.count(old), 1)
        (self.top / place).write_text(text.replace(old, new), encoding="utf-8")

    def assert_answer(self, ran: Tuple[int, str, str]) -> None:
        status, said, told = ran
        self.assertEqual((status, told.splitlines()[-1]), (0, self.notice))
        self.assertIn("frame 6 8\n", said)


class OverRealKit(OverClone):
    def test_first_answers_two_at_once_with_temporary_files_elsewhere(self) -> None:
        with tempfile.TemporaryDirectory(dir="/dev/shm") as elsewhere:
            self.environment["TMPDIR"] = elsewhere
            for ran in self.timed("vdpm", "view", "5", times=2):
                self.assert_answer(ran)
            self.assertEqual(os.listdir(elsewhere), [])
        [ran] = self.timed("vdpm", "view", "5")
        self.assert_answer(ran)
        self.assertEqual(len(ran[2].splitlines()), 1)

    def test_an_overflow_stops_the_program(self) -> None:
        self.change(*NUMBER)
        [(status, said, told)] = self.timed("vdpm", "build", "9" * 30)
        self.assertNotIn(status, range(6))
        self.assertEqual((said, told.splitlines()[-1]), ("", NOTICE))

    def test_sources_that_do_not_compile(self) -> None:
        self.change("crates/vdpm/src/main.rt", "fn main", "fn (main")
        [(status, said, told)] = self.timed("vdpm", "view", "5")
        self.assertEqual((status, said), (70, ""))
        self.assertIn("main.rt:", told)

    @unittest.skipIf(shutil.which("rt") is None, "there is no kit")
    def test_an_open_goal_is_named(self) -> None:
        self.change(*TAKER)
        [(status, _, told)] = self.timed("prove", "vdpm")
        self.assertEqual(status, 1, told)
        self.assertIn("crate pm_io is not proved", told)
        self.assertIn("src/taker.rt:", told)


@unittest.skipIf(shutil.which("cargo") is None, "there is no cargo")
class OverRealCargo(OverClone):
    notice = NOTICE.replace("./prove proves it", "cargo built it")

    def setUp(self) -> None:
        super().setUp()
        # (cargo may stand where rt does)
        tools = self.home / "tools"
        tools.mkdir()
        for name in ("cargo", "rustc"):
            (tools / name).symlink_to(shutil.which(name) or name)
        folders = os.environ["PATH"].split(os.pathsep)
        without_kit = [folder for folder in folders if not (Path(folder) / "rt").exists()]
        self.environment["PATH"] = os.pathsep.join([str(tools), *without_kit])
        # (where cargo is rustup's, it looks for its compilers at home)
        self.environment.setdefault("RUSTUP_HOME", str(Path.home() / ".rustup"))

    def test_first_answers_two_at_once(self) -> None:
        for ran in self.timed("vdpm", "view", "5", times=2):
            self.assert_answer(ran)
        [ran] = self.timed("vdpm", "view", "5")
        self.assert_answer(ran)
        self.assertEqual(len(ran[2].splitlines()), 1)

    def test_an_overflow_stops_the_program(self) -> None:
        self.change(*NUMBER)
        [(status, said, told)] = self.timed("vdpm", "build", "9" * 30)
        self.assertNotIn(status, range(6))
        self.assertEqual(said, "")
        self.assertIn(self.notice, told)
        self.assertIn("overflow", told)

    def test_a_form_that_cannot_be_made_plain_rust(self) -> None:
        self.change("crates/vdpm/src/main.rt", "fn main", "macro_rules! main")
        [(status, said, told)] = self.timed("vdpm", "view", "5")
        self.assertEqual((status, said), (70, ""))
        self.assertIn("crates/vdpm/src/main.rt:", told)
