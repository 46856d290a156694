"""What the tests of the quick start share: a small repository over a kit of tests."""
import os
import shutil
import subprocess
import tempfile
import unittest
from pathlib import Path
from typing import Dict, NamedTuple, Optional

from fake_kit import make_kit, write
from quick_start.sources import PROGRAMS

TOP = Path(__file__).resolve().parent.parent
NOTICE = "not proved on this machine yet, run-time checks are on; ./prove proves it"
SCRIPT = "#!/bin/sh\ncat\necho told >&2\nexit 3\n"


class Ended(NamedTuple):
    """What came of a command."""

    returncode: int
    stdout: str
    stderr: str


class Repository:
    """A small repository in a folder of its own, with the scripts and tools of this one."""

    def __init__(self, folder: Path) -> None:
        self.top = folder / "a repository"
        shutil.copytree(TOP / "tools/quick_start", self.top / "tools/quick_start")
        for name in ("tools/programs.py", *PROGRAMS, "prove"):
            shutil.copy2(TOP / name, self.top / name)
        write(self.top / "crates.txt", "low:\nvdpm: low\nprepare:\nsimplify: low\n"
              "pack: low\npaint: low\nvdpm_c staticlib: low\n")
        write(self.top / "crates/low/src/lib.rt", "low\n")
        write(self.top / "crates/low/specs/Low.antt", "low\n")
        for name in PROGRAMS:
            write(self.top / f"crates/{name}/src/main.rt", SCRIPT)
        write(self.top / "crates/vdpm_c/src/lib.rt", "a library\n")
        self.kit = make_kit(folder / "kit")
        self.builds = self.kit / "bin/builds"

    def environment(self, path: Optional[str] = None) -> Dict[str, str]:
        return {**os.environ, "PATH": path or f"{self.kit}/bin:{os.environ['PATH']}"}

    def start(self, *words: str) -> "subprocess.Popen[str]":
        pipe = subprocess.PIPE
        return subprocess.Popen([self.top / words[0], *words[1:]], stdin=subprocess.DEVNULL,
                                stdout=pipe, stderr=pipe, text=True, start_new_session=True,
                                env=self.environment())

    def run(self, *words: str, given: str = "", path: Optional[str] = None) -> Ended:
        done = subprocess.run([self.top / words[0], *words[1:]], input=given, text=True,
                              capture_output=True, env=self.environment(path), check=False)
        return Ended(done.returncode, done.stdout, done.stderr)

    def built(self) -> int:
        """How often a build was begun."""
        return len(self.builds.read_text().splitlines()) if self.builds.exists() else 0

    def change(self, place: str, more: str) -> None:
        write(self.top / place, (self.top / place).read_text() + more)


class OverTestKit(unittest.TestCase):
    def setUp(self) -> None:
        room = tempfile.TemporaryDirectory(prefix="quick-start-")
        self.addCleanup(room.cleanup)
        self.repository = Repository(Path(room.name))

    def assert_unproved(self, ran: Ended, name: str = "vdpm") -> None:
        self.assertTrue(ran.stderr.endswith(f"{name}: {NOTICE}\ntold\n"), ran.stderr)
        self.assertEqual(ran.returncode, 3)

    def assert_not_built(self, ran: Ended, *words: str) -> None:
        self.assertEqual((ran.returncode, ran.stdout), (70, ""), ran.stderr)
        for word in words:
            self.assertIn(word, ran.stderr)
        self.assertNotIn("Traceback", ran.stderr)
