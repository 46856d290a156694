"""The words and statuses of tools/world.py."""
import os
import random
import signal
import subprocess
import sys
import time
from unittest import mock

import world

from ..form import read_world
from .common import SIMPLIFY, TOP, VDPM, WithWorld, grid_text, needs_simplify, random_field

TOOL = str(TOP / "tools" / "world.py")


def called(*words: object) -> "subprocess.CompletedProcess[str]":
    command = [sys.executable, TOOL, *map(str, words)]
    return subprocess.run(command, capture_output=True, text=True, check=False)


class Commands(WithWorld):
    def setUp(self) -> None:
        super().setUp()
        field = random_field(random.Random(10), 9, 9)
        self.source = self.file("field.asc", grid_text(field, 10))
        self.folder = self.room / "world"
        self.done = called("cut", self.source, self.folder, "--faces", 32, "--unit", 1)

    def test_cutting_tells_what_came_out(self) -> None:
        self.assertEqual(
            (self.done.returncode, self.done.stdout),
            (0, "4 tiles of 128 faces, border sides 64, outline 32, parents 1, unit 1\n"),
        )
        names = called("list", self.folder, 1).stdout.split()
        self.assertEqual(names, [str(self.folder / "parents" / "t")])
        self.assertEqual(len(called("list", self.folder, 0).stdout.split()), 4)

    def test_faults_have_status_1_and_wrong_words_2(self) -> None:
        for words, status, said in (
            (("cut", self.room / "none.obj", self.folder), 1, "No such file"),
            (("cut", self.source, self.folder, "--faces", 1), 1, "from 2 to 1,048,576 faces"),
            (("check", self.room), 1, "can't be read"),
            (("parent", self.folder, "nobody"), 1, "has no tile nobody"),
            (("cut",), 2, "required"),
            (("cut", self.source, self.folder, "--unit", 0), 2, "0 isn't above 0"),
        ):
            done = called(*words)
            self.assertEqual(done.returncode, status, done.stderr)
            self.assertIn(said, done.stderr)

    def test_one_who_stops_is_told_how_to_go_on(self) -> None:
        words = ["world.py", "cut", str(self.source), str(self.folder)]
        with mock.patch.object(world, "make_world", side_effect=KeyboardInterrupt):
            with mock.patch.object(sys, "argv", words), mock.patch.object(
                world, "say", self.said.append
            ):
                self.assertEqual(world.main(), 130)
        self.assertEqual(self.said, ["stopped; the same command goes on"])

    def check_by(self, script: str) -> "subprocess.Popen[str]":
        """Begins to check by two processes, with a script in place of vdpm."""
        cut = read_world(self.folder)
        for tile in cut.level(0):
            cut.stream(tile).write_bytes(b"")
        fake = self.room / "fake"
        fake.write_text(f"#!/bin/sh\n{script}\n")
        fake.chmod(0o755)
        words = [sys.executable, TOOL, "check", str(self.folder), "--jobs", "2", "--program"]
        # (who runs these tests in the background may have SIGINT ignored)
        return subprocess.Popen(
            [*words, str(fake)], stdout=subprocess.PIPE, stderr=subprocess.PIPE, text=True,
            start_new_session=True,
            preexec_fn=lambda: signal.signal(signal.SIGINT, signal.SIG_DFL),
        )

    def test_a_process_that_is_ended_is_told(self) -> None:
        with self.check_by("kill -9 $PPID") as check:
            said = check.communicate(timeout=100)
        self.assertEqual(check.returncode, 1)
        self.assertEqual(
            said, ("", "world: a process was ended from outside: take fewer --jobs\n")
        )

    def test_one_who_stops_a_check_ends_all_its_processes(self) -> None:
        with self.check_by('cd "${0%/*}" && echo >> begun && exec sleep 600') as check:
            while check.poll() is None and not (self.room / "begun").exists():
                time.sleep(0.02)
            os.killpg(check.pid, signal.SIGINT)
            try:
                said = check.communicate(timeout=100)
            finally:
                os.killpg(check.pid, signal.SIGKILL)  # the programs that sleep
        self.assertEqual(said, ("", "world: stopped\n"))
        self.assertEqual(check.returncode, 130)
        self.assertLessEqual(len((self.room / "begun").read_text()), 2)

    @needs_simplify
    def test_a_world_is_made_by_the_script(self) -> None:
        script = str(TOP / "examples" / "world" / "build.sh")
        words = ["sh", script, str(self.folder), "2"]
        env = {"PATH": "/usr/bin:/bin", "SIMPLIFY": str(SIMPLIFY), "VDPM": str(VDPM),
               "PYTHON": sys.executable, "FACES": "40"}
        for _ in range(2):  # the second time all is there
            subprocess.run(words, check=True, env=env, capture_output=True)
        done = called("check", self.folder, "--program", VDPM)
        self.assertEqual(done.returncode, 0, done.stderr)
        self.assertIn("5 streams: each valid, each border fixed, each seam equal", done.stdout)
        self.assertEqual(read_world(self.folder).levels, 2)
