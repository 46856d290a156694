"""Tries following a live session: python3 tools/test_follow.py"""
import subprocess
import sys
import unittest
from pathlib import Path
from typing import List

from follow import followed
from frames import FrameFault

TOOL = Path(__file__).resolve().parent / "follow.py"
SQUARE = """\
frame 4 2
v 0 0 0 0
v 1 9 0 0
v 2 9 9 0
v 3 0 9 0
f 0 0 1 2
f 1 0 2 3
end
"""
# Node 2 was split into 4 and 5, which brought face 2 in and turned faces 0 and 1.
SPLIT = """\
change 5 3
-v 2
v 4 9 8 0
v 5 8 9 0
f 0 0 1 4
f 1 0 5 3
f 2 0 4 5
end
"""
BACK = """\
change 4 2
-f 2
-v 4
-v 5
v 2 9 9 0
f 0 0 1 2
f 1 0 2 3
end
"""
AFTER_THE_SPLIT = """\
frame 5 3
v 0 0 0 0
v 1 9 0 0
v 3 0 9 0
v 4 9 8 0
v 5 8 9 0
f 0 0 1 4
f 1 0 5 3
f 2 0 4 5
end
"""


def frames(text: str) -> List[str]:
    return ["".join(mesh.lines()) for mesh in followed(text.splitlines())]


class Following(unittest.TestCase):
    def test_changes_lead_from_frame_to_frame(self) -> None:
        text = "ok\n" + SQUARE + "ok\nview 1\n" + SPLIT + BACK
        self.assertEqual(frames(text), [SQUARE, AFTER_THE_SPLIT, SQUARE])

    def test_a_frame_gives_the_mesh_anew(self) -> None:
        self.assertEqual(frames(SQUARE + AFTER_THE_SPLIT + BACK)[1:], [AFTER_THE_SPLIT, SQUARE])

    def test_a_change_of_nothing_is_three_words(self) -> None:
        self.assertEqual(frames(SQUARE + "change 4 2\nend\n"), [SQUARE, SQUARE])

    def test_steps_of_a_geomorph_are_passed_over(self) -> None:
        glide = AFTER_THE_SPLIT.replace("frame 5 3", "morph 5 3 1 2")
        self.assertEqual(frames(SQUARE + glide + SPLIT)[1:], [AFTER_THE_SPLIT])

    def test_faults_are_named_with_their_line(self) -> None:
        cases = [
            (SQUARE + BACK, "line 10: `-f 2` doesn't fit the mesh"),
            (SQUARE + SPLIT.replace("-v 2\n", ""), "line 15: nodes and faces are 6 and 3"),
            (SQUARE + SPLIT.replace("v 4 9 8 0", "v 4 9 8"), "line 11: `v 4 9 8` doesn't fit"),
            (SQUARE + "change 4 2\nok\n", "line 10: `ok` doesn't fit"),
            (SQUARE[:-4], "line 7: the text ends within a frame or a change"),
        ]
        for text, said in cases:
            with self.assertRaises(FrameFault) as caught:
                frames(text)
            self.assertTrue(str(caught.exception).startswith(said), str(caught.exception))


class Writing(unittest.TestCase):
    def run_on(self, text: str, *words: str) -> "subprocess.CompletedProcess[str]":
        command = [sys.executable, str(TOOL), *words]
        return subprocess.run(command, input=text, capture_output=True, text=True)

    def test_the_last_mesh_or_each_is_written(self) -> None:
        self.assertEqual(self.run_on(SQUARE + SPLIT).stdout, AFTER_THE_SPLIT)
        self.assertEqual(self.run_on(SQUARE + SPLIT, "--each").stdout, SQUARE + AFTER_THE_SPLIT)

    def test_faults_give_status_1(self) -> None:
        for text, said in [(SQUARE + BACK, "follow: line 10"), ("ok\n", "follow: no frame")]:
            done = self.run_on(text)
            self.assertEqual(done.returncode, 1)
            self.assertIn(said, done.stderr)


if __name__ == "__main__":
    unittest.main()
