"""Tries viewers of the library on the script cases of tests/cases: python3 tools/test_library.py

The library (tools/tried_library.py) is called from Python and from C. Each script of a case is done
line by line, and the replies are compared byte for byte with those that the case stores; each
stream that a case refuses is refused for the same fault.
"""
import ctypes
import hashlib
import random
import shutil
import subprocess
import tempfile
import unittest
from pathlib import Path
from typing import Dict, Iterable, List, Optional, Tuple

from follow import Mesh, Three
from tried_library import (
    TOP, Asked, all_asked, compiled, flat, runs_that_fail, stream_length, take_library,
)  # fmt: skip

import vdpm
from vdpm.library import NO_ROOM

OCTAHEDRON = TOP / "examples" / "octahedron.vdpm"
GLIDE = TOP / "examples" / "octahedron_glide.script"
GLIDE_REPLIES = TOP / "examples" / "octahedron_glide.replies"
folder = tempfile.TemporaryDirectory(prefix="library-")


def setUpModule() -> None:
    take_library()


def tearDownModule() -> None:
    folder.cleanup()


class Scripts(unittest.TestCase):
    def played(self, asked: Asked) -> Tuple[bytes, Optional[Tuple[int, Optional[int]]]]:
        """The replies and the fault of a case, from the library."""
        if asked.fault and asked.fault[0] < 30 or asked.fault and asked.fault[0] == 33:
            try:
                vdpm.Session(asked.given, int(asked.words[1])).close()
            except vdpm.Fault as fault:
                return b"", (fault.number, fault.place)
            return b"", None
        length = stream_length(asked.given)
        replies: List[bytes] = []
        script = asked.given[length:]
        lines = script.split(b"\n")
        if lines[-1] == b"":
            lines.pop()
        with vdpm.Session(asked.given[:length], int(asked.words[1])) as session:
            for number, line in enumerate(lines, 1):
                try:
                    replies.append(session.line(line))
                except vdpm.Fault as fault:
                    return b"".join(replies), (fault.number, number)
                if line == b"q":
                    break
        return b"".join(replies), None

    def test_replies_and_faults_are_those_of_the_program(self) -> None:
        tried = 0
        for asked in all_asked():
            # (a script of `view` may not have the lines of `live`, and is cut off at its own limit)
            is_view = asked.words[0] == "view"
            if asked.fault and (asked.fault[0] == 32 or is_view and asked.fault[0] == 30):
                continue
            with self.subTest(asked.name):
                output, fault = self.played(asked)
                self.assertEqual(fault, asked.fault)
                if asked.output is not None:
                    self.assertEqual(output, asked.output)
                else:
                    self.assertEqual(hashlib.sha256(output).hexdigest(), asked.digest)
            tried += 1
        self.assertGreater(tried, 100)


class Arrays(unittest.TestCase):
    def test_arrays_spell_the_frame_text(self) -> None:
        with vdpm.Session(OCTAHEDRON.read_bytes()) as session:
            for line in ("b 9", "s 0", "s 1", "c 1"):
                session.line(line)
                self.assertEqual(self.spelled(session), session.line("w").decode())

    def test_arrays_spell_the_frames_of_random_fronts(self) -> None:
        chance, tried = random.Random(1), 0
        streams = {asked.given[: stream_length(asked.given)] for asked in all_asked()
                   if asked.fault is None and len(asked.given) < 100_000}
        for stream in sorted(streams):
            with vdpm.Session(stream) as session:
                records = session.sizes().records
                for _ in range(20 if records else 0):
                    for _ in range(5):
                        session.line(f"{chance.choice('ssc')} {chance.randrange(records)}")
                    self.assertEqual(self.spelled(session), session.line("w").decode())
                    tried += 1
        self.assertGreaterEqual(tried, 100)

    def spelled(self, session: vdpm.Session) -> str:
        """The frame text, by the arrays."""
        frame = session.frame()
        nodes, places, faces, corners, corner_nodes = map(flat, frame)
        self.assertEqual([nodes[at] for at in corners], corner_nodes)
        rows = [f"frame {len(nodes)} {len(faces)}"]
        rows += ["v {} {} {} {}".format(v, *places[3 * i : 3 * i + 3]) for i, v in enumerate(nodes)]
        triples = [corner_nodes[3 * i : 3 * i + 3] for i in range(len(faces))]
        rows += ["f {} {} {} {}".format(f, *triple) for f, triple in zip(faces, triples)]
        return "\n".join(rows + ["end", ""])

    def test_nodes_know_their_records_and_leaves_their_ancestors(self) -> None:
        with vdpm.Session(OCTAHEDRON.read_bytes()) as session:
            sizes = session.sizes()
            for record in range(sizes.records):
                session.split(record)
            shown = [int(n) for n in session.frame().nodes]
            self.assertEqual(sorted(session.ancestor(x) for x in range(sizes.leaves)), shown)
            self.assertTrue(all(session.splitter(node) is None for node in shown))
            splitters = [session.splitter(node) for node in range(sizes.nodes)]
            records = sorted(record for record in splitters if record is not None)
            self.assertEqual(records, list(range(sizes.records)))
            with self.assertRaises(IndexError):
                session.ancestor(sizes.leaves)

    def test_an_array_with_too_little_room_is_refused(self) -> None:
        with vdpm.Session(OCTAHEDRON.read_bytes()) as session:
            room = (ctypes.c_uint32 * 64)(*([7] * 64))
            signed = (ctypes.c_int32 * 64)()
            status = session._library.vdpm_frame(session._viewer, room, 3, signed, 64, room, 64,
                                                 room, 64, room, 64)
            self.assertEqual((status, set(room)), (NO_ROOM, {7}))


def by_number(numbers: Iterable[int], threes: Iterable[int]) -> Dict[int, Three]:
    """Three numbers for each, by its own."""
    rest = iter(flat(threes))
    return dict(zip(flat(numbers), zip(rest, rest, rest)))


def rows(word: str, threes: Dict[int, Three]) -> List[str]:
    return ["%s %d %d %d %d" % (word, number, *three) for number, three in threes.items()]


class Changes(unittest.TestCase):
    def test_a_change_spells_its_text_and_makes_the_next_frame(self) -> None:
        tried = 0
        for asked in all_asked():
            length = stream_length(asked.given)
            lines = asked.given[length:].split(b"\n")
            if asked.fault is None and b"d" in lines:
                with self.subTest(asked.name):
                    tried += self.compared(asked.given[:length], int(asked.words[1]), lines)
        self.assertGreater(tried, 10)

    def test_changes_of_random_fronts(self) -> None:
        chance, tried = random.Random(2), 0
        streams = {asked.given[: stream_length(asked.given)] for asked in all_asked()
                   if asked.fault is None and len(asked.given) < 100_000}
        for stream in sorted(streams):
            with vdpm.Session(stream) as session:
                records = session.sizes().records
            lines: List[bytes] = []
            for _ in range(20 if records else 0):
                for _ in range(5):
                    lines.append(f"{chance.choice('ssc')} {chance.randrange(records)}".encode())
                lines.append(b"d")
            tried += self.compared(stream, 0, lines)
        self.assertGreaterEqual(tried, 100)

    def compared(self, stream: bytes, budget: int, lines: List[bytes]) -> int:
        """Does the lines in two sessions, and compares each change. Answers how many there were."""
        tried = 0
        with vdpm.Session(stream, budget) as one, vdpm.Session(stream, budget) as other:
            mesh = self.shown(other)
            for line in lines:
                if line in (b"", b"q"):
                    break
                if line == b"d":
                    text, change = one.line("d").decode(), other.change()
                    self.assertEqual(self.spelled(other, change), text)
                    self.follow(mesh, change)
                    self.assertEqual("".join(mesh.lines()), other.line("w").decode())
                    tried += 1
                else:
                    self.assertEqual(one.line(line), other.line(line))
                    mesh = self.shown(other) if line == b"k" else mesh
        return tried

    def shown(self, session: vdpm.Session) -> Mesh:
        it = session.frame()
        return Mesh(by_number(it.nodes, it.places), by_number(it.faces, it.corner_nodes))

    def spelled(self, session: vdpm.Session, change: vdpm.Change) -> str:
        """The text of a change, by its arrays."""
        sizes = session.sizes()
        words = [f"change {sizes.shown_nodes} {sizes.shown_faces}"]
        words += [f"-f {face}" for face in flat(change.gone_faces)]
        words += [f"-v {node}" for node in flat(change.gone_nodes)]
        words += rows("v", by_number(change.new_nodes, change.new_places))
        words += rows("f", by_number(change.put_faces, change.put_corners))
        return "\n".join([*words, "end", ""])

    def follow(self, mesh: Mesh, change: vdpm.Change) -> None:
        """Does a change to the mesh of the marked front."""
        for face in flat(change.gone_faces):
            del mesh.faces[face]
        for node in flat(change.gone_nodes):
            del mesh.nodes[node]
        mesh.nodes.update(by_number(change.new_nodes, change.new_places))
        mesh.faces.update(by_number(change.put_faces, change.put_corners))

    def test_a_change_that_does_not_fit_is_told_how_large_it_is(self) -> None:
        with vdpm.Session(OCTAHEDRON.read_bytes()) as session:
            session.split(0)
            room, signed = (ctypes.c_uint32 * 64)(*([7] * 64)), (ctypes.c_int32 * 64)()
            # (no face is gone; the others lack one number)
            for lacks, least in enumerate((1, 2, 6, 5, 15), 1):
                rooms = [64] * 6
                rooms[lacks] = least - 1
                pairs = [it for i, n in enumerate(rooms) for it in (signed if i == 3 else room, n)]
                sizes = (ctypes.c_uint32 * 4)()
                status = session._library.vdpm_change(session._viewer, *pairs, sizes)
                self.assertEqual((status, set(room), list(sizes)), (NO_ROOM, {7}, [0, 1, 2, 5]))
            self.assertEqual(flat(session.change().new_nodes), [4, 5])
            self.assertEqual(flat(session.change().new_nodes), [])

    def test_rooms_grow(self) -> None:
        with vdpm.Session(OCTAHEDRON.read_bytes()) as session:
            session._rooms = [(room[:0], at) for room, at in session._rooms]
            session.split(0)
            self.assertEqual(flat(session.change().put_faces), [0, 1, 2, 4, 5])


class Handles(unittest.TestCase):
    def test_a_closed_session_is_refused(self) -> None:
        session = vdpm.Session(OCTAHEDRON.read_bytes())
        session.close()
        session.close()
        with self.assertRaises(vdpm.NotOpen):
            session.line("w")

    def test_sessions_are_apart(self) -> None:
        data = OCTAHEDRON.read_bytes()
        with vdpm.Session(data) as one, vdpm.Session(data) as other:
            one.split(0)
            self.assertEqual(other.sizes().shown_nodes, 4)
            self.assertEqual(one.sizes().shown_nodes, 5)

    def test_a_fault_has_its_number_place_and_cure(self) -> None:
        with self.assertRaises(vdpm.Fault) as raised:
            vdpm.Session(OCTAHEDRON.read_bytes()[:30])
        self.assertEqual((raised.exception.number, raised.exception.place), (22, 30))
        self.assertIn("copy the file again", str(raised.exception))


@unittest.skipUnless(shutil.which("cc"), "there is no cc")
class FromC(unittest.TestCase):
    def test_a_script_from_c(self) -> None:
        words = [str(compiled("script", Path(folder.name))), str(OCTAHEDRON), "9"]
        done = subprocess.run(words, input=GLIDE.read_bytes(), capture_output=True, check=True)
        self.assertEqual(done.stdout, GLIDE_REPLIES.read_bytes())

    def test_each_allocation_failing_in_turn(self) -> None:
        words, replies = [str(OCTAHEDRON), "9"], GLIDE_REPLIES.read_bytes()
        runs = list(runs_that_fail("script", Path(folder.name), words, GLIDE.read_bytes()))
        for done in runs:
            self.assertIn(done.returncode, (0, 1, 3), done.stderr)
            self.assertTrue(replies.startswith(done.stdout))
            self.assertTrue(done.returncode or done.stdout == replies)
        self.assertEqual((runs[-1].returncode, runs[-1].stdout), (0, replies))
        self.assertGreater(len(runs), 20)

    @unittest.skipUnless(shutil.which("valgrind"), "there is no valgrind")
    def test_valgrind_finds_nothing(self) -> None:
        words = ["valgrind", "-q", "--leak-check=full", "--error-exitcode=9"]
        words += [str(compiled("script", Path(folder.name))), str(OCTAHEDRON), "9"]
        done = subprocess.run(words, input=GLIDE.read_bytes(), capture_output=True, check=False)
        self.assertEqual((done.returncode, done.stderr), (0, b""))
        self.assertEqual(done.stdout, GLIDE_REPLIES.read_bytes())


if __name__ == "__main__":
    unittest.main()
