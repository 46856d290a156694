"""The mesh that is kept by what changes: what is drawn is what the program shows."""
import json
import os
import shutil
import signal
import subprocess
import unittest
from typing import Dict, List, Optional, Tuple

from frames import Frame
from viewer.page_files import PAGE
from viewer.program import Answer, replies_to

from .common import Case, model, program
from .pages import Page
from .telling import without_first

# The faces of the textures by number: the places of their corners, and the normals there.
DRAWN = """(() => {
  const { textures: { places, bends, corners }, faceCount } =
    viewer.scene.renderer.meshes.get("front");
  const faces = [];
  for (let i = 0; i < 4 * faceCount; i += 4) {
    const nodes = [...corners.data.subarray(i, i + 3)];
    const numbers = ({ data }) => nodes.flatMap((n) => [...data.subarray(4 * n, 4 * n + 3)]);
    faces.push([corners.data[i + 3], numbers(places), [...bends.data.subarray(i, i + 3)]]);
  }
  return faces;
})()"""
# Looks from one place after the other, without waiting for what is asked meanwhile.
FLY = """(async (steps, milliseconds) => {
  const home = viewer.camera.copy();
  for (let step = 0; step < steps; step++) {
    viewer.camera.turn(0.13, step % 3 === 0 ? 0.2 : -0.1);
    viewer.camera.distance = home.distance * [1, 0.4, 0.9, 0.25][step % 4];
    viewer.moved();
    await new Promise((done) => setTimeout(done, milliseconds));
  }
})"""
# The normals of a frame's faces, found anew.
ANEW = """(async (nodes, faces, corners) => {
  const [{ KeptMesh }, { readHierarchy }, { shapeOf }] = await Promise.all(
    ["mesh", "hierarchy", "shape"].map((name) => import(`./${name}.js`)));
  const hierarchy = readHierarchy(await (await fetch("stream")).arrayBuffer());
  Object.assign(hierarchy, shapeOf(hierarchy));
  const mesh = new KeptMesh(hierarchy, null);
  const { faces: patch } = mesh.show({ nodes, faces: Int32Array.from(faces), corners }, null);
  return [...patch.slots].map((_, i) =>
    [patch.corners[4 * i + 3], [...patch.bends.subarray(4 * i, 4 * i + 3)]]);
})"""
# Draws the first frame of replies as it stands and as a change from nothing, goes on with the
# changes that follow, and tells how large the fronts are that had the same patch both ways.
BOTH_WAYS = """import { readFileSync } from "node:fs";
import { deepStrictEqual } from "node:assert";
const [{ readHierarchy }, { KeptMesh }, { Replies }, { shapeOf }, { spotsOf }] = await Promise.all(
  ["hierarchy", "mesh", "replies", "shape", "spots"].map((name) => import(`%s/${name}.js`)));
const { buffer } = new Uint8Array(readFileSync(process.argv[1]));
const hierarchy = readHierarchy(buffer), sizes = [];
Object.assign(hierarchy, shapeOf(hierarchy), { pages: new Uint8Array(hierarchy.faces).fill(3) });
const count = hierarchy.parents.length, colours = new Uint8Array(4 * count).map((_, i) => i);
const spots = Int32Array.from({ length: 2 * count }, (_, i) => 9 * i);
const [ours, theirs] = [0, 1].map(() => new KeptMesh(hierarchy, colours, spotsOf(spots)));
const text = new Replies(readFileSync(0));
let now = 1;
for (let reply = text.next(); reply !== null; reply = text.next(), now += 0.15) {
  const { frame, change } = reply;
  if (!frame && !change) continue;
  if (frame) for (const mesh of [ours, theirs]) mesh.clear();
  const patch = frame ? ours.show(frame, now) : ours.take(change, now);
  deepStrictEqual(patch, theirs.take(frame ? theirs.front.changeTo(frame) : change, now));
  sizes.push(patch.faceCount);
}
deepStrictEqual(ours.show(ours.front.frame(), now).changes.facesCome, 0);
console.log(JSON.stringify(sizes));"""
ALIKE = 0.9999  # the cosine of two normals that count as one


def direction(word: int) -> Tuple[float, ...]:
    """The normal that a number of the textures tells (bends.js)."""
    x, y = ((part / 32767.5) - 1 for part in (word >> 16, word & 65535))
    z = 1 - abs(x) - abs(y)
    folded = max(-z, 0.0)
    x, y = (c - folded if c >= 0 else c + folded for c in (x, y))
    size = (x * x + y * y + z * z) ** 0.5
    return x / size, y / size, z / size


def remove(lines: List[bytes], place: int) -> List[bytes]:
    return lines[:place] + lines[place + 1:]


@unittest.skipUnless(shutil.which("node"), "no node")
class First(Case):
    def sizes(self, script: bytes) -> List[int]:
        """The numbers of faces of the frames and changes that a script asks for."""
        stream = model("asteroid.obj").stream
        replies = replies_to(program(), stream, script, command="live")
        words = ["node", "--input-type=module", "-e", BOTH_WAYS % PAGE.as_uri()]
        words.append(str(self.written("asteroid.vdpm", stream)))
        done = subprocess.run(words, input=replies, capture_output=True, check=False)
        self.assertEqual(done.returncode, 0, done.stderr.decode())
        return list(json.loads(done.stdout))

    def test_a_frame_as_it_stands_is_a_change_from_nothing(self) -> None:
        lines = [b"vd 0 %d 6000 1000 %d\n" % (-9000 - 900 * n, 2 + 5 * n % 23) for n in range(9)]
        flight = lines[0] + b"w\nk\n" + b"".join(line + b"d\n" for line in lines[1:])
        sizes = self.sizes(flight + b"v 0 -20000 6000 1000 40\nw\nk\n" + lines[3] + b"d\n")
        self.assertEqual(len(sizes), 11)
        self.assertGreater(len(set(sizes)), 8)


class Followed(Page):
    """A page whose kept mesh is looked at."""

    def check(self, wholes: int, most: int = 0) -> int:
        """What is drawn is the front, and whole frames came so often, or up to `most` times; how
        often is given."""
        self.settle()
        count = sum(a.text.count(b"frame ") for a in self.answers)
        self.assertGreaterEqual(count, wholes)
        self.assertLessEqual(count, max(wholes, most))
        frame = self.whole()
        del self.answers[-1]
        wanted = {
            number: [c for corner in face for c in frame.points[corner]]
            for number, face in zip(frame.numbers, frame.faces)
        }
        drawn = self.value(DRAWN)
        self.assertEqual({number: places for number, places, _ in drawn}, wanted)
        self.assertEqual(len(drawn), len(wanted))
        self.check_normals(frame, {number: bends for number, _, bends in drawn})
        return count

    def check_normals(self, frame: Frame, drawn: Dict[int, List[int]]) -> None:
        """The normals that changes kept are those that are found of the frame alone."""
        corners = [frame.nodes[place] for face in frame.faces for place in face]
        anew = self.value(f"{ANEW}({frame.nodes}, {frame.numbers}, Int32Array.from({corners}))")
        self.assertEqual(len(anew), len(drawn))
        for number, words in anew:
            for ours, theirs in zip(drawn[number], words):
                cosine = sum(a * b for a, b in zip(direction(ours), direction(theirs)))
                self.assertGreater(cosine, ALIKE, number)

    def fly(self, steps: int = 12, milliseconds: int = 30) -> None:
        self.value(f"{FLY}({steps}, {milliseconds})")

    def without(self, answer: Answer, word: str) -> Optional[Answer]:
        """The answer without the first line of its change that begins with a word, or without its
        numbers where it has arrays; None where there is none."""
        if answer.arrays is not None:
            less = without_first(answer.arrays, word)
            return less and answer._replace(arrays=less)
        lines = answer.text.splitlines(keepends=True)
        found = [place for place, line in enumerate(lines) if line.startswith(word.encode())]
        return answer._replace(text=b"".join(remove(lines, found[0]))) if found else None

    def spoil(self, word: str) -> None:
        """Lets the next change that has one lack a line."""
        ask = self.server.showing.ask

        def spoilt(script: str) -> Answer:
            answer = ask(script)
            less = self.without(answer, word) if script.endswith("d\n") else None
            if less is None:
                return answer
            setattr(self.server.showing, "ask", ask)
            return less

        setattr(self.server.showing, "ask", spoilt)


class Following(Followed):
    def test_after_flights_budgets_picks_and_freezing(self) -> None:
        self.check(1)
        self.fly()
        self.check(1)
        self.slide("budget", 6)
        self.fly(6)
        self.slide("tolerance", 16)
        self.page.click(390, 250)
        self.fly(6)
        self.slide("budget", 20)
        self.check(1)
        self.page.key("f")
        self.fly(3)
        self.choose("distance")
        self.check(1)
        self.page.key("f")
        self.slide("outline", 4)
        self.check(1)
        self.page.key("r")
        self.check(1)
        self.assertGreater(sum(b"change " in a.text for a in self.answers), 5)
        self.assertEqual(self.page.errors(), [])

    def test_from_the_finest_to_the_base_mesh_and_back(self) -> None:
        self.choose("distance")
        self.slide("tolerance", -4)
        self.check(1)
        finest = self.faces()
        self.value("viewer.camera.distance = 30 * viewer.radius, viewer.moved(), 0")
        self.slide("tolerance", 28)
        self.check(1)
        self.assertLess(self.faces(), 40)
        self.page.key("r")
        self.slide("tolerance", -4)
        self.check(1)
        self.assertEqual(self.faces(), finest)
        self.assertGreater(finest, 4000)

    # Two views may be on their way when the mesh is found to be out of step, and a whole frame then
    # comes for each.

    def test_a_front_that_another_page_marked_is_found_out(self) -> None:
        self.server.showing.ask("vd 0 0 90000 1000 9\nd\n")
        self.fly(4)
        wholes = self.check(2, 3)
        self.server.showing.ask("k\n")
        self.page.key("ArrowLeft")
        self.check(wholes + 1, wholes + 2)

    def test_what_another_page_looks_at_is_not_shown(self) -> None:
        ask = self.server.showing.ask

        def disturbed(script: str) -> Answer:
            ask("v 0 0 90000 1000 900\nd\n")
            return ask(script)

        setattr(self.server.showing, "ask", disturbed)
        self.fly(4)
        self.settle()
        line = f"{self.asked()}\nm\n".encode()
        told = replies_to(program(), model("asteroid.obj").stream, line, command="live")
        self.assertEqual(int(told.split()[5]), self.faces())
        self.assertEqual(len(self.value(DRAWN)), self.faces())

    def test_a_page_that_is_loaded_again_begins_with_a_whole_frame(self) -> None:
        self.fly(3)
        self.settle()
        self.page.go(f"{self.server.address}?sharpness=0.2&again")
        self.page.until(f"location.search.endsWith('again') && {self.settled}")
        self.check(2)

    def test_a_change_that_does_not_fit_is_made_good(self) -> None:
        wholes = 1
        for tolerance, word in ((14, "-f "), (8, "-v "), (14, "v "), (8, "f ")):
            self.spoil(word)
            self.slide("tolerance", tolerance)
            self.fly(2)
            wholes = self.check(wholes + 1, wholes + 2)

    def test_a_line_that_is_refused_leaves_nothing_out_of_step(self) -> None:
        refused = "viewer.work.ask({ task: 'view', line: 'q', glides: false })"
        self.value(f"{refused}.catch(({{ reason }}) => reason)")
        self.fly(3)
        self.check(2)

    def test_a_program_that_was_killed_and_started_again(self) -> None:
        self.fly(3)
        self.settle()
        os.kill(self.server.showing.program().number, signal.SIGKILL)
        self.page.key("ArrowLeft")
        self.page.until("!document.getElementById('fault').hidden")
        self.value("document.getElementById('again').click()")
        self.check(2)
        self.fly(3)
        self.check(2)
