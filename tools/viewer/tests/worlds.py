"""The window of a world: what is open and shown, and that nothing is missing or shown twice."""
import http.client
import json
import random
import threading
import unittest
from typing import Any, Dict, List
from unittest import mock

from browser import PATIENCE, Line, found
from frames import read_frames
from viewer.program import BadScript, ProgramEnded
from viewer.world import WORLD_PAGE, WorldHandler, WorldServer, showing_of
from worlds.form import World
from worlds.tests.common import (
    VDPM, WithWorld, build, grid_text, needs_simplify, random_field,
)
from worlds.tests.packing import as_packed, built, needs_pack

from .pages import browser

ALL = 10**9
SETTLED = "globalThis.viewer && viewer.isSettled"
# What is drawn covers the world once: no tile is drawn with a child or a parent of it.
DRAWN = """(() => {
  const { drawn, forest } = viewer.tiles;
  const leaves = (name) => {
    const { children } = forest.byName.get(name);
    return children.length === 0 ? [name] : children.flatMap(leaves);
  };
  return drawn.flatMap(leaves).sort();
})()"""

# The faces of a mesh's textures by number, with the places of their corners.
FACES = """({ faceCount, textures: { places, corners } }) => {
  const faces = [], at = (n) => [...places.data.subarray(4 * n, 4 * n + 3)];
  for (let i = 0; i < 4 * faceCount; i += 4) {
    faces.push([corners.data[i + 3], [0, 1, 2].flatMap((j) => at(corners.data[i + j]))]);
  }
  return faces;
}"""


@needs_simplify
class WithWindow(WithWorld):
    def setUp(self) -> None:
        super().setUp()
        field = random_field(random.Random(11), 17, 17)
        self.world: World = self.cut(self.file("field.asc", grid_text(field, 40)), 64)
        build(self.world, 100)

    def served(self, memory: int = ALL) -> WorldServer:
        server = WorldServer(showing_of(VDPM.resolve(), self.world.folder / "world.json", memory))
        threading.Thread(target=server.serve_forever, args=(0.02,), daemon=True).start()
        self.addCleanup(server.showing.close)
        self.addCleanup(server.server_close)
        self.addCleanup(server.shutdown)
        return server


class Serving(WithWindow):
    def asked(self, server: WorldServer, path: str) -> "http.client.HTTPResponse":
        line = http.client.HTTPConnection("127.0.0.1", server.server_port, timeout=PATIENCE)
        self.addCleanup(line.close)
        line.request("GET", f"/{server.token}/{path}")
        return line.getresponse()

    def test_the_page_and_each_tile_are_served_and_no_more(self) -> None:
        server = self.served()
        for name, file in WorldHandler.files.items():
            self.assertEqual(self.asked(server, name).read(), file.read_bytes())
        self.assertEqual(
            {path.name for path in WORLD_PAGE.iterdir()},
            {file.name for file in WorldHandler.files.values() if file.parent == WORLD_PAGE},
        )
        about: Dict[str, Any] = json.loads(self.asked(server, "about").read())
        self.assertEqual({told["name"] for told in about["tiles"]}, set(self.world.tiles))
        tile = self.world.tiles["t000"]
        stream = self.asked(server, f"stream/{tile.name}").read()
        self.assertEqual(stream, self.world.stream(tile).read_bytes())
        self.assertTrue(self.asked(server, "base/t000").read().startswith(b"frame "))
        for path in ("stream/nobody", "stream/", "start/t000", "index.html", "main.py"):
            self.assertEqual(self.asked(server, path).status, 404, path)

    @needs_pack
    def test_a_packed_world_is_served_as_a_plain_one(self) -> None:
        paths = [f"{what}/{name}" for what in ("stream", "base") for name in self.world.tiles]
        plain = self.served()
        wanted = [self.asked(plain, path).read() for path in paths]
        about, front = plain.showing.about(), plain.showing.ask("t000", "m\nw\n").text
        self.world = as_packed(self.world)
        self.assertEqual(built(self.world, self.said), 0)
        server = self.served()
        self.assertEqual([self.asked(server, path).read() for path in paths], wanted)
        self.assertEqual(server.showing.about(), about)
        self.assertEqual(server.showing.ask("t000", "m\nw\n").text, front)
        path = self.world.stream(self.world.tiles["t000"])
        path.write_bytes(path.read_bytes()[:-9])
        told = self.asked(server, "stream/t000")
        self.assertEqual(told.status, 502)
        self.assertIn(b"t000: pack: fault 35", told.read())

    def test_programs_are_ended_where_memory_is_short(self) -> None:
        names = [tile.name for tile in self.world.level(0)]
        one = self.served().showing.about()["tiles"]
        assert isinstance(one, list)
        memory = {told["name"]: told["memory"] for told in one}
        showing = self.served(memory[names[0]] + memory[names[1]]).showing
        opened: List[List[str]] = []
        for name in (names[0], names[1], names[0], names[2]):
            self.assertIn(b"end\n", showing.ask(name, "w\n").text)
            opened.append(showing.open)
        self.assertEqual(opened[-1], [names[0], names[2]])
        self.assertLessEqual(showing.held, showing.memory)

    def test_streams_that_are_not_built_are_named(self) -> None:
        self.world.stream(self.world.tiles["t"]).unlink()
        with mock.patch("viewer.world.tell", self.said.append):
            self.assertNotIn("t", self.served().showing.tiles)
        wanted = "1 of .* aren't built, t: .*world.py build .*world`; until"
        self.assertRegex(" ".join(self.said), wanted)
        self.world.stream(self.world.tiles["t010"]).unlink()
        with self.assertRaisesRegex(ProgramEnded, "2 of .* aren't built, t010, t: .* first"):
            self.served()

    def test_a_script_names_its_tile(self) -> None:
        server = self.served()
        host = f"127.0.0.1:{server.server_port}"
        line = Line(f"ws://{host}/{server.token}/talk", f"http://{host}")
        self.addCleanup(line.close)
        for script, said in (("w\n", "names a tile"), ("tile nobody\nw\n", "no tile nobody")):
            line.send(script)
            self.assertIn(said, json.loads(line.receive())["reason"])
        line.send("tile t000\nm\n")
        self.assertIn(b"shape ", line.receive())
        with self.assertRaises(BadScript):
            server.showing.ask("t000", "q\n")


@unittest.skipUnless(found(), "no Chromium")
class Looking(WithWindow):
    def opened(self, memory: int = ALL) -> WorldServer:
        server = self.served(memory)
        self.page = browser()
        self.page.begin(server.address)
        self.page.until(SETTLED)
        return server

    def look(self, distance: int, tolerance: int) -> None:
        """From so far away, with a tolerance by the slider's number."""
        self.page.run(
            f"viewer.camera.distance = {distance}; tolerance.value = {tolerance};"
            "tolerance.dispatchEvent(new Event('input', { bubbles: true }));"
            "viewer.tick(performance.now()); 0"
        )
        self.page.until(SETTLED)

    def names(self, which: str) -> List[str]:
        found: List[str] = self.page.run(f"viewer.tiles.{which}")
        return sorted(found)

    def test_near_tiles_are_open_and_far_ones_are_parents(self) -> None:
        server = self.opened()
        leaves = [tile.name for tile in self.world.level(0)]
        for distance, tolerance in ((900, 0), (10**6, 28), (300, 8), (5000, 20)):
            self.look(distance, tolerance)
            self.assertEqual(self.page.run(DRAWN), sorted(leaves))
            self.assertEqual(self.names("drawn"), self.names("wanted.open"))
            self.assertLessEqual(set(self.names("drawn")), set(server.showing.open))
        self.look(10**6, 28)
        self.assertEqual(self.names("drawn"), ["t"])
        self.look(300, -4)
        self.assertEqual(self.names("drawn"), sorted(leaves))
        self.assertEqual(self.page.errors(), [])

    def test_what_is_drawn_of_a_tile_is_what_its_program_shows(self) -> None:
        server = self.opened()
        for distance, tolerance in ((900, 0), (300, 8), (500, -4), (900, 4)):
            self.look(distance, tolerance)
        for name in self.names("drawn"):
            text = server.showing.ask(name, "w\n").text.decode()
            [frame] = read_frames(text.splitlines())
            wanted = {
                number: [c for corner in face for c in frame.points[corner]]
                for number, face in zip(frame.numbers, frame.faces)
            }
            mesh = f"viewer.renderer.meshes.get('{name}')"
            self.assertEqual(dict(self.page.run(f"({FACES})({mesh})")), wanted)
        # A tile whose program was ended and opened again begins with a whole frame.
        server.showing.close()
        self.look(700, 2)
        self.assertEqual(self.page.errors(), [])
        counts = self.page.run("viewer.tiles.counts")
        asked = [server.showing.ask(name, "m\n").text.split() for name in self.names("drawn")]
        self.assertEqual(sum(int(words[3]) for words in asked), counts["faces"])

    def test_with_little_memory_parents_stay_and_the_rest_is_closed(self) -> None:
        memory = 330 * 100
        server = self.opened(memory)
        self.look(300, -4)
        self.assertLessEqual(server.showing.held, memory)
        self.assertEqual(self.names("drawn"), ["t"])
        server.showing.memory = 0
        self.page.go(server.address)
        self.page.until(SETTLED)
        self.assertEqual((self.names("wanted.open"), self.names("drawn")), ([], ["t"]))
        self.assertEqual(self.page.errors(), [])

    def slide(self, name: str, to: int) -> None:
        self.page.run(
            f"{name}.value = {to}; {name}.dispatchEvent(new Event('input', {{ bubbles: true }}));"
            "viewer.tick(performance.now()); 0"
        )
        self.page.until(SETTLED)

    def test_the_bar_is_that_of_a_model_without_what_a_world_can_not_tell(self) -> None:
        self.opened()
        seen = "(name) => document.getElementById(name).closest('label').hidden"
        names = ["beside", "picks", "draft", "edges", "outline", "budget"]
        hidden = self.page.run(f"{names!r}.map({seen})")
        self.assertEqual(hidden, [False, True, True, False, False, False])
        self.assertIn("can't inspect a click", self.page.run("notice.textContent"))

    def finest(self, most: int) -> List[str]:
        """The tiles right of the line, where all may have so many faces."""
        self.page.run(f"viewer.finest.close(), viewer.finest.most = {most}")
        self.page.until("!viewer.finest.isThere || viewer.finest.drawn.length > 0")
        self.page.until(SETTLED)
        found: List[str] = self.page.run("viewer.finest.drawn")
        return sorted(name[len("finest "):] for name in found)

    def test_the_finest_level_is_shown_beside_as_far_as_it_may(self) -> None:
        self.opened()
        self.look(900, 28)
        left = self.page.run("viewer.tiles.counts.faces")
        self.page.key("b")
        self.page.until(SETTLED)
        leaves = sorted(tile.name for tile in self.world.level(0))
        faces = sum(tile.faces for tile in self.world.level(0))
        self.assertEqual(self.finest(faces), leaves)
        self.assertEqual(self.page.run("viewer.finest.faces"), faces)
        self.page.until(f"document.getElementById('right-half').textContent.includes('{faces}')")
        self.assertEqual(self.page.run("viewer.tiles.counts.faces"), left)
        fewer = self.finest(faces - 1)
        self.assertNotEqual(fewer, leaves)
        self.assertLess(self.page.run("viewer.finest.faces"), faces)
        self.assertEqual(self.finest(0), ["t"])  # what is closed is as coarse as it can be
        self.page.key("b")
        self.page.until("![...viewer.renderer.meshes.keys()].some((name) => /finest/.test(name))")
        self.assertEqual(self.page.errors(), [])

    def test_outlines_and_budgets_lead_to_the_fronts_of_the_programs(self) -> None:
        server = self.opened()
        self.slide("outline", 4)
        asked = self.page.run("[...viewer.tiles.states.values()].map(({ asked }) => asked)")
        self.assertEqual({line.split()[0] for line in asked}, {"vds"})
        self.slide("budget", 5)
        self.look(300, -4)  # many views of 32 moves each lead there
        counts = self.page.run("viewer.tiles.counts")
        told = [server.showing.ask(name, "m\n").text.split() for name in self.names("drawn")]
        self.assertEqual(sum(int(words[3]) for words in told), counts["faces"])
        self.assertEqual(self.page.errors(), [])

    def test_the_mesh_saved_is_one_of_all_tiles_that_are_drawn(self) -> None:
        self.opened()
        self.look(300, 8)
        self.assertGreater(len(self.names("drawn")), 1)
        faces = self.page.run("viewer.tiles.counts.faces")
        self.page.run("document.getElementById('save-obj').click()")
        name = f"{self.world.folder.resolve().name}-{faces}.obj"
        lines = [line.split() for line in self.page.downloaded(name).decode().splitlines()]
        places = [tuple(words[1:]) for words in lines if words[0] == "v"]
        self.assertEqual(len(places), len(set(places)))
        corners = [words[1:] for words in lines if words[0] == "f"]
        self.assertEqual(len(corners), faces)
        sides = [(c[i], c[(i + 1) % 3]) for c in corners for i in range(3)]
        self.assertEqual(len(sides), len(set(sides)))
        # Where tiles meet each side has its other one, so what is open is the world's outline.
        twins = set(sides)
        ends = [places[int(a) - 1] for a, b in sides if (b, a) not in twins]
        x, y = ([float(place[axis]) for place in places] for axis in (0, 1))
        outline = {min(x), max(x)}, {min(y), max(y)}
        for place in ends:
            self.assertTrue(float(place[0]) in outline[0] or float(place[1]) in outline[1])

    def test_faces_and_counts_are_those_of_the_frames(self) -> None:
        self.opened()
        self.look(900, 4)
        counts = self.page.run("viewer.tiles.counts")
        drawn = "[...viewer.renderer.meshes.values()].reduce((sum, m) => sum + m.faceCount, 0)"
        self.assertEqual(counts["faces"], self.page.run(drawn))
        said = "document.getElementById('faces-said').textContent"
        self.page.until(f"{said} === '{counts['faces']:,}'")
        seen = {self.page.run("viewer.draw(), viewer.canvas.toDataURL()")}
        for key in ("2", "3", "e", "4"):
            self.page.key(key)
            seen.add(self.page.run("viewer.draw(), viewer.canvas.toDataURL()"))
        self.assertEqual(len(seen), 5)
