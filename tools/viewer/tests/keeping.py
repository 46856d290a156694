"""What is under a click, and what is kept: flights, pictures, lines and meshes."""
import json
import struct
import subprocess
from typing import Dict, List

from frames import read_frames
from frames_to_obj import obj_lines
from lods.shown import Grid, Level
from lods.written import WRITERS
from viewer.program import replies_to

from .common import model, program
from .pages import Page


class Keeping(Page):
    def test_a_click_tells_the_face_of_the_p_line(self) -> None:
        self.tick("picks")
        self.page.click(390, 250)
        self.page.until("!document.getElementById('picked').hidden")
        lines = self.value("fetch('flight').then((a) => a.text())").splitlines()
        line = next(line for line in reversed(lines) if line.startswith("p "))
        looked_at = model("asteroid.obj")
        splits = "".join(f"s {record}\n" for record in range(looked_at.records))
        script = f"{line}\n{splits}w\n".encode()
        replies = replies_to(program(), looked_at.stream, script).decode()
        _, face, s, q = replies.split("\n", 1)[0].split()
        said = self.text("picked")
        self.assertRegex(said, rf"^Triangle \d+ of the file \({face} in the stream\), at ")
        [full] = read_frames(replies.splitlines())
        shown = full.faces[full.numbers.index(int(face))]
        self.assertEqual(
            turned([full.points[corner] for corner in shown]), input_face(int(said.split()[1]))
        )
        way = [int(n) for n in line.split()[1:]]
        place = [(way[i] + int(s) / int(q) * way[i + 3]) / 10 for i in range(3)]
        told = [float(n) for n in said.split(" at ")[1].split()]
        for ours, theirs in zip(told, place):
            self.assertAlmostEqual(ours, theirs, delta=0.051)

    def test_a_saved_flight_gives_the_same_replies(self) -> None:
        self.page.drag((400, 300), (500, 320))
        self.settle()
        self.page.key("+")
        self.settle()
        self.slide("budget", 9)
        self.settle()
        self.value("document.getElementById('save-flight').click()")
        script = self.page.downloaded("flight-live.script")
        replies = replies_to(program(), model("asteroid.obj").stream, script, command="live")
        self.assertEqual(replies, b"".join(answer.text for answer in self.answers))
        for line in (b"\nd\n", b"\nl\n", b"\nb 512\n", b"vd "):
            self.assertIn(line, b"\n" + script)

    def test_a_flight_of_view_s_lines_says_so_and_plays_with_both(self) -> None:
        script = f"{self.asked().replace('vd ', 'v ')}\nw\nk\nm\n".encode()
        setattr(self.server.showing, "flight", lambda: script)
        self.value("document.getElementById('save-flight').click()")
        self.assertEqual(self.page.downloaded("flight-view.script"), script)
        self.page.until("told.textContent === 'The script that vdpm view 4294967295 plays'")
        stream = model("asteroid.obj").stream
        by_view, by_live = (
            replies_to(program(), stream, script, command=command) for command in ("view", "live")
        )
        self.assertEqual(by_view, by_live)

    def test_the_picture_is_a_png(self) -> None:
        self.tick("save-picture")
        self.assertEqual(self.page.downloaded("asteroid.png")[:8], b"\x89PNG\r\n\x1a\n")

    def test_a_larger_picture_is_refined_for_its_size(self) -> None:
        asked, faces = self.asked(), self.faces()
        wide, high = self.value("[2 * viewer.picture().width, 2 * viewer.picture().height]")
        self.value("document.getElementById('picture-size').value = '2', 0")
        self.tick("save-picture")
        data = self.page.downloaded(f"asteroid-{wide}x{high}.png")
        self.assertEqual(struct.unpack(">II", data[16:24]), (wide, high))
        self.settle()
        views = [answer.text for answer in self.answers if b"change " in answer.text][-2:]
        counts = [int(view.split(b"change ")[1].split()[1]) for view in views]
        self.assertGreater(counts[0], faces)
        self.assertEqual((self.asked(), counts[1], self.faces()), (asked, faces, faces))

    def test_the_mesh_is_the_obj_of_the_frame(self) -> None:
        self.tick("save-obj")
        text = self.page.downloaded(f"asteroid-{self.faces()}.obj").decode()
        lines = list(obj_lines(self.whole(), digits=1))
        self.assertEqual(text.splitlines(), lines)
        canon = [str(program()), "canon", "--digits", "1"]
        done = subprocess.run(canon, input=text.encode(), capture_output=True, check=False)
        self.assertEqual(done.stdout.decode(), text)

    def test_meshes_are_those_of_lod(self) -> None:
        self.look_at(model("ring_scan.obj"))
        scale = model("ring_scan.obj").scale
        assert scale is not None
        frame = self.whole()
        grid = Grid(scale.unit, scale.middle)
        level = Level(frame.points, grid, frame.faces, 0, 0)
        for name in ("obj", "ply"):
            self.tick(f"save-{name}")
            data = self.page.downloaded(f"ring_scan-{self.faces()}.{name}")
            self.assertEqual(data, WRITERS[name](level), name)
        self.tick("save-glb")
        data = self.page.downloaded(f"ring_scan-{self.faces()}.glb")
        size, told = struct.unpack_from("<II", data, 8)
        head = json.loads(data[20:20 + told])
        self.assertEqual((data[:4], size), (b"glTF", len(data)))
        place, count = head["accessors"][0], len(frame.points)
        self.assertEqual((place["count"], head["accessors"][2]["count"]), (count, 3 * self.faces()))
        self.assertEqual(head["buffers"][0]["byteLength"], len(data) - 28 - told)
        for high, middle in zip(place["max"], scale.middle):
            self.assertLess(abs(high - middle), 0.61)  # the ring is 1.2 metres wide

    def test_a_link_brings_the_view_back(self) -> None:
        self.note_copies()
        self.page.drag((400, 300), (500, 340))
        self.page.key("e")
        self.settle()
        asked = self.asked()
        self.tick("copy-link")
        self.page.until("copied.length === 1")
        link = str(self.value("copied[0]"))
        self.page.key("e")
        self.moves(lambda: self.page.key("r"))
        self.value(f"location.hash = {link.partition('#')[2]!r}, 0")
        self.page.until(f"viewer.views.asked === {asked!r}")
        self.assertTrue(self.value("viewer.set.edges"))
        self.page.go("about:blank")
        self.page.go(link)
        self.page.until(f"{self.settled} && viewer.views.asked === {asked!r}")

    def note_copies(self) -> None:
        self.value(
            "globalThis.copied = [];"
            " navigator.clipboard.writeText = async (text) => { copied.push(text); }; 0"
        )

    def test_the_line_of_the_view_is_copied(self) -> None:
        self.note_copies()
        self.value("document.getElementById('copy-view').click()")
        self.page.until("copied.length === 1")
        self.assertEqual(self.value("copied[0]"), f"{self.asked()}\n")
        view = f"{self.asked()}\nm\n".encode()
        told = replies_to(program(), model("asteroid.obj").stream, view, command="live").decode()
        self.assertEqual(int(told.split()[4 + 1]), self.faces())


def turned(corners: "List[tuple[int, ...]]") -> "List[tuple[int, ...]]":
    """Corners from the least one on."""
    least = corners.index(min(corners))
    return corners[least:] + corners[:least]


def input_face(number: int) -> "List[tuple[int, ...]]":
    """The places of the corners of a face of the input, counted from 1."""
    words, stream = [str(program()), "expand"], model("asteroid.obj").stream
    done = subprocess.run(words, input=stream, capture_output=True, check=True)
    points: List["tuple[int, ...]"] = []
    faces: Dict[int, List[int]] = {}
    for line in done.stdout.decode().splitlines():
        word, *fields = line.split()
        if word == "v":
            points.append(tuple(round(10 * float(field)) for field in fields))
        else:
            faces[len(faces) + 1] = [int(field) for field in fields]
    return turned([points[vertex - 1] for vertex in faces[number]])
