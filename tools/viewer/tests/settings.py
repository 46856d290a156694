"""What the settings of the page do, and what is told where something fails."""
import os
import signal
import subprocess
import sys
from subprocess import DEVNULL, PIPE

from frames import read_frames
from viewer.program import replies_to

from .common import STREAM, TOP, model, program
from .pages import HEIGHT, WIDTH, Page


class Detail(Page):
    def test_a_finer_tolerance_glides_to_more_faces(self) -> None:
        self.slide("tolerance", 22)
        self.settle()
        coarse, line = self.whole(), self.asked()
        self.value(
            "globalThis.taken = null; const { change } = viewer.scene.renderer;"
            " viewer.scene.renderer.change = function (name, patch) {"
            "   const { places, starts } = patch.nodes;"
            "   globalThis.taken ??= [[...places], [...starts]];"
            "   change.call(this, name, patch); }; 0"
        )
        self.slide("tolerance", 12)
        self.page.until("taken !== null")
        places, starts = self.value("taken")
        self.settle()
        fine = self.whole()
        self.assertGreater(len(fine.faces), len(coarse.faces))
        script = f"{line}\nk\n{self.asked()}\ng 0 1\n".encode()
        stream = model("asteroid.obj").stream
        replies = replies_to(program(), stream, script, command="live").decode()
        elders = list(read_frames(replies.splitlines()))[-1]
        self.assertEqual(elders.nodes, fine.nodes)
        began = {
            tuple(places[at:at + 3]): tuple(starts[at:at + 3]) for at in range(0, len(places), 4)
        }
        old = set(coarse.nodes)
        for node, point, elder in zip(fine.nodes, fine.points, elders.points):
            if node not in old:  # the others stay where they are
                self.assertEqual(began[point], elder)

    def test_outlines_may_be_finer(self) -> None:
        self.slide("tolerance", 22)
        self.settle()
        before = self.faces()
        self.slide("outline", 6)
        self.settle()
        self.assertTrue(self.asked().startswith("vds "))
        self.assertGreater(self.faces(), before)

    def test_the_tolerance_is_of_deviations_or_of_distances(self) -> None:
        few = self.faces()
        self.assertTrue(self.asked().startswith("vd "))
        self.assertIn("Flat ground stays coarse", self.text("judged-said"))
        self.choose("distance")
        self.settle()
        self.assertTrue(self.asked().startswith("v "))
        self.assertIn("Flat ground is refined too", self.text("judged-said"))
        self.assertGreater(self.faces(), 1.3 * few)
        told = replies_to(program(), model("asteroid.obj").stream, f"{self.asked()}\nm\n".encode())
        self.assertEqual(int(told.split()[5]), self.faces())
        self.page.key("d")
        self.settle()
        self.assertEqual((self.asked().split()[0], self.faces()), ("vd", few))

    def test_the_level_of_detail_is_told_of_the_front_at_rest(self) -> None:
        for tolerance in (22, 10):
            self.slide("tolerance", tolerance)
            self.settle()
            words = self.server.showing.ask("l\n").text.decode().split()
            nodes, faces, split, error, deviation = (int(word) for word in words[1:])
            said = f"vertices{nodes:,}triangles{faces:,}vertex splits{split:,}"
            said += f"max vertex error{error / 10:.1f}max surface error{deviation / 10:.1f}"
            self.assertEqual(self.text("level"), said)
            self.assertEqual(faces, self.faces())

    def test_a_frozen_refinement_stays(self) -> None:
        self.page.key("f")
        self.settle()
        asked, faces, count = self.asked(), self.faces(), len(self.answers)
        self.page.drag((400, 300), (600, 250))
        self.page.key("-")
        self.settle()
        self.assertEqual((self.asked(), self.faces(), len(self.answers)), (asked, faces, count))
        self.assertIsNotNone(self.value("viewer.frozen && viewer.frozen.camera.yaw"))
        self.page.key("f")
        self.settle()
        self.assertNotEqual(self.asked(), asked)

    def test_a_budget_is_taken_with_the_front_kept_and_spent_view_by_view(self) -> None:
        number, faces = self.server.showing.program().number, self.faces()
        self.slide("budget", 7)
        self.page.until("viewer.session.budget === 128 && viewer.isSettled")
        self.assertEqual(self.faces(), faces)
        del self.answers[:]
        self.slide("tolerance", 6)
        self.settle()
        words = [a.text.split(b" ", 2)[:2] for a in self.answers if b"change " in a.text]
        self.assertEqual(words[-1][0], b"settled")
        self.assertEqual({tuple(view) for view in words[:-1]}, {(b"spent", b"128")})
        self.assertGreater(len(words), 3)
        line = f"{self.asked()}\nm\n".encode()
        told = replies_to(program(), model("asteroid.obj").stream, line, command="live")
        self.assertEqual(int(told.split()[5]), self.faces())
        self.assertEqual(self.server.showing.program().number, number)

    def test_no_moves_lead_nowhere_until_there_are_some(self) -> None:
        self.look_at(model("asteroid.obj"), 0)
        self.assertEqual(self.faces(), 4)
        count = len(self.answers)
        self.page.run("new Promise((done) => setTimeout(done, 200))")
        self.assertEqual(len(self.answers), count)
        self.slide("budget", 20)
        self.page.until("viewer.session.budget === 4294967295 && viewer.isSettled")
        self.assertGreater(self.faces(), 500)


class Folding(Page):
    hidden = "[drawer.hidden, getComputedStyle(tools).display === 'none']"

    def test_the_drawer_is_shut_until_its_button_or_key_is_pressed(self) -> None:
        self.assertEqual(self.value(self.hidden), [True, True])
        for act in (lambda: self.page.key("h"), lambda: self.press("#unhide")):
            for shown in (True, False):
                act()
                self.assertEqual(self.value(self.hidden), [not shown, not shown])
                self.assertEqual(self.value("unhide.ariaExpanded"), str(shown).lower())

    def test_in_a_wide_window_the_tools_are_there(self) -> None:
        self.addCleanup(self.page.resize, WIDTH, HEIGHT)
        for width in (1001, 1280):
            self.page.resize(width, HEIGHT)
            self.page.until(f"innerWidth === {width}")
            self.assertEqual(self.value(self.hidden), [True, False])
            self.assertLessEqual(self.value("bar.scrollWidth"), width)

    def test_in_a_narrow_window_the_drawer_lies_below(self) -> None:
        self.addCleanup(self.page.resize, WIDTH, HEIGHT)
        for width, height in ((390, 844), (720, 900)):
            self.page.resize(width, height)
            self.look_at(model("asteroid.obj"))
            self.assertEqual(self.value(self.hidden), [True, True])
            self.assertLessEqual(self.value("bar.scrollWidth"), width)
            self.press("#unhide")
            self.assertEqual(self.value(self.hidden), [False, False])
            top, bottom = self.value(
                "(({ top, bottom }) => [top, bottom])(drawer.getBoundingClientRect())"
            )
            self.assertGreater(top, height / 2)
            self.assertLessEqual(bottom, height)
            self.press("input[value=distance]+span")
            self.settle()
            self.assertTrue(self.asked().startswith("v "))
            self.press("#unhide")
            self.assertEqual(self.value(self.hidden), [True, True])

    def test_a_model_that_is_seen_whole_stays_so(self) -> None:
        self.addCleanup(self.page.resize, WIDTH, HEIGHT)
        before = self.value("viewer.camera.distance")
        self.page.resize(WIDTH // 2, HEIGHT)
        self.page.until(f"viewer.camera.distance > 1.2 * {before} && {self.settled}")
        self.page.resize(WIDTH, HEIGHT)
        back = f"Math.abs(viewer.camera.distance - {before}) < 1e-6"
        self.page.until(f"{back} && {self.settled}")
        self.moves(lambda: self.page.key("ArrowLeft"))
        self.page.key("r")  # on whose way there it has another size
        self.page.resize(WIDTH // 2, HEIGHT)
        self.page.until(f"viewer.camera.distance > 1.2 * {before} && {self.settled}")
        self.assertTrue(self.value("viewer.steering.isAtHome"))


class Motion(Page):
    def test_who_wants_little_motion_gets_none(self) -> None:
        self.assertTrue(self.value("viewer.set.glide"))
        feature = {"name": "prefers-reduced-motion", "value": "reduce"}
        self.page.call("Emulation.setEmulatedMedia", features=[feature])
        self.addCleanup(self.page.scheme, "dark")
        self.look_at(model("asteroid.obj"))
        self.assertFalse(self.value("viewer.set.glide"))
        yaw = self.value("viewer.camera.yaw")
        self.moves(lambda: self.page.key("ArrowLeft"))
        flies = "viewer.steering.goHome().then(() => viewer.steering.isFlying)"
        self.assertFalse(self.value(flies))
        self.settle()
        self.assertEqual(self.value("viewer.camera.yaw"), yaw)


class Failing(Page):
    def test_a_killed_program_shows_its_message_and_starts_again(self) -> None:
        faces = self.faces()
        os.kill(self.server.showing.program().number, signal.SIGKILL)
        self.page.key("ArrowLeft")
        self.page.until("!document.getElementById('fault').hidden")
        self.assertIn("ended by signal 9", self.text("fault-reason"))
        self.page.key("r")
        self.value("document.getElementById('again').click()")
        self.settle()
        self.assertEqual(self.faces(), faces)

    def test_a_fault_line_is_shown_with_its_cure(self) -> None:
        task = "{ task: 'ask', script: 'v 0 0 0 70000 1\\n' }"
        self.value(f"viewer.work.ask({task}).catch((fault) => viewer.fail(fault)); 0")
        self.page.until("!document.getElementById('fault').hidden")
        self.assertIn("vdpm: fault 30 line", self.text("fault-reason"))
        self.assertIn("one space between fields", self.text("fault-cure"))

    def test_a_server_that_is_gone_is_told(self) -> None:
        words = [sys.executable, str(TOP / "viewer"), str(STREAM), "--program", str(program())]
        with subprocess.Popen(words, stdout=PIPE, stderr=DEVNULL, text=True) as window:
            assert window.stdout is not None
            self.page.go(window.stdout.readline().split()[1])
            self.page.until(self.settled)
            window.kill()
        self.page.until("!document.getElementById('fault').hidden")
        self.assertIn("./viewer has ended", self.text("fault-reason"))
        self.tick("again")
        yaw = self.value("viewer.camera.yaw")
        self.page.key("ArrowLeft")
        self.page.until(f"viewer.camera.yaw !== {yaw} && !viewer.dirty")
        self.assertTrue(self.value("document.getElementById('fault').hidden"))
