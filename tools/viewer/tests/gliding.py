"""Nodes that come and go glide, and what is drawn never jumps."""
from frames import read_frames
from viewer.program import replies_to

from .common import model, program
from .pages import Page

# Notes what each change puts into the textures of nodes.
NOTE = """(() => {
  globalThis.taken = null;
  const { change } = viewer.scene.renderer;
  viewer.scene.renderer.change = function (name, patch) {
    const { places, starts } = patch.nodes;
    globalThis.taken ??= { places: [...places], starts: [...starts], drawn: patch.drawn };
    change.call(this, name, patch);
  };
})()"""
DRAWN = "viewer.scene.renderer.meshes.get('front').faceCount"
# Does the changes of a text to a mesh, some hundredths of a second apart, and looks at each whether
# what is drawn is the front as soon as all glides are over, and whether a face jumps: whether a
# corner that stays is seen elsewhere, or a face comes or goes that has an area. Where nodes have to
# land before their time a jump is told and not wrong.
FOLLOWED = """(async (text) => {
  const [{ KeptMesh }, { readHierarchy }, { Replies }, { GLIDE }] = await Promise.all(
    ["mesh", "hierarchy", "replies", "layout"].map((name) => import(`./${name}.js`)));
  const hierarchy = readHierarchy(await (await fetch("stream")).arrayBuffer());
  const { places } = hierarchy, mesh = new KeptMesh(hierarchy, null), { front } = mesh;
  const told = { changes: 0, jumps: 0, early: 0, late: 0, wrong: [] };
  let early = 0;
  mesh.landUnclear = (come) => {
    KeptMesh.prototype.landUnclear.call(mesh, come);
    early = mesh.landing.numbers.length;
  };
  const eased = (part) => {
    const t = Math.max(0, Math.min(1, part));
    return t * t * (3 - 2 * t);
  };
  const cornersOf = ({ corners }, face) => [...corners.subarray(3 * face, 3 * face + 3)];
  const seen = (node, now) => [0, 1, 2].map((axis) => {
    const start = mesh.starts[4 * node + axis], end = places[3 * mesh.goals[node] + axis];
    return start + (end - start) * eased((now - mesh.starts[4 * node + 3]) / GLIDE);
  });
  const facesAt = (now) => new Map([...mesh.faces].map((face) =>
    [face, cornersOf(mesh, face).map((node) => seen(node, now))]));
  const area = ([a, b, c]) => {
    const [p, q] = [b, c].map((end) => end.map((x, axis) => x - a[axis]));
    return Math.hypot(p[1] * q[2] - p[2] * q[1], p[2] * q[0] - p[0] * q[2],
      p[0] * q[1] - p[1] * q[0]);
  };
  const isElsewhere = (p, q) => Math.hypot(...p.map((x, axis) => x - q[axis])) > 0.02;
  const look = () => {
    for (const face of front.faces) if (!mesh.faces.has(face)) told.wrong.push(`${face} lacks`);
    for (const face of mesh.faces) {
      const goals = cornersOf(mesh, face).map((node) => mesh.goals[node]);
      const isRight = front.faces.has(face)
        ? String(goals) === String(cornersOf(front, face)) : new Set(goals).size < 3;
      if (!isRight) told.wrong.push(`${face} glides to ${goals}`);
    }
  };
  const replies = new Replies(new TextEncoder().encode(text));
  let now = 1;
  for (let reply = replies.next(); reply !== null; reply = replies.next()) {
    if (reply.frame) mesh.take(front.changeTo(reply.frame), null);
    if (!reply.change) continue;
    now += told.changes % 7 === 6 ? GLIDE / 2 : 0.03;
    const before = facesAt(now);
    mesh.take(reply.change, now);
    look();
    const after = facesAt(now);
    const jumps = [...after].filter(([face, corners]) => (before.has(face)
      ? corners.some((corner, i) => isElsewhere(corner, before.get(face)[i])) : area(corners) > 9));
    const goes = [...before].filter(([face, corners]) => !after.has(face) && area(corners) > 9);
    if (early === 0 && jumps.length + goes.length > 0) {
      told.wrong.push(`at ${told.changes}: ${[...jumps, ...goes].map(([face]) => face)} jump`);
    }
    if (early > 0) told.jumps++;
    Object.assign(told, {
      changes: told.changes + 1, early: told.early + early, late: told.late + mesh.late.size,
    });
  }
  mesh.settle(now + 2 * GLIDE);
  if (mesh.late.size + mesh.leaving.size > 0) told.wrong.push("glides don't end");
  return told;
})"""


class Gliding(Page):
    def test_nodes_that_go_glide_to_where_their_elders_stand(self) -> None:
        fine, finer = self.whole(), self.asked()
        self.value(NOTE)
        self.slide("tolerance", 22)
        self.page.until("taken !== null")
        told = self.value("taken")
        self.assertEqual(told["drawn"], len(fine.faces))
        self.settle()
        coarse = self.whole()
        self.assertLess(len(coarse.faces), len(fine.faces))
        self.assertEqual((self.faces(), self.value(DRAWN)), (len(coarse.faces),) * 2)
        # The steps of a geomorph the other way round: its first has each node at its elder's place.
        script = f"{self.asked()}\nk\n{finer}\ng 0 1\n".encode()
        stream = model("asteroid.obj").stream
        replies = replies_to(program(), stream, script, command="live").decode()
        elders = list(read_frames(replies.splitlines()))[-1]
        self.assertEqual(elders.nodes, fine.nodes)
        places, starts = told["places"], told["starts"]
        went = {
            tuple(starts[at:at + 3]): tuple(places[at:at + 3]) for at in range(0, len(places), 4)
        }
        stay = set(coarse.nodes)
        for node, point, elder in zip(fine.nodes, fine.points, elders.points):
            if node not in stay:
                self.assertEqual(went[point], elder)

    def test_a_flight_does_not_jump(self) -> None:
        lines = []
        for step in range(60):
            back = 1500 * (step - 40)
            x, y = (-9000 + 300 * step, -12000) if step < 40 else (2000, -12000 - back)
            tolerance = 8 if step % 20 < 14 else 5
            lines.append(f"vd {x} {y} {4000 - 50 * step} 1000 {tolerance}\nd\n")
        script = "".join(lines).encode()
        stream = model("asteroid.obj").stream
        text = replies_to(program(), stream, b"w\nk\n" + script, command="live")
        told = self.value(f"{FOLLOWED}({text.decode()!r})")
        self.assertEqual(told["wrong"], [])
        self.assertEqual(told["changes"], 60)
        self.assertGreater(told["late"], 1000)
        self.assertLess(told["jumps"], 20)

    def test_without_glides_all_comes_and_goes_at_once(self) -> None:
        self.page.key("g")
        for tolerance in (22, 8):
            self.value(NOTE)
            self.slide("tolerance", tolerance)
            self.page.until("taken !== null")
            drawn = self.value("taken.drawn")
            self.settle()
            self.assertEqual(drawn, self.faces())
        self.page.key("g")
