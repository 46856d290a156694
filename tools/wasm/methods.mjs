// Tries the class over the module: VDPM_WASM=MODULE node --test tools/wasm/methods.mjs
import assert from "node:assert/strict";
import { readFileSync } from "node:fs";
import { test } from "node:test";

import { Fault, NotOpen, OutOfMemory, Vdpm } from "./vdpm.mjs";

const EXAMPLES = new URL("../../examples/", import.meta.url);
const text = readFileSync(new URL("octahedron.obj", EXAMPLES));
const stream = readFileSync(new URL("octahedron.vdpm", EXAMPLES));
const vdpm = await Vdpm.load(readFileSync(process.env.VDPM_WASM));

/** @typedef {import("./vdpm.mjs").Session} Session */

/**
 * Does something with a session, which is closed then.
 * @template T
 * @param {(session: Session) => T} doing
 * @param {{ budget?: number }} asked
 * @returns {T}
 */
function within(doing, asked = {}) {
  const session = vdpm.open(stream, asked);
  try {
    return doing(session);
  } finally {
    session.close();
  }
}

/** @type {(word: string, numbers: Uint32Array, threes: Uint32Array | Int32Array) => string[]} */
const rows = (word, numbers, threes) => [...numbers].map((number, i) =>
  `${word} ${number} ${threes.slice(3 * i, 3 * i + 3).join(" ")}`);

/** @type {(frame: import("./session.mjs").Frame) => string} */
const spelled = ({ nodes, places, faces, cornerNodes }) => [
  `frame ${nodes.length} ${faces.length}`, ...rows("v", nodes, places),
  ...rows("f", faces, cornerNodes), "end"].join("\n");

test("arrays spell the frame's text", () => within((session) => {
  for (const line of ["b 9", "s 0", "s 1", "c 1"]) {
    session.line(line);
    const frame = session.frame();
    assert.equal(spelled(frame), session.said("w"));
    assert.deepEqual([...frame.corners].map((at) => frame.nodes[at]), [...frame.cornerNodes]);
  }
}));

test("arrays spell the text of a change, and rooms grow", () => {
  const change = within((session) => {
    assert.equal(session.split(0), "ok");
    assert.deepEqual(session.changeWithin([0, 0, 0, 0]).sizes, [0, 1, 2, 5]);
    return session.change();
  });
  const told = within((session) => {
    session.split(0);
    return session.said("d").split("\n").slice(1, -1);
  });
  assert.deepEqual(told, [
    ...[...change.goneFaces].map((face) => `-f ${face}`),
    ...[...change.goneNodes].map((node) => `-v ${node}`),
    ...rows("v", change.newNodes, change.newPlaces),
    ...rows("f", change.putFaces, change.putCorners),
  ]);
});

test("a view makes its moves, and a budget stops it", () => {
  const view = { eye: [0, -30, 20], focal: 1000, tolerance: 1 };
  within((session) => {
    const { moves, left } = session.view(view);
    assert.equal(moves, session.counts().records);
    assert.equal(left, 0);
    assert.deepEqual(session.view({ ...view, byDeviation: true, outline: 1 }).left, 0);
  });
  within((session) => assert.ok(session.view(view).left > 0), { budget: 1 });
});

test("nodes know their records, and leaves the nodes that show them", () => within((session) => {
  const { records, leaves, nodes, digits } = session.counts();
  for (let record = 0; record < records; record++) session.split(record);
  const shown = [...session.frame().nodes];
  const all = (/** @type {number} */ count) => [...Array(count).keys()];
  assert.deepEqual(all(leaves).map((leaf) => session.ancestor(leaf)).sort((a, b) => a - b), shown);
  const split = all(nodes).flatMap((node) => session.splitter(node) ?? []);
  assert.deepEqual(split.sort((a, b) => a - b), all(records));
  assert.equal(session.maker(0), null);
  assert.equal(session.place(shown[0]).length, 3);
  assert.equal(digits, 0);
  assert.throws(() => session.ancestor(leaves), RangeError);
}));

test("numbers by vertex are told by node, and which nodes and faces were", () => within((it) => {
  const { nodes, leaves } = it.counts(), { byNode, byFace } = it.inputs();
  const vertices = [...byNode].filter((vertex) => vertex < leaves);
  const all = (/** @type {number} */ count) => [...Array(count).keys()];
  assert.deepEqual(vertices.sort((a, b) => a - b), all(leaves));
  assert.deepEqual([...byFace].sort((a, b) => a - b), all(byFace.length));
  const numbers = Int32Array.from({ length: 2 * leaves }, (_, i) => 65536 * (i % 5) - 9);
  const fits = it.fits(numbers, 2);
  assert.equal(fits.length, 2 * nodes);
  byNode.forEach((vertex, node) => {
    if (vertex >= leaves) return;
    const own = [...numbers.slice(2 * vertex, 2 * vertex + 2)];
    assert.deepEqual([...fits.slice(2 * node, 2 * node + 2)], own);
  });
  const even = it.fits(new Int32Array(leaves).fill(7));
  assert.ok(even.every((number) => number === 7));
  assert.throws(() => it.fits(numbers.subarray(1), 2), RangeError);
  assert.throws(() => it.fits(new Int32Array(leaves).fill(2 ** 30)), RangeError);
}));

test("means by node are those of the vertices under it", () => within((it) => {
  const { nodes, leaves } = it.counts(), { byNode } = it.inputs();
  const numbers = Uint16Array.from({ length: 3 * leaves }, (_, i) => 999 * i + 7);
  const means = it.means(numbers, 3);
  assert.equal(means.length, 3 * nodes);
  byNode.forEach((vertex, node) => {
    if (vertex >= leaves) return;
    const own = [...numbers.slice(3 * vertex, 3 * vertex + 3)];
    assert.deepEqual([...means.slice(3 * node, 3 * node + 3)], own);
  });
  assert.ok(it.means(new Uint16Array(leaves).fill(65535)).every((number) => number === 65535));
  assert.throws(() => it.means(numbers.subarray(1), 3), RangeError);
  assert.throws(() => it.means(numbers, -1), RangeError);
}));

/** What buffers show: the face in each slot, with the places of its corners.
 * @param {{ vertices: number[] | Int32Array, triangles: number[] | Uint32Array,
 *     faces: Uint32Array }} slots */
function shownBy({ vertices, triangles, faces }) {
  const place = (/** @type {number} */ slot) => [...vertices.slice(3 * slot, 3 * slot + 3)];
  return [...faces].flatMap((face, i) => (face === 0xffffffff ? []
    : [[face, ...[...triangles.slice(3 * i, 3 * i + 3)].map(place)]]));
}

/** The same of a session's frame.
 * @param {Session} session */
function shownIn(session) {
  const { places, faces, corners } = session.frame();
  const place = (/** @type {number} */ at) => [...places.slice(3 * at, 3 * at + 3)];
  return [...faces].map((face, i) => [face, ...[...corners.slice(3 * i, 3 * i + 3)].map(place)]);
}

const byFace = (/** @type {any[][]} */ all) => all.sort(([a], [b]) => a - b);

test("buffers follow what is shown, and few slots are written", () => {
  const made = vdpm.simplify(readFileSync(new URL("torus.obj", EXAMPLES)));
  const torus = vdpm.open(made), twin = vdpm.open(made), slots = torus.slots();
  /** @type {{ vertices: number[], triangles: number[] }} */
  const copy = { vertices: [], triangles: [] };
  for (const tolerance of [40, 9, 25, 3, 60, 1]) {
    for (const it of [torus, twin]) it.view({ eye: [0, -30000, 20000], focal: 1000, tolerance });
    if (tolerance === 25) torus.mark();
    const { nodes, faces } = torus.frame(), { newNodes } = twin.change();
    const { vertexSlots, places, triangleSlots, corners } = slots.update();
    assert.equal(new Set(vertexSlots).size, vertexSlots.length);
    if ([40, 25].includes(tolerance)) assert.equal(triangleSlots.length, faces.length);
    else assert.equal(vertexSlots.length, newNodes.length);
    copy.vertices.length = slots.vertices.length; // (fewer where the buffers begin anew)
    copy.triangles.length = slots.triangles.length;
    for (const axis of [0, 1, 2]) {
      vertexSlots.forEach((slot, i) => { copy.vertices[3 * slot + axis] = places[3 * i + axis]; });
      triangleSlots.forEach((slot, i) => {
        copy.triangles[3 * slot + axis] = corners[3 * i + axis];
      });
    }
    assert.deepEqual(copy.triangles, [...slots.triangles]);
    assert.deepEqual(byFace(shownBy(slots)), shownIn(torus));
    assert.deepEqual(byFace(shownBy({ ...copy, faces: slots.faces })), shownIn(torus));
    assert.deepEqual([...slots.nodes].filter((node) => node !== 0xffffffff).sort((a, b) => a - b),
      [...nodes]);
  }
  const before = slots.update();
  assert.deepEqual([before.vertexSlots.length, before.triangleSlots.length], [0, 0]);
  slots.close();
  slots.close();
  assert.equal(slots.vertices.length, 0);
  assert.throws(() => slots.update(), NotOpen);
  for (const it of [torus, twin]) it.close();
  assert.throws(() => torus.slots().update(), NotOpen);
});

test("a ray meets a face or none, and strips have all corners", () => within((session) => {
  assert.equal(session.pick([0, 0, 30000], [0, 0, 1]), null);
  assert.equal(typeof session.pick([0, 0, 30000], [0, 0, -1])?.face, "number");
  assert.ok(session.strips().flat().length > session.counts().shownFaces);
}));

test("what is made opens, and a text may be a string", () => {
  const fit = vdpm.prepare("v 0.5 0 0\nv 1 0 0\nv 0 1 0\nf 1 2 3\n", { size: 100 });
  assert.ok(fit.notes.length > 0);
  const streams = [vdpm.simplify(fit.text), vdpm.build(fit.text), vdpm.build(text, { faces: 4 })];
  for (const made of streams) vdpm.open(made).close();
  assert.equal(Buffer.compare(vdpm.build(text), stream), 0);
});

test("steps make the same stream, and tell how far they are", () => {
  const torus = readFileSync(new URL("torus.obj", EXAMPLES));
  const run = vdpm.simplifying(torus, { faces: 100 });
  assert.throws(() => run.stream(), NotOpen);
  for (let done = run.more(0), most = 7; !done.ended;) {
    const next = run.more(most);
    assert.ok(next.ended || next.collapses === done.collapses + most);
    assert.ok(next.facesLeft <= done.facesLeft && next.faces === done.faces);
    done = next;
  }
  const end = run.more(9);
  assert.deepEqual(end, { ...run.more(0), facesLeft: 100, ended: true });
  assert.equal(Buffer.compare(run.stream(), vdpm.simplify(torus, { faces: 100 })), 0);
  assert.throws(() => run.more(0), NotOpen);
  const given = vdpm.simplifying(torus);
  given.close();
  given.close();
  assert.throws(() => vdpm.simplifying("ply\n"), Fault);
});

test("a packed stream is smaller, and unpacked the same", () => {
  const torus = vdpm.build(readFileSync(new URL("torus.obj", EXAMPLES)));
  const packed = vdpm.pack(torus);
  assert.ok(5 * packed.length < torus.length);
  assert.equal(Buffer.compare(vdpm.unpack(packed), torus), 0);
});

test("a packed stream that is cut off gives its first records", () => {
  const torus = vdpm.build(readFileSync(new URL("torus.obj", EXAMPLES)));
  const packed = vdpm.pack(torus), all = 0xffffffff;
  assert.equal(Buffer.compare(vdpm.unpackFirst(packed, all), torus), 0);
  const half = vdpm.unpackFirst(packed.subarray(0, packed.length >> 1), all);
  assert.ok(half.length > 1000 && half.length < torus.length);
  const shown = [torus, half, vdpm.unpackFirst(packed, 3)].map((it) => {
    const session = vdpm.open(it);
    for (const line of ["s 0", "s 1", "s 2"]) session.line(line);
    const { nodes, corners } = session.frame();
    session.close();
    return [...nodes, ...corners];
  });
  assert.deepEqual(shown[1], shown[0]);
  assert.deepEqual(shown[2], shown[0]);
  assert.throws(() => vdpm.unpackFirst(packed.subarray(0, 8), all),
    (fault) => fault instanceof Fault && fault.message === "fault 35");
  assert.throws(() => vdpm.unpackFirst(packed, -1), RangeError);
});

test("a fault tells the line of the programs", () => {
  /** @type {(doing: () => void, message: string) => void} */
  const thrown = (doing, message) => assert.throws(doing, (fault) =>
    fault instanceof Fault && fault.message === message);
  thrown(() => vdpm.open(stream.subarray(0, 30)), "fault 22 byte 30");
  thrown(() => vdpm.open(text), "fault 20");
  thrown(() => vdpm.build("f 1 2 3\n"), "fault 7 line 1");
  thrown(() => vdpm.simplify("ply\n"), "fault 14");
  thrown(() => vdpm.prepare(""), "fault 12");
  thrown(() => vdpm.pack(stream.subarray(0, 0)), "fault 22 byte 0");
  thrown(() => vdpm.unpack(stream), "fault 34");
  thrown(() => within((session) => session.line("w w")), "fault 30");
});

test("numbers out of range are refused", () => {
  for (const size of [0, -1, 32768, 1.5]) {
    assert.throws(() => vdpm.prepare(text, { size }), RangeError);
  }
  for (const asked of [{ digits: 5 }, { faces: -1 }, { faces: 2 ** 32 }]) {
    assert.throws(() => vdpm.simplify(text, asked), RangeError);
  }
  assert.throws(() => vdpm.open(stream, { budget: -1 }), RangeError);
});

test("a closed session is refused, and others are apart from it", () => {
  const one = vdpm.open(stream), other = vdpm.open(stream);
  one.split(0);
  one.close();
  one.close();
  assert.throws(() => one.line("w"), NotOpen);
  assert.equal(other.counts().shownNodes, 4);
  other.close();
});

test("memory is given back", () => {
  const size = () => vdpm.memory.buffer.byteLength;
  const round = () => {
    within((session) => {
      session.frame();
      const slots = session.slots();
      slots.update();
      slots.close();
    });
    vdpm.simplify(text);
    assert.throws(() => vdpm.open(text), Fault);
    assert.throws(() => vdpm.build("f 1 2 3\n"), Fault);
  };
  for (let i = 0; i < 20; i++) round();
  const before = size();
  for (let i = 0; i < 200; i++) round();
  assert.equal(size(), before);
});

test("want of memory is told", () => {
  assert.throws(() => vdpm.memory.take(2 ** 32 - 65536), OutOfMemory);
  within((session) => assert.equal(session.counts().shownNodes, 4));
});
