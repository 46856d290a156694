// Talks with the server of a world, and keeps the mesh of each tile that is shown.
import { Connection, fetched } from "./connection.js";
import { Follower } from "./follower.js";
import { groundsOf } from "./ground.js";
import { NO_PARENT, fullFrame, readHierarchy } from "./hierarchy.js";
import { plus } from "./matrices.js";
import { KeptMesh } from "./mesh.js";
import { readReplies } from "./replies.js";
import { answerBy, clock, startClock } from "./tasks.js";
import { WRITERS } from "./writers.js";

const TINTS = [
  [222, 184, 135], [143, 188, 143], [135, 160, 206], [205, 140, 149], [189, 183, 107],
  [160, 140, 200], [120, 180, 190], [210, 160, 100],
];

let connection = null;
let about = null;
const followers = new Map(); // of open tiles, by name
const bases = new Map();     // the frames of closed tiles

// The same colour for all nodes of a tile, so that one sees which is which.
function tint(name, count) {
  const number = [...name].reduce((sum, letter) => (5 * sum + letter.charCodeAt(0)) % 1009, 7);
  const colours = new Uint8Array(4 * count);
  for (let i = 0; i < colours.length; i += 4) colours.set(TINTS[number % TINTS.length], i);
  return colours;
}

async function hierarchyOf(name) {
  return readHierarchy(await (await fetched(`stream/${name}`)).arrayBuffer());
}

async function followerOf(name) {
  if (!followers.has(name)) {
    const hierarchy = await hierarchyOf(name);
    const mesh = new KeptMesh(hierarchy, tint(name, hierarchy.parents.length));
    const follower = new Follower(mesh, (script) => talk(name, script));
    followers.set(name, Object.assign(follower, { grounds: groundsIn(name, hierarchy) }));
  }
  return followers.get(name);
}

// What a tile is as ground, in the box of the world.
function groundsIn(name, hierarchy) {
  const { offset } = about.tiles.find((tile) => tile.name === name);
  const [low, high] = [about.low, about.high].map((end) => plus(end, -1, offset));
  return groundsOf(hierarchy, { low, high });
}

async function talk(name, script) {
  const { replies, ...answer } = await connection.ask(`tile ${name}\n${script}`);
  return { ...answer, ...readReplies(replies) };
}

const tasks = {
  // What is told of the world.
  async open({ pageOrigin }) {
    startClock(pageOrigin);
    connection = new Connection((fault) => postMessage({ news: { fault } }));
    await connection.open;
    about = await (await fetched("about")).json();
    return about;
  },

  // What a view changes of an open tile.
  async view({ name, line, glides, budget }) {
    const follower = await followerOf(name);
    if (follower.budget !== budget) await talk(name, `b ${budget}\n`);
    follower.budget = budget;
    const { patch, replies } = await follower.view(line, () => (glides ? clock() : null));
    const [word, , left] = replies[0];
    const { grounds } = follower;
    return { patch, left: word === "spent" ? Number(left) : 0, grounds };
  },

  // What a closed tile shows: a tile without a program, whose nodes are roots.
  async base({ name }) {
    followers.delete(name);
    const frame = await baseFrame(name);
    bases.set(name, frame);
    return { patch: whole(frame, ...baseOf(name, frame)), left: 0 };
  },

  // All faces of a tile, whatever else is shown of it; or, of a closed one, as few as it has.
  async finest({ name, isClosed }) {
    if (isClosed) {
      const frame = await baseFrame(name);
      return { patch: whole(frame, ...baseOf(name, frame)) };
    }
    const hierarchy = followers.get(name)?.mesh.hierarchy ?? await hierarchyOf(name);
    const colours = tint(name, hierarchy.parents.length);
    return { patch: whole(fullFrame(hierarchy), hierarchy, colours) };
  },

  // The triangles of all tiles that are drawn as one mesh, as a file of another program.
  async mesh({ format, drawn, unit, origin }) {
    const frames = drawn.map(({ name, offset }) => {
      const follower = followers.get(name);
      return { offset, ...(follower ? follower.mesh.front.frame() : bases.get(name)) };
    });
    const level = joined(frames, { unit, middle: origin });
    return { bytes: WRITERS[format](level), faces: level.corners.length / 3 };
  },

  // What becomes another of a tile where glides are over; no patch where it was left.
  async settle({ name }) { return { patch: followers.get(name)?.mesh.settle(clock()) }; },

  async forget({ name }) {
    followers.delete(name);
    bases.delete(name);
    return {};
  },
};

async function baseFrame(name) {
  const text = new Uint8Array(await (await fetched(`base/${name}`)).arrayBuffer());
  return readReplies(text).frame;
}

// What is drawn of a frame alone.
function whole(frame, hierarchy, colours) {
  return new KeptMesh(hierarchy, colours).show(frame, null);
}

// One mesh of the frames of tiles: vertices at the same place of the world are one.
function joined(frames, grid) {
  const numbers = new Map(), places = [], corners = [];
  for (const { offset, nodes, places: own, corners: three } of frames) {
    const joins = new Map();
    nodes.forEach((node, i) => {
      const place = offset.map((c, axis) => c + own[3 * i + axis]), key = place.join();
      if (!numbers.has(key)) {
        numbers.set(key, numbers.size);
        places.push(...place);
      }
      joins.set(node, numbers.get(key));
    });
    for (const node of three) corners.push(joins.get(node));
  }
  return { places, corners: Uint32Array.from(corners), colours: null, grid };
}

// The hierarchy of a base mesh, which has no records, and its colours.
function baseOf(name, frame) {
  const { nodes: { length: count }, faces: { length: faces } } = frame;
  const parents = new Int32Array(count).fill(NO_PARENT), depths = new Uint8Array(count);
  return [{ parents, depths, places: Int16Array.from(frame.places), faces }, tint(name, count)];
}

answerBy(tasks);
