// What a page's worker does, over a connection: to a server (connection.js), or to the engine that
// the page has in it (../alone_page/built_in.js). A connection has
//   open            a promise that fails where nothing can be looked at
//   about()         what is told of the model
//   stream()        its bytes, as a buffer
//   colours()       three bytes for each vertex of the input
//   spots()         where each node is in the pictures of a texture, u and v in 65,536ths
//   pages()         which of the pictures each face has, a byte each
//   picture(told, i) one of them, { colour, kind, bytes }, by what is told of it
//   packed()        the stream as a packed text, which the engine in a page can tell
//   ask(script)     the bytes of the replies; arrays beside them, or null; how many bytes both
//                   have; the milliseconds of each part of the way; and the numbers of the fronts
//                   that were marked before and after
//   flight()        the text of all lines since the beginning
//   start(budget)   begins anew at the base mesh
import { ARRAYS } from "./arrays.js";
import { Follower } from "./follower.js";
import { fitted } from "./fitting.js";
import { boxOf, groundsOf } from "./ground.js";
import { fullFrame, meanColours, readHierarchy } from "./hierarchy.js";
import { hollowsOf } from "./hollows.js";
import { KeptMesh } from "./mesh.js";
import { readReplies } from "./replies.js";
import { shapeOf } from "./shape.js";
import { spotsOf } from "./spots.js";
import { Surface } from "./surface.js";
import { clock, startClock } from "./tasks.js";
import { fileOf, levelOf } from "./writers.js";

class Working {
  // `connect` gives a connection for what the page asks to open.
  constructor(connect) { this.connect = connect; }

  // The model: what is told of it, and what of the hierarchy the page needs.
  async open({ pageOrigin, ...asked }) {
    startClock(pageOrigin);
    const connection = this.connect(asked);
    await connection.open;
    const begun = performance.now(), about = await connection.about();
    const hierarchy = readHierarchy(await connection.stream());
    Object.assign(hierarchy, shapeOf(hierarchy));
    const colours = about.coloured ? meanColours(hierarchy, await connection.colours()) : null;
    Object.assign(this, { connection, about, hierarchy, colours, words: null });
    if (about.textures) {
      this.words = await connection.spots();
      hierarchy.pages = await connection.pages();
    }
    this.follower = new Follower(this.newMesh(), (script) => this.talk(`${ARRAYS}${script}`));
    const { digits, faces, deepest, low, high, side, upright } = hierarchy;
    const box = boxOf(hierarchy), grounds = groundsOf(hierarchy, box), { grid } = this;
    const times = { ...connection.times, read: performance.now() - begun };
    const told = { digits, faces, deepest, low, high, side, upright, box, grounds, grid };
    return { about, times, hierarchy: told };
  }

  newMesh() {
    return new KeptMesh(this.hierarchy, this.colours, this.words && spotsOf(this.words));
  }

  // How places lead back to the coordinates of the file that was opened.
  get grid() {
    return this.about.scale ?? { unit: 10 ** -this.hierarchy.digits, middle: [0, 0, 0] };
  }

  // The answer to a script, and where the time went, in milliseconds.
  async talk(script) {
    const { times, replies, arrays, bytes, ...answer } = await this.connection.ask(script);
    const cameAt = performance.now(), found = readReplies(replies, arrays);
    const read = performance.now() - cameAt;
    return { ...answer, ...found, cameAt, times: { ...times, read, bytes } };
  }

  // The reply to a view, and what becomes another of what is shown.
  async view({ line, glides }) {
    const now = () => (glides ? clock() : null);
    const { replies, patch, times, cameAt } = await this.follower.view(line, now);
    return { replies, patch, times: { ...times, take: performance.now() - cameAt - times.read } };
  }

  // From where the whole mesh is seen, by a camera's axes and its stretch.
  async fit(asked) { return fitted(this.hierarchy, asked); }

  // What becomes another where glides are over.
  async settle() { return { patch: this.follower.mesh.settle(clock()) }; }

  // The replies to a script that leaves the front as it is.
  async ask({ script }) {
    const { replies } = await this.talk(script);
    return { replies: replies.map((words) => this.withInput(words)) };
  }

  // The reply to a ray, with the face's number in the input put behind.
  withInput(words) {
    return words[0] === "hit" ? [...words, this.hierarchy.faceInputs[Number(words[1])]] : words;
  }

  // What becomes another where it is told how hollow the mesh is, which is found once.
  async hollow() {
    this.hierarchy.hollows ??= hollowsOf(new Surface(this.hierarchy));
    return { patch: this.follower.mesh.hollow(this.hierarchy.hollows) };
  }

  // The input itself, to be drawn beside the front.
  async input() {
    const mesh = this.newMesh();
    return { patch: mesh.show(fullFrame(this.hierarchy), null) };
  }

  async flight() { return { text: await this.connection.flight() }; }

  async start({ budget }) {
    await this.connection.start(budget);
    return {};
  }

  // The mesh shown, as a file of another program, in the coordinates of the file that was opened.
  async mesh({ format, name }) {
    const dress = format === "ply" ? null : await this.dress();
    const level = levelOf(this.follower.mesh.front.frame(), this.colours, this.grid, dress);
    return fileOf(level, format, name);
  }

  // What nodes and faces have of a texture, with its pictures; null where there is none.
  async dress() {
    if (this.words === null) return null;
    const { hierarchy: { pages }, about: { textures }, connection } = this;
    const pictures = await Promise.all(textures.map((told, i) => connection.picture(told, i)));
    return { spots: spotsOf(this.words).goals, pages, pictures };
  }

  // One of the pictures of a texture, as its file has it.
  async picture({ page }) {
    return this.connection.picture(this.about.textures[page], page);
  }

  // The model itself, to be put into a page.
  async model() {
    const { about, connection, words } = this, packed = await connection.packed();
    const colours = about.coloured ? await connection.colours() : null;
    if (words === null) return { packed, colours, worn: null };
    const { pages } = this.hierarchy, { pictures } = await this.dress();
    return { packed, colours, worn: { spots: words, pages, pictures } };
  }
}

const TASKS = [
  "open", "view", "fit", "settle", "ask", "hollow", "input", "flight", "start", "mesh", "picture",
  "model",
];

// The tasks by their names.
export function tasksOver(connect) {
  const working = new Working(connect);
  return Object.fromEntries(TASKS.map((name) => [name, (asked) => working[name](asked)]));
}
