// The tiles that are shown: what was asked of each, and what of it is drawn.
import { viewLine } from "./camera.js";
import { plus } from "./matrices.js";
import { chosen, forest } from "./tiling.js";

const BASE = "base"; // what a closed tile shows

export class Tiles {
  // `heard` has `framed(tile, patch, grounds)`, `dropped(name)` and `failed(fault)`.
  constructor(told, work, heard) {
    Object.assign(this, { forest: forest(told), work, heard });
    Object.assign(this, { states: new Map(), wanted: null, drawn: [], waiting: 0, seen: "" });
  }

  // Chooses tiles for a camera, and asks for what isn't there yet.
  look(camera, picture, set, memory) {
    const { focal } = picture, { tolerance, outline, judged } = set, { stretch } = camera;
    const eye = stretch.own(camera.eye()), fine = tolerance / stretch.times;
    const seen = JSON.stringify([eye, focal, fine]);
    if (seen !== this.seen) {
      this.wanted = chosen(this.forest, eye, { focal, tolerance: fine, memory });
    }
    this.seen = seen;
    for (const name of this.wanted.closed) this.ask(name, BASE, set);
    for (const name of this.wanted.open) {
      const own = camera.copy(), { offset } = this.tile(name);
      own.target = plus(camera.target, -1, offset);
      own.stretch = stretch.from(offset);
      this.ask(name, viewLine(own, picture, { tolerance, outline, judged }), set);
    }
    this.settle();
  }

  tile(name) { return this.forest.byName.get(name); }

  state(name) {
    if (!this.states.has(name)) {
      this.states.set(name, { asked: null, shown: null, counts: null, left: 0 });
    }
    return this.states.get(name);
  }

  // Where a budget was spent before a view's end the same one goes on.
  async ask(name, line, { glide, budget }) {
    const state = this.state(name), isSpent = state.left > 0 && budget > 0;
    if (state.busy || (state.asked === line && !isSpent)) return;
    Object.assign(state, { asked: line, busy: true });
    this.waiting++;
    try {
      const task = line === BASE ? { task: "base" } : { task: "view", line };
      const asked = { ...task, name, glides: glide, budget };
      const { patch, left, grounds } = await this.work.ask(asked);
      state.left = left;
      state.counts = { faces: patch.faceCount, nodes: patch.nodeCount };
      state.shown = line;
      this.heard.framed(this.tile(name), patch, grounds);
    } catch (fault) {
      this.heard.failed(fault);
    } finally {
      state.busy = false;
      this.waiting--;
    }
    this.settle();
  }

  // Draws the tiles that are wanted as soon as all of them are there: until then those of before,
  // so that no part of the world is missing or shown twice.
  settle() {
    const names = [...this.wanted.open, ...this.wanted.closed];
    if (names.every((name) => this.states.get(name)?.shown)) this.drawn = names;
    for (const [name, state] of this.states) {
      if (state.busy || names.includes(name) || this.drawn.includes(name)) continue;
      this.states.delete(name);
      this.work.ask({ task: "forget", name });
      this.heard.dropped(name);
    }
  }

  // Whether a tile is shown as it was asked for last.
  isShown(name) {
    const state = this.states.get(name);
    return Boolean(state?.shown) && state.left === 0;
  }

  get counts() {
    const sums = { faces: 0, nodes: 0, parents: 0 };
    for (const name of this.drawn) {
      const { faces, nodes } = this.states.get(name).counts;
      sums.faces += faces;
      sums.nodes += nodes;
      if (this.tile(name).level > 0) sums.parents++;
    }
    return sums;
  }
}
