// What a world is compared with: the tiles that have all their faces, and together at most so many.
// Tiles near the eye are those that were cut, and far ones their parents. No program is asked: they
// are read from the streams.
import { chosen, forest } from "./tiling.js";

const MOST = 1_000_000; // faces
const RESTS = 300;      // milliseconds after which the eye counts as at rest

export class Finest {
  // `told` are the tiles; `heard` has `framed(name, patch, offset)`, `dropped(name)` and
  // `failed(fault)`.
  constructor(told, work, heard) {
    // Here faces are what there is room for, as memory is elsewhere.
    this.forest = forest(told.map((tile) => ({ ...tile, memory: tile.faces })));
    Object.assign(this, { work, heard, most: MOST, wanted: null, drawn: [] });
    Object.assign(this, { seen: null, seenAt: 0 }); // the eye, and since when it is there
    Object.assign(this, { chosenFor: null, drawnFor: null });
    this.there = new Map(); // the tiles that are there or on their way, by name
  }

  // A name for the renderer, which has the same tile as it is refined.
  static nameOf(name) { return `finest ${name}`; }

  // Chooses tiles once the eye rests, and asks for what isn't there yet.
  look(camera, { focal }, now) {
    const eye = camera.stretch.own(camera.eye()), seen = JSON.stringify([eye, focal]);
    if (seen !== this.seen) Object.assign(this, { seen, seenAt: now });
    else if (this.chosenFor !== seen && (this.wanted === null || now - this.seenAt > RESTS)) {
      this.chosenFor = seen;
      this.wanted = chosen(this.forest, eye, { focal, tolerance: 0, memory: this.most });
      for (const name of this.wanted.open) this.ask(name, false);
      for (const name of this.wanted.closed) this.ask(name, true);
      this.settle();
    }
  }

  async ask(name, isClosed) {
    const known = this.there.get(name);
    if (known?.isClosed === isClosed) return;
    const asked = { isClosed, faces: null };
    this.there.set(name, asked);
    try {
      const { patch } = await this.work.ask({ task: "finest", name, isClosed });
      if (this.there.get(name) !== asked) return; // it was left meanwhile
      asked.faces = patch.faceCount;
      this.heard.framed(Finest.nameOf(name), patch, this.forest.byName.get(name).offset);
      this.settle();
    } catch (fault) {
      this.heard.failed(fault);
    }
  }

  get names() { return [...this.wanted.open, ...this.wanted.closed]; }

  // Draws what is wanted as soon as all of it is there: until then what was before.
  settle() {
    const { names, there } = this;
    if (!names.every((name) => Number.isInteger(there.get(name)?.faces))) return;
    Object.assign(this, { drawn: names.map(Finest.nameOf), drawnFor: this.chosenFor });
    for (const name of there.keys()) if (!names.includes(name)) this.drop(name);
  }

  drop(name) {
    this.there.delete(name);
    this.heard.dropped(Finest.nameOf(name));
  }

  // Gives all of it back.
  close() {
    for (const name of this.there.keys()) this.drop(name);
    Object.assign(this, { wanted: null, drawn: [], chosenFor: null, drawnFor: null });
  }

  get faces() { return [...this.there.values()].reduce((sum, { faces }) => sum + (faces ?? 0), 0); }

  // Whether all that the eye asks for is drawn.
  get isThere() { return this.drawnFor !== null && this.drawnFor === this.seen; }

  // What is said of it.
  get told() {
    if (this.drawn.length === 0) return "the finest level is on its way";
    return `finest level, ${this.faces.toLocaleString("en")} triangles`;
  }
}
