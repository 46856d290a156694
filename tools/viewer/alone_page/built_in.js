// The line to the engine in this worker: what ../page/connection.js is to a server's.
import { ARRAYS } from "../page/arrays.js";
import { Fault } from "../page/fault.js";
import { OutOfMemory, Fault as StreamFault } from "../../wasm/faults.mjs";
import { Vdpm } from "../../wasm/vdpm.mjs";
import { OF_STREAM, built } from "./building.js";
import { isPacked, isStream } from "./kinds.js";
import { hasMaterials, picturesFor } from "./materials.js";
import { librariesOf } from "./textured.js";

const ENGINE = "Engine: the proved sources, compiled without their proofs";
const ALL_MOVES = 4294967295, ALL_RECORDS = 0xffffffff;
const ENDS_EARLY = 35; // the fault of a packed text that ends before its base mesh does
const NO_MEMORY = "This browser gives the page no more memory.";
const NONE = new Int32Array(0);

// What arrays of the engine are to the page, which knows the places of nodes.
const asFrame = ({ nodes, faces, cornerNodes }) => ({
  facesGone: NONE, nodesGone: NONE, nodesCome: nodes, facesPut: faces, corners: cornerNodes,
});
const asChange = ({ goneFaces, goneNodes, newNodes, putFaces, putCorners }) => ({
  facesGone: goneFaces, nodesGone: goneNodes, nodesCome: newNodes, facesPut: putFaces,
  corners: putCorners,
});

// Does something by the engine; what goes wrong there is told in the page's words.
function tried(doing) {
  try {
    return doing();
  } catch (fault) {
    if (fault instanceof OutOfMemory || fault instanceof RangeError) {
      throw new Fault(NO_MEMORY, "What to do: close other pages, or simplify the model.");
    }
    if (!(fault instanceof StreamFault)) throw fault;
    const said = `The file is no whole stream: ${fault.message}.`;
    const told = new Fault(said, "What to do: copy it again.");
    throw Object.assign(told, { isShort: fault.number === ENDS_EARLY });
  }
}

// Whether a file may be dressed by those that came with it.
function canDress(name, bytes, beside) {
  if (beside.length === 0 || isStream(bytes) || isPacked(bytes)) return false;
  return hasMaterials(name, librariesOf(bytes), beside);
}

export class BuiltIn {
  // `module` has the engine's bytes; `bytes` are a file's, and `beside` the files that came with
  // it; or else `first` are the first bytes of a packed file, or `model` is one that was built
  // before: { packed, colours, worn, known }. `told` is called with what is done next, as { step },
  // with how many { faces } there are, and with the { share } of a step that is done.
  constructor({ module, name, words, budget = ALL_MOVES, ...given }, told) {
    Object.assign(this, { name, words, marks: 1, session: null, budget, lines: [] });
    this.open = this.begin(module, given, told);
  }

  async begin(module, { bytes, first, beside = [], model }, told) {
    const begun = performance.now();
    this.engine = await Vdpm.load(module);
    const loaded = performance.now(), dresses = bytes && canDress(this.name, bytes, beside);
    this.model = tried(() => {
      if (first) return this.firstOf(first);
      if (model) return this.unpacked(model);
      return built(this.engine, bytes, { told, words: this.words, dresses });
    });
    told({ step: "open" });
    const made = performance.now();
    this.beginsAt(this.budget);
    if (this.model.dress) await this.dress(this.model, beside);
    const opened = performance.now();
    this.times = { load: loaded - begun, build: made - loaded, open: opened - made };
  }

  // Finds what nodes and faces have of a texture, and its pictures.
  async dress(model, beside) {
    const { dress: { spots, pages, textured } } = model;
    const own = tried(() => ({
      spots: this.session.fits(spots, 2),
      pages: Uint8Array.from(this.session.inputs().byFace, (face) => pages[face]),
    }));
    const pictures = await picturesFor(this.name, textured, beside);
    Object.assign(model, { dress: null, worn: { ...own, pictures } });
  }

  // What the first bytes of a packed file tell of its model; an older module needs all of them.
  firstOf(bytes) {
    const { engine } = this;
    if (!engine.memory.functions.vdpm_unpack_first) throw new StreamFault(ENDS_EARLY, null, {});
    return { stream: engine.unpackFirst(bytes, ALL_RECORDS), ...OF_STREAM };
  }

  unpacked(model) { return { ...model, stream: this.engine.unpack(model.packed) }; }

  // The stream as a packed text.
  async packed() {
    const { engine, model } = this;
    model.packed ??= tried(() => engine.pack(model.stream));
    return model.packed;
  }

  async about() {
    const { name, model: { known, colours, worn }, budget } = this;
    const toldOf = ({ colour, kind, missing }) => ({ colour, hasPicture: kind !== "", missing });
    return {
      ...known, name, budget, startedWith: budget, coloured: colours !== null, engine: ENGINE,
      textures: worn?.pictures.map(toldOf) ?? null, opening: this.times.open,
    };
  }

  async stream() { return this.model.stream.slice().buffer; }

  async colours() { return this.model.colours; }

  async spots() { return this.model.worn.spots; }

  async pages() { return this.model.worn.pages; }

  async picture(_, number) { return this.model.worn.pictures[number]; }

  async flight() { return this.lines.map((line) => `${line}\n`).join(""); }

  async start(budget) { this.beginsAt(budget); }

  beginsAt(budget) {
    this.session?.close();
    this.session = tried(() => this.engine.open(this.model.stream, { budget }));
    Object.assign(this, { budget, lines: [], marks: this.marks + 1 });
  }

  // As Connection's, at once.
  async ask(script) {
    const hasArrays = script.startsWith(ARRAYS), before = this.marks, begun = performance.now();
    const lines = (hasArrays ? script.slice(ARRAYS.length) : script).trimEnd().split("\n");
    const parts = [];
    let arrays = null, first = null;
    for (const line of lines) {
      if (hasArrays && (line === "w" || line === "d")) {
        arrays = tried(() => this.arrays(line));
        parts.push(this.headOf(line));
      } else {
        parts.push(this.reply(line));
      }
      this.took(line);
      first ??= performance.now();
    }
    const replies = joined(parts), numbers = Object.values(arrays ?? {});
    const bytes = numbers.reduce((sum, { byteLength }) => sum + byteLength, replies.length);
    const times = { view: first - begun, text: performance.now() - first, transfer: 0 };
    return { replies, arrays, bytes, times, before, after: this.marks };
  }

  arrays(line) {
    return line === "w" ? asFrame(this.session.frame()) : asChange(this.session.change());
  }

  // The first line of a frame or a change, whose numbers come as arrays.
  headOf(line) {
    const { shownNodes, shownFaces } = this.session.counts();
    return new TextEncoder().encode(
      `${line === "w" ? "frame" : "change"} ${shownNodes} ${shownFaces}\n`,
    );
  }

  reply(line) {
    try {
      return this.session.line(line);
    } catch (fault) {
      if (fault instanceof OutOfMemory) throw new Fault(NO_MEMORY);
      throw new Fault(`The engine refuses the line ${line.slice(0, 60)}: ${fault.message}.`);
    }
  }

  // Keeps in mind what a line that was done sets.
  took(line) {
    if (line === "d" || line === "k") this.marks++;
    if (line.startsWith("b ")) this.budget = Number(line.slice(2));
    this.lines.push(line);
  }

  get memory() { return this.engine.memory.buffer.byteLength; }
}

function joined(parts) {
  const all = new Uint8Array(parts.reduce((size, { length }) => size + length, 0));
  let at = 0;
  for (const part of parts) {
    all.set(part, at);
    at += part.length;
  }
  return all;
}
