// View-dependent progressive meshes in a page or in node, by the module that
// `python3 tools/plain_rust.py --wasm OUT.wasm` makes:
//
//     const vdpm = await Vdpm.load(await (await fetch("vdpm.wasm")).arrayBuffer());
//     const session = vdpm.open(vdpm.simplify(vdpm.prepare(text).text));
//     session.view({ eye: [0, -30000, 20000], focal: 1000, tolerance: 20 });
//     const { nodes, places, corners } = session.frame();
//     session.close();
//
// Each function does what one of libvdpm.h does; docs/LIBRARY.md and that header tell more. Nothing
// in the module is proved. Calls don't wait for anything, so long ones belong into a worker.
// Opening 199,712 faces took 0.8 to 1.3 s of a busy processor in node 20: the first opening, later
// ones, one after many of a small mesh, and one by optimized code from its begin alike.
import { WORDS, numberTo } from "./faults.mjs";
import { FAULT, MADE, checkMade, copied } from "./made.mjs";
import { Memory, bytesOf } from "./memory.mjs";
import { Session } from "./session.mjs";
import { MOST_DIGITS, MOST_FACES, Simplifying } from "./simplifying.mjs";

export { Fault, NotOpen, OutOfMemory } from "./faults.mjs";
export { Slots } from "./buffers.mjs";
export { Session } from "./session.mjs";
export { Simplifying } from "./simplifying.mjs";

const MOST_SIZE = 32767;

/** @typedef {string | Uint8Array} Text an OBJ text; bytes are taken as they are */

export class Vdpm {
  /** @param {WebAssembly.Instance} instance */
  constructor(instance) {
    this.memory = new Memory(instance.exports);
  }

  /**
   * Makes the module of its bytes. It imports nothing.
   * @param {BufferSource} bytes
   * @returns {Promise<Vdpm>}
   */
  static async load(bytes) {
    return new Vdpm((await WebAssembly.instantiate(bytes, {})).instance);
  }

  /**
   * The stream of an OBJ text, as `vdpm build FACES --digits DIGITS` makes it. Throws Fault where
   * the program refuses the text.
   * @param {Text} text
   * @param {{ faces?: number, digits?: number }} asked
   * @returns {Uint8Array}
   */
  build(text, { faces = 0, digits = 0 } = {}) {
    numberTo(MOST_FACES, faces, "faces");
    numberTo(MOST_DIGITS, digits, "digits");
    return this.made("vdpm_build", text, [faces, digits], WORDS.OF_TEXT).bytes;
  }

  /**
   * The same as `simplify FACES --digits DIGITS` makes it, by finer costs; with `keepBorder` each
   * frame of the stream shows the border of the mesh.
   * @param {Text} text
   * @param {{ faces?: number, digits?: number, keepBorder?: boolean }} asked
   * @returns {Uint8Array}
   */
  simplify(text, { faces = 0, digits = 0, keepBorder = false } = {}) {
    numberTo(MOST_FACES, faces, "faces");
    numberTo(MOST_DIGITS, digits, "digits");
    const asked = [faces, digits, Number(keepBorder)];
    return this.made("vdpm_simplify", text, asked, WORDS.OF_TEXT).bytes;
  }

  /**
   * Does in steps what `simplify` does at once, and tells how far it is.
   * @param {Text} text
   * @param {{ faces?: number, digits?: number, keepBorder?: boolean }} asked
   * @returns {Simplifying}
   */
  simplifying(text, asked = {}) {
    return new Simplifying(this.memory, text, asked);
  }

  /**
   * Any OBJ text made fit for those above, as the program `prepare` does, and the lines that it
   * says of it. With a size, from 1 to 32,767, the longest axis of the box goes from -size to size;
   * without one points that fit the grid stand as they are.
   * @param {Text} text
   * @param {{ size?: number }} asked
   * @returns {{ text: Uint8Array, notes: string[] }}
   */
  prepare(text, { size } = {}) {
    if (size === 0) throw new RangeError(`size is 0, and not from 1 to ${MOST_SIZE}`);
    const asked = [numberTo(MOST_SIZE, size ?? 0, "size")];
    const { bytes, notes } = this.made("vdpm_prepare", text, asked, WORDS.OF_ANY_TEXT);
    return { text: bytes, notes: new TextDecoder().decode(notes).split("\n").slice(0, -1) };
  }

  /**
   * Packs a stream to a sixth of its bytes or so, as the program `pack` does.
   * @param {Uint8Array} stream
   * @returns {Uint8Array}
   */
  pack(stream) {
    return this.made("vdpm_pack", stream, [], WORDS.OF_STREAM).bytes;
  }

  /**
   * The stream that a packed text is of.
   * @param {Uint8Array} packed
   * @returns {Uint8Array}
   */
  unpack(packed) {
    return this.made("vdpm_unpack", packed, [], WORDS.OF_STREAM).bytes;
  }

  /**
   * The stream of the first records of a packed text, whose bytes may be cut off anywhere after its
   * base mesh: a model of its own, which shows what the whole does while no later record is split.
   * @param {Uint8Array} packed
   * @param {number} records
   * @returns {Uint8Array}
   */
  unpackFirst(packed, records) {
    numberTo(MOST_FACES, records, "records");
    return this.made("vdpm_unpack_first", packed, [records], WORDS.OF_STREAM).bytes;
  }

  /**
   * Shows a stream. A view makes at most `budget` moves.
   * @param {Uint8Array} stream
   * @param {{ budget?: number }} asked
   * @returns {Session}
   */
  open(stream, { budget } = {}) {
    return new Session(this.memory, stream, budget);
  }

  /**
   * What a function makes of a text.
   * @param {string} name
   * @param {Text} text
   * @param {number[]} asked
   * @param {import("./faults.mjs").Words} words
   * @returns {{ bytes: Uint8Array, notes: Uint8Array }}
   */
  made(name, text, asked, words) {
    const { memory } = this, { functions } = memory;
    return memory.within([MADE, FAULT], (made, fault) => {
      const make = (/** @type {number} */ at, /** @type {number} */ length) =>
        functions[name](at, length, ...asked, made, fault);
      checkMade(memory, memory.holding(bytesOf(text), make), fault, words);
      try {
        return copied(memory, made);
      } finally {
        functions.vdpm_made_close(made);
      }
    });
  }
}
