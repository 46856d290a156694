// A mesh that is being simplified in steps.
import { NotOpen, WORDS, check, numberTo } from "./faults.mjs";
import { FAULT, MADE, checkMade, copied } from "./made.mjs";
import { bytesOf } from "./memory.mjs";

export const MOST_FACES = 0xffffffff;
export const MOST_DIGITS = 4;
const HANDLE = 8, PROGRESS = 32, MOST = 0xffffffff;
const LEFT = 8, COLLAPSES = 16, ENDED = 24; // where these stand in what is told

/**
 * @typedef {import("./memory.mjs").Memory} Memory
 * @typedef {import("./memory.mjs").Room} Room
 *
 * @typedef {object} Done how far a mesh is simplified
 * @property {number} faces how many faces it has
 * @property {number} facesLeft how many are left of them
 * @property {number} collapses how many collapses were done
 * @property {boolean} ended whether this is the end
 */

/** What `simplify` does, in steps: the stream is the same. What isn't closed keeps its memory for
 * as long as the module lives; `stream` closes it. */
export class Simplifying {
  /**
   * Reads the text. Throws what `simplify` throws.
   * @param {Memory} memory
   * @param {string | Uint8Array} text
   * @param {{ faces?: number, digits?: number, keepBorder?: boolean }} asked
   */
  constructor(memory, text, { faces = 0, digits = 0, keepBorder = false } = {}) {
    const asked = [numberTo(MOST_FACES, faces, "faces"), numberTo(MOST_DIGITS, digits, "digits")];
    this.memory = memory;
    /** @type {Room | null} */
    this.room = memory.take(HANDLE);
    try {
      this.begin(bytesOf(text), [...asked, Number(keepBorder)], this.room.at);
    } catch (fault) {
      this.close();
      throw fault;
    }
  }

  /** @param {Uint8Array} text @param {number[]} asked @param {number} handle */
  begin(text, asked, handle) {
    const { memory } = this, { functions } = memory;
    memory.within([FAULT], (fault) => {
      const begun = memory.holding(text, (at, length) =>
        functions.vdpm_simplify_begin(at, length, ...asked, handle, fault));
      checkMade(memory, begun, fault, WORDS.OF_TEXT);
    });
  }

  get handle() {
    if (this.room === null) throw new NotOpen();
    return this.room.at;
  }

  /**
   * Does at most so many collapses, and tells how far it is; 0 just tells.
   * @param {number} most
   * @returns {Done}
   */
  more(most) {
    numberTo(MOST, most, "most");
    const { memory, handle } = this;
    return memory.within([PROGRESS], (told) => {
      check(memory.functions.vdpm_simplify_more(handle, most, told));
      return {
        faces: memory.long(told),
        facesLeft: memory.long(told + LEFT),
        collapses: memory.long(told + COLLAPSES),
        ended: memory.number(told + ENDED) !== 0,
      };
    });
  }

  /**
   * The stream, once the end was told; else NotOpen is thrown. This closes it.
   * @returns {Uint8Array}
   */
  stream() {
    const { memory, handle } = this, { functions } = memory;
    return memory.within([MADE], (made) => {
      check(functions.vdpm_simplify_end(handle, made));
      this.close();
      try {
        return copied(memory, made).bytes;
      } finally {
        functions.vdpm_made_close(made);
      }
    });
  }

  /** Gives it up, and its memory back. It may be closed already. */
  close() {
    if (this.room === null) return;
    this.memory.functions.vdpm_simplify_close(this.room.at);
    this.memory.give(this.room);
    this.room = null;
  }
}
