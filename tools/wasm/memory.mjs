// The memory of the module, as far as its caller has some of it.
import { OutOfMemory } from "./faults.mjs";

const WORD = 8; // bytes; room is counted in these, so that each number stands as the module asks

/** Room in the module's memory, which is all zero at first.
 * @typedef {{ at: number, words: number }} Room */

export class Memory {
  /** @param {any} functions what the module exports */
  constructor(functions) {
    this.functions = functions;
  }

  /** @param {number} bytes @returns {Room} */
  take(bytes) {
    const words = Math.max(1, Math.ceil(bytes / WORD));
    const at = this.functions.vdpm_take(words) >>> 0;
    if (at === 0) throw new OutOfMemory();
    return { at, words };
  }

  /** @param {Room} room */
  give({ at, words }) {
    this.functions.vdpm_give(at, words);
  }

  /**
   * Has rooms of these sizes while something is done, and gives them back.
   * @template T
   * @param {number[]} sizes
   * @param {(...places: number[]) => T} doing
   * @returns {T}
   */
  within(sizes, doing) {
    /** @type {Room[]} */
    const rooms = [];
    try {
      for (const size of sizes) rooms.push(this.take(size));
      return doing(...rooms.map(({ at }) => at));
    } finally {
      for (const room of rooms) this.give(room);
    }
  }

  /**
   * Has these bytes in the module's memory while something is done.
   * @template T
   * @param {Uint8Array} bytes
   * @param {(at: number, length: number) => T} doing
   * @returns {T}
   */
  holding(bytes, doing) {
    return this.within([bytes.length], (at) => {
      new Uint8Array(this.buffer).set(bytes, at);
      return doing(at, bytes.length);
    });
  }

  /** Writes numbers into the module's memory.
   * @param {number} at @param {Uint32Array} numbers */
  put(at, numbers) { new Uint32Array(this.buffer, at, numbers.length).set(numbers); }

  // (the buffer is another one after the memory grew)
  get buffer() {
    return this.functions.memory.buffer;
  }

  /** @param {number} at @param {number} count @returns {Uint8Array} a copy */
  bytes(at, count) {
    return new Uint8Array(this.buffer, at, count).slice();
  }

  /** @param {number} at @param {number} count @returns {Uint32Array} a copy */
  numbers(at, count) {
    return new Uint32Array(this.buffer, at, count).slice();
  }

  /** @param {number} at @param {number} count @returns {Int32Array} a copy */
  signed(at, count) {
    return new Int32Array(this.buffer, at, count).slice();
  }

  /** @param {number} at @returns {number} */
  number(at) {
    return new DataView(this.buffer).getUint32(at, true);
  }

  /** A number of 64 bits, as exactly as a `number` is.
   * @param {number} at @returns {number} */
  long(at) {
    return Number(new DataView(this.buffer).getBigUint64(at, true));
  }
}

/**
 * A text as bytes.
 * @param {string | Uint8Array} text
 * @returns {Uint8Array}
 */
export const bytesOf = (text) => (typeof text === "string" ? new TextEncoder().encode(text) : text);
