// A hierarchy that is being shown.
import { Slots } from "./buffers.mjs";
import { STATUS, check, numberTo } from "./faults.mjs";
import { bytesOf } from "./memory.mjs";
import { Tables } from "./tables.mjs";

const NONE = 0xffffffff, MOST = 0xffffffff;
const HANDLE = 8, CHANGE_SIZES = 16;
const MARKS = ["k", "d"]; // the lines that mark the front

/**
 * @typedef {import("./memory.mjs").Memory} Memory
 * @typedef {import("./tables.mjs").Sizes} Sizes
 *
 * @typedef {object} Frame the mesh that is shown, in the order of the frame text
 * @property {Uint32Array} nodes the active nodes, ascending
 * @property {Int32Array} places three coordinates for each
 * @property {Uint32Array} faces the kept faces, ascending
 * @property {Uint32Array} corners three positions in `nodes` for each: an index buffer
 * @property {Uint32Array} cornerNodes the same corners as node numbers
 *
 * @typedef {object} Change what changed since the marked front, each list ascending
 * @property {Uint32Array} goneFaces
 * @property {Uint32Array} goneNodes
 * @property {Uint32Array} newNodes
 * @property {Int32Array} newPlaces three coordinates for each new node
 * @property {Uint32Array} putFaces faces that weren't shown, or were with another corner
 * @property {Uint32Array} putCorners the three nodes of each
 *
 * @typedef {object} View
 * @property {number[]} eye the place that is looked from
 * @property {number} focal the focal length, in pixels
 * @property {number} tolerance how large an error may look, in pixels
 * @property {number[][]} [planes] up to six groups a, b, c, o: what has a x + b y + c z + o below 0
 *     isn't refined
 * @property {number} [outline] a tolerance for outlines, at most the other
 * @property {boolean} [byDeviation] judge nodes by how far their faces are, and not their vertices
 *
 * @typedef {{ face: number, s: bigint, q: bigint }} Hit the face that a ray meets first, at its
 *     origin plus s / q of its way
 */

/** A viewer of one stream. What isn't closed keeps its memory for as long as the module lives. */
export class Session extends Tables {
  /**
   * Opens the bytes that `build` or `simplify` made. A view makes at most `budget` moves.
   * @param {Memory} memory
   * @param {Uint8Array} stream
   * @param {number} budget
   */
  constructor(memory, stream, budget = MOST) {
    numberTo(MOST, budget, "budget");
    super(memory, memory.take(HANDLE));
    this.marks = 0; // how often the front was marked
    try {
      const { handle } = this;
      memory.holding(stream, (at, length) => memory.within([8], (place) => {
        const status = memory.functions.vdpm_open(at, length, budget, handle, place);
        check(status, memory.long(place));
      }));
    } catch (fault) {
      this.giveRoom();
      throw fault;
    }
  }

  /** Gives the memory back. A closed session stays so. */
  close() {
    if (this.room === null) return;
    this.memory.functions.vdpm_close(this.room.at);
    this.giveRoom();
  }

  /**
   * Does one script line of `vdpm live`, given without its LF, and answers the bytes of its reply.
   * Throws Fault 30 where it is none of the forms, and 31 where it names no record.
   * @param {string | Uint8Array} text
   * @returns {Uint8Array}
   */
  line(text) {
    const { memory, handle } = this, bytes = bytesOf(text);
    if (MARKS.includes(String.fromCharCode(...bytes.subarray(0, 2)))) this.marks++;
    memory.holding(bytes, (at, length) => {
      check(memory.functions.vdpm_line(handle, at, length));
    });
    const length = memory.within([4], (at) => {
      check(memory.functions.vdpm_reply_length(handle, at));
      return memory.number(at);
    });
    return memory.within([length], (at) => {
      check(memory.functions.vdpm_reply(handle, at, length));
      return memory.bytes(at, length);
    });
  }

  /** The reply to a line as text, without its last LF.
   * @param {string} text @returns {string} */
  said(text) {
    return new TextDecoder().decode(this.line(text)).replace(/\n$/, "");
  }

  /**
   * Adapts the mesh shown to a view, and tells how many moves it made and how many are left.
   * @param {View} view
   * @returns {{ moves: number, left: number }}
   */
  view({ eye, focal, tolerance, planes = [], outline, byDeviation = false }) {
    const word = `v${byDeviation ? "d" : ""}${outline === undefined ? "" : "s"}`;
    const outlines = outline === undefined ? [] : [outline];
    const fields = [...eye, focal, tolerance, ...outlines, ...planes.flat()];
    const [kind, moves, left] = this.said([word, ...fields].join(" ")).split(" ");
    return { moves: Number(moves), left: kind === "spent" ? Number(left) : 0 };
  }

  /** Splits a record: "ok", or "not active" or "blocked F" where that is not legal.
   * @param {number} record */
  split(record) { return this.said(`s ${record}`); }

  /** Collapses a record: "ok", or "not active" or "blocked F" where that is not legal.
   * @param {number} record */
  collapse(record) { return this.said(`c ${record}`); }

  /** A view makes at most so many moves from here on.
   * @param {number} moves */
  budget(moves) { this.line(`b ${moves}`); }

  /** Marks the front, from which `glide` and `change` go. */
  mark() { this.line("k"); }

  /** The text of the mesh at part/parts of the way from the marked front, or `not finer K`.
   * @param {number} part @param {number} parts */
  glide(part, parts) { return this.line(`g ${part} ${parts}`); }

  /**
   * The face of the full mesh that a ray meets first; null where it meets none.
   * @param {number[]} origin
   * @param {number[]} direction
   * @returns {Hit | null}
   */
  pick(origin, direction) {
    const [kind, face, s, q] = this.said(["p", ...origin, ...direction].join(" ")).split(" ");
    return kind === "miss" ? null : { face: Number(face), s: BigInt(s), q: BigInt(q) };
  }

  /** The mesh shown as triangle strips, each by its nodes.
   * @returns {number[][]} */
  strips() {
    const lines = this.said("t").split("\n").slice(0, -1);
    return lines.map((line) => line.split(" ").slice(1).map(Number));
  }

  /** The mesh that is shown, as arrays.
   * @returns {Frame} */
  frame() {
    const { memory, handle } = this, { shownNodes: v, shownFaces: f } = this.counts();
    const counts = [v, 3 * v, f, 3 * f, 3 * f];
    return memory.within(counts.map((count) => 4 * count), (...at) => {
      const rooms = at.flatMap((place, i) => [place, counts[i]]);
      check(memory.functions.vdpm_frame(handle, ...rooms));
      const numbers = (/** @type {number} */ i) => memory.numbers(at[i], counts[i]);
      return {
        nodes: numbers(0), places: memory.signed(at[1], 3 * v), faces: numbers(2),
        corners: numbers(3), cornerNodes: numbers(4),
      };
    });
  }

  /** What changed since the marked front, as arrays; the front is marked then.
   * @returns {Change} */
  change() {
    const told = this.changeWithin([256, 256, 256, 256]);
    if (told.change !== null) return told.change;
    const { change } = this.changeWithin(told.sizes);
    if (change === null) throw new Error("a change has another size than it told");
    return change;
  }

  /**
   * The change, where each of its lists has room; and how long they are.
   * @param {number[]} most
   * @returns {{ sizes: number[], change: Change | null }}
   */
  changeWithin([mostGoneFaces, mostGoneNodes, mostNewNodes, mostPutFaces]) {
    const { memory, handle } = this;
    const counts = [
      mostGoneFaces, mostGoneNodes, mostNewNodes, 3 * mostNewNodes, mostPutFaces, 3 * mostPutFaces,
    ];
    const lists = counts.map((count) => 4 * count);
    return memory.within([CHANGE_SIZES, ...lists], (told, ...at) => {
      const rooms = at.flatMap((place, i) => [place, counts[i]]);
      const status = memory.functions.vdpm_change(handle, ...rooms, told);
      const sizes = [...memory.numbers(told, 4)];
      if (status === STATUS.NO_ROOM) return { sizes, change: null };
      check(status);
      this.marks++;
      const [goneFaces, goneNodes, newNodes, putFaces] = sizes;
      return { sizes, change: {
        goneFaces: memory.numbers(at[0], goneFaces), goneNodes: memory.numbers(at[1], goneNodes),
        newNodes: memory.numbers(at[2], newNodes), newPlaces: memory.signed(at[3], 3 * newNodes),
        putFaces: memory.numbers(at[4], putFaces), putCorners: memory.numbers(at[5], 3 * putFaces),
      } };
    });
  }

  /** Buffers of a renderer that follow what is shown. They are empty until their first `update`. */
  slots() { return new Slots(this); }

  /** The record that splits a node; null for a node of one leaf.
   * @param {number} node */
  splitter(node) { return this.record("vdpm_splitter", node); }

  /** The record that made a node; null for a root.
   * @param {number} node */
  maker(node) { return this.record("vdpm_maker", node); }

  /** The active node that has a leaf below it.
   * @param {number} leaf @returns {number} */
  ancestor(leaf) { return this.told("vdpm_ancestor", numberTo(MOST, leaf, "leaf")); }

  /** The coordinates of a node.
   * @param {number} node @returns {Int32Array} */
  place(node) {
    const { memory, handle } = this;
    return memory.within([12], (at) => {
      check(memory.functions.vdpm_place(handle, numberTo(MOST, node, "node"), at, 3));
      return memory.signed(at, 3);
    });
  }

  /** @param {string} name @param {number} node @returns {number | null} */
  record(name, node) {
    const record = this.told(name, numberTo(MOST, node, "node"));
    return record === NONE ? null : record;
  }

  /** @param {string} name @param {number} asked @returns {number} */
  told(name, asked) {
    const { memory, handle } = this;
    return memory.within([4], (at) => {
      check(memory.functions[name](handle, asked, at));
      return memory.number(at);
    });
  }
}
