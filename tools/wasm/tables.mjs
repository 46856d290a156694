// What nodes and faces have of tables beside the mesh, and how large that is.
import { NotOpen, STATUS, check, numberTo } from "./faults.mjs";

const MOST = 0xffffffff, SIZES = 24;

/**
 * @typedef {import("./memory.mjs").Memory} Memory
 * @typedef {import("./memory.mjs").Room} Room
 *
 * @typedef {object} Sizes how large the mesh shown and the hierarchy are
 * @property {number} shownNodes
 * @property {number} shownFaces
 * @property {number} nodes
 * @property {number} leaves
 * @property {number} records
 * @property {number} digits decimals of a coordinate
 */

/** The part of a session that tells what nodes and faces have of tables by vertex and face. */
export class Tables {
  /** @param {Memory} memory @param {Room} room of its handle */
  constructor(memory, room) {
    this.memory = memory;
    /** @type {Room | null} */
    this.room = room;
  }

  get handle() {
    if (this.room === null) throw new NotOpen();
    return this.room.at;
  }

  /** Nothing is open any more. */
  giveRoom() {
    if (this.room !== null) this.memory.give(this.room);
    this.room = null;
  }

  /** @returns {Sizes} */
  counts() {
    const { memory, handle } = this;
    return memory.within([SIZES], (at) => {
      check(memory.functions.vdpm_counts(handle, at));
      const told = memory.numbers(at, SIZES / 4);
      const [shownNodes, shownFaces, nodes, leaves, records, digits] = told;
      return { shownNodes, shownFaces, nodes, leaves, records, digits };
    });
  }

  /**
   * What all nodes have of numbers by vertex of the complete mesh, as the parts of colours: the
   * rounded mean over the leaves under a node, in each channel. It is the same whatever is shown:
   * node `n` of a frame has those from `channels * n` on. Throws RangeError where they aren't
   * numbers of all vertices.
   * @param {Uint16Array} byVertex in the order of the text that the stream was made of
   * @param {number} channels how many numbers a vertex has
   * @returns {Uint16Array} by node
   */
  means(byVertex, channels = 1) {
    return this.byNode("vdpm_means", byVertex, channels, (at, count) =>
      new Uint16Array(this.memory.buffer, at, count).slice());
  }

  /**
   * What all nodes have of numbers by vertex of the complete mesh, as 65,536 times u and v of a
   * texture: in each channel that of the linear map which fits those below a node best, at its
   * place. Throws RangeError where they aren't numbers of all vertices, or one is out of range.
   * @param {Int32Array} byVertex in the order of the text that the stream was made of
   * @param {number} channels how many numbers a vertex has
   * @returns {Int32Array} by node
   */
  fits(byVertex, channels = 1) {
    return this.byNode("vdpm_fits", byVertex, channels, (at, count) =>
      this.memory.signed(at, count));
  }

  /**
   * What a function makes by node of numbers by vertex.
   * @template {Uint16Array | Int32Array} Numbers
   * @param {string} name
   * @param {Numbers} byVertex
   * @param {number} channels
   * @param {(at: number, count: number) => Numbers} copied
   * @returns {Numbers}
   */
  byNode(name, byVertex, channels, copied) {
    numberTo(MOST, channels, "channels");
    const { memory, handle } = this, count = channels * this.counts().nodes;
    const { buffer, byteOffset, byteLength, length, BYTES_PER_ELEMENT: size } = byVertex;
    const bytes = new Uint8Array(buffer, byteOffset, byteLength);
    return memory.within([size * count], (to) => memory.holding(bytes, (from) => {
      check(memory.functions[name](handle, channels, from, length, to, count));
      return copied(to, count);
    }));
  }

  /** Which vertex of that text a node of one leaf is, 0xffffffff for another node, and which face
   * of it a face is: both from 0.
   * @returns {{ byNode: Uint32Array, byFace: Uint32Array }} */
  inputs() {
    const { memory, handle } = this, { nodes } = this.counts(), faces = this.facesInAll();
    return memory.within([4, 4 * nodes, 4 * faces], (told, byNode, byFace) => {
      check(memory.functions.vdpm_inputs(handle, byNode, nodes, byFace, faces, told));
      return { byNode: memory.numbers(byNode, nodes), byFace: memory.numbers(byFace, faces) };
    });
  }

  /** How many faces the complete mesh has.
   * @returns {number} */
  facesInAll() {
    const { memory, handle } = this;
    return memory.within([4, 4], (told, none) => {
      const status = memory.functions.vdpm_inputs(handle, none, 0, none, 0, told);
      if (status !== STATUS.NO_ROOM) check(status);
      return memory.number(told);
    });
  }
}
