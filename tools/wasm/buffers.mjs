// The buffers of a renderer, which follow a session.
import { NotOpen, check } from "./faults.mjs";

const NONE = 0xffffffff, HANDLE = 8, SIZES = 8;

/**
 * @typedef {import("./memory.mjs").Memory} Memory
 * @typedef {import("./memory.mjs").Room} Room
 * @typedef {import("./session.mjs").Session} Session
 * @typedef {import("./session.mjs").Change} Change
 *
 * @typedef {object} Written what an update wrote: some slots, each once
 * @property {Uint32Array} vertexSlots of `vertices`
 * @property {Int32Array} places the three coordinates that each has now
 * @property {Uint32Array} triangleSlots of `triangles`
 * @property {Uint32Array} corners the three that each has now
 */

/**
 * Numbers with room for more, at least doubled where there are too few.
 * @template {Int32Array | Uint32Array} Numbers
 * @param {Numbers} numbers
 * @param {number} least
 * @returns {Numbers}
 */
function grown(numbers, least) {
  if (least <= numbers.length) return numbers;
  const Kind = /** @type {new (length: number) => Numbers} */ (numbers.constructor);
  const more = new Kind(Math.max(least, 2 * numbers.length));
  more.set(numbers);
  return more;
}

/**
 * Three numbers for each slot, and the item that stands in it.
 * @template {Int32Array | Uint32Array} Threes
 */
class Buffer {
  /** @param {Memory} memory @param {Threes} threes */
  constructor(memory, threes) {
    this.memory = memory;
    this.threes = threes;
    this.items = new Uint32Array(0);
    this.length = 0;
    /** @type {Room | null} */
    this.room = null;
  }

  get handle() {
    if (this.room === null) throw new NotOpen();
    return this.room.at;
  }

  /** Shows nothing, of so many items.
   * @param {number} items */
  begin(items) {
    this.close();
    this.room = this.memory.take(HANDLE);
    check(this.memory.functions.vdpm_slots_open(items, this.room.at));
  }

  /**
   * Lets items go and come, and answers the slots to write: first those of the items that are put,
   * in their order, then those that are left empty.
   * @param {Uint32Array} gone
   * @param {Uint32Array} put
   * @returns {Uint32Array}
   */
  change(gone, put) {
    const { memory, handle } = this, most = gone.length + put.length;
    const lists = [gone, put].map(({ length }) => 4 * length);
    return memory.within([...lists, 4 * most, SIZES], (goneAt, putAt, writes, sizes) => {
      memory.put(goneAt, gone);
      memory.put(putAt, put);
      const given = [goneAt, gone.length, putAt, put.length, writes, most, sizes];
      check(memory.functions.vdpm_slots_change(handle, ...given));
      const [written, length] = memory.numbers(sizes, 2), slots = memory.numbers(writes, written);
      this.length = length;
      this.threes = grown(this.threes, 3 * length);
      this.items = grown(this.items, length);
      slots.forEach((slot, i) => { this.items[slot] = i < put.length ? put[i] : NONE; });
      return slots;
    });
  }

  /** The slot of each of these items.
   * @param {Uint32Array} items @returns {Uint32Array} */
  slotsOf(items) {
    const { memory, handle } = this, { length } = items;
    return memory.within([4 * length, 4 * length], (at, out) => {
      memory.put(at, items);
      check(memory.functions.vdpm_slots_of(handle, at, length, out, length));
      return memory.numbers(out, length);
    });
  }

  /** Puts three numbers into each of some slots.
   * @param {Uint32Array} slots @param {Threes} threes */
  write(slots, threes) {
    slots.forEach((slot, i) => this.threes.set(threes.subarray(3 * i, 3 * i + 3), 3 * slot));
  }

  close() {
    if (this.room === null) return;
    this.memory.functions.vdpm_slots_close(this.room.at);
    this.memory.give(this.room);
    Object.assign(this, { room: null, length: 0 });
  }
}

/**
 * Two buffers of a renderer that follow a session. A vertex and a triangle keep their slot while
 * they are shown, so that after each view few slots are to be copied to where they are drawn from.
 * They get longer where more is shown than ever before; `close` gives memory back.
 */
export class Slots {
  /** @param {Session} session */
  constructor(session) {
    this.session = session;
    this.isOpen = true;
    /** The session's mark that the buffers stand at; none before the first update.
     * @type {number | null} */
    this.mark = null;
    this.vertexBuffer = new Buffer(session.memory, new Int32Array(0));
    this.triangleBuffer = new Buffer(session.memory, new Uint32Array(0));
  }

  /** The three coordinates in each slot. One whose vertex is gone has its own still, and no
   * triangle has it as a corner. True until the next update. */
  get vertices() { return this.vertexBuffer.threes.subarray(0, 3 * this.vertexBuffer.length); }

  /** The node in each slot of `vertices`, 0xffffffff where none is. */
  get nodes() { return this.vertexBuffer.items.subarray(0, this.vertexBuffer.length); }

  /** The corners of the triangle in each slot, as slots of `vertices`: an index buffer. A slot
   * without a triangle has 0, 0, 0, which draws nothing. */
  get triangles() { return this.triangleBuffer.threes.subarray(0, 3 * this.triangleBuffer.length); }

  /** The face in each slot of `triangles`, 0xffffffff where none is. */
  get faces() { return this.triangleBuffer.items.subarray(0, this.triangleBuffer.length); }

  /**
   * Brings the buffers to what the session shows, takes its change and marks its front for that, as
   * `Session.change` does, and tells what was written. At first, and where the front was marked
   * otherwise since, each slot of what is shown is written anew.
   * @returns {Written}
   */
  update() {
    if (!this.isOpen) throw new NotOpen();
    const { mark, session } = this;
    this.mark = null;
    const written = this.taken(mark === session.marks ? session.change() : this.begun());
    this.mark = session.marks;
    return written;
  }

  /** Gives memory back. The buffers are empty then. */
  close() {
    this.isOpen = false;
    this.vertexBuffer.close();
    this.triangleBuffer.close();
  }

  /** All that is shown, as the change of empty buffers.
   * @returns {Change} */
  begun() {
    const { session } = this, none = new Uint32Array(0);
    session.mark();
    const { nodes, places, faces, cornerNodes } = session.frame();
    this.vertexBuffer.begin(session.counts().nodes);
    this.triangleBuffer.begin(session.facesInAll());
    return {
      goneFaces: none, goneNodes: none, newNodes: nodes, newPlaces: places, putFaces: faces,
      putCorners: cornerNodes,
    };
  }

  /** Writes a change into the buffers.
   * @param {Change} change @returns {Written} */
  taken({ goneFaces, goneNodes, newNodes, newPlaces, putFaces, putCorners }) {
    const { vertexBuffer, triangleBuffer } = this;
    const vertexSlots = vertexBuffer.change(goneNodes, newNodes).slice(0, newNodes.length);
    vertexBuffer.write(vertexSlots, newPlaces);
    const triangleSlots = triangleBuffer.change(goneFaces, putFaces);
    const corners = new Uint32Array(3 * triangleSlots.length);
    corners.set(vertexBuffer.slotsOf(putCorners));
    triangleBuffer.write(triangleSlots, corners);
    return { vertexSlots, places: newPlaces, triangleSlots, corners };
  }
}
