// Reads of a stream text (docs/FORMATS.md) what the page needs beside frames: each node's parent,
// place and depth, the numbers of faces in the input, and how far the mesh reaches. `vdpm check`
// has judged the bytes before.

export const NO_PARENT = -1;
const DEEPEST = 255;

class Words {
  constructor(buffer) {
    this.view = new DataView(buffer);
    this.at = 4; // after the bytes VDPM
  }

  next() {
    this.at += 4;
    return this.view.getUint32(this.at - 4, true);
  }

  signed() { return this.next() | 0; }

  skip(count) { this.at += 4 * count; }
}

class Reader {
  constructor(buffer) {
    const words = new Words(buffer);
    const digits = words.next() === 2 ? words.next() : 0;
    const [leaves, roots, base, records] = [words.next(), words.next(), words.next(), words.next()];
    const count = roots + 2 * records;
    Object.assign(this, { words, digits, leaves, roots, base, records, deepest: 1 });
    this.parents = new Int32Array(count).fill(NO_PARENT);
    this.depths = new Uint8Array(count);
    this.places = new Int16Array(3 * count);
    this.vertices = new Uint32Array(count); // of the input, from 1; 0 for a node of several leaves
    this.faceInputs = new Uint32Array(base + 2 * records);
    this.faceLeaves = new Int32Array(3 * (base + 2 * records));
    this.firstLeaves = new Int32Array(count); // of the leaves below each node
    this.leafNodes = new Int32Array(leaves);
    this.low = [Infinity, Infinity, Infinity];
    this.high = [-Infinity, -Infinity, -Infinity];
    this.faces = 0;
  }

  place(node) {
    for (let axis = 0; axis < 3; axis++) {
      const coordinate = this.words.signed();
      this.places[3 * node + axis] = coordinate;
      this.low[axis] = Math.min(this.low[axis], coordinate);
      this.high[axis] = Math.max(this.high[axis], coordinate);
    }
  }

  readRoots() {
    let leaf = 0;
    for (let root = 0; root < this.roots; root++) {
      this.place(root);
      this.beginAt(root, leaf);
      leaf += this.words.next();
      this.vertices[root] = this.words.next();
    }
  }

  // The three corners of a face, and then its number in the input.
  face(more) {
    for (let at = 3 * this.faces; at < 3 * this.faces + 3; at++) {
      this.faceLeaves[at] = this.words.next();
    }
    this.faceInputs[this.faces++] = this.words.next();
    this.words.skip(more);
  }

  // The leaves below a node begin with this one. Of the nodes that begin with a leaf the last one
  // is the leaf itself.
  beginAt(node, leaf) {
    this.firstLeaves[node] = leaf;
    this.leafNodes[leaf] = node;
  }

  child(node, parent) {
    this.parents[node] = parent;
    this.depths[node] = Math.min(DEEPEST, this.depths[parent] + 1);
    this.deepest = Math.max(this.deepest, this.depths[node]);
    this.place(node);
    this.vertices[node] = this.words.next();
  }

  record(number) {
    const parent = this.words.next(), node = this.roots + 2 * number;
    const first = this.firstLeaves[parent];
    this.beginAt(node, first);
    this.beginAt(node + 1, first + this.words.next());
    this.child(node, parent);
    this.child(node + 1, parent);
    const sides = this.words.next() === 3 ? 2 : 1;
    for (let side = 0; side < sides; side++) this.face(2);
  }
}

export function readHierarchy(buffer) {
  const reader = new Reader(buffer);
  reader.readRoots();
  for (let face = 0; face < reader.base; face++) reader.face(0);
  for (let record = 0; record < reader.records; record++) reader.record(record);
  return reader;
}

// The input itself, as a frame has it: each leaf's node, and all faces with these at their corners.
export function fullFrame({ faces: count, faceLeaves, leafNodes }) {
  return {
    nodes: leafNodes.slice().sort(), faces: Int32Array.from({ length: count }, (_, face) => face),
    corners: faceLeaves.slice(0, 3 * count).map((leaf) => leafNodes[leaf]),
  };
}

// Four bytes for each node: the mean colour of the vertices that it stands for. `colours` has three
// bytes for each vertex of the input. Children have greater numbers than their parents.
export function meanColours({ parents, vertices }, colours) {
  const count = parents.length, sums = new Float64Array(4 * count);
  for (let node = count - 1; node >= 0; node--) {
    const at = 4 * node, from = 3 * (vertices[node] - 1);
    if (vertices[node] !== 0) {
      for (let part = 0; part < 3; part++) sums[at + part] = colours[from + part];
      sums[at + 3] = 1;
    }
    const parent = parents[node];
    if (parent === NO_PARENT) continue;
    for (let part = 0; part < 4; part++) sums[4 * parent + part] += sums[at + part];
  }
  const means = new Uint8Array(4 * count);
  for (let i = 0; i < means.length; i++) means[i] = Math.round(sums[i] / sums[i | 3]);
  return means;
}
