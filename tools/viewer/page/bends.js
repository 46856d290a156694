// Normals for smooth shading that keeps sharp edges: each corner of a drawn face has its own. It is
// the one of the corner's node, which stands for the full mesh; where a node has none, or the face
// lies across it, it is the sum of those of the drawn faces around the node that lie about along
// the face.
import { Lists } from "./slots.js";

const AGAINST = 0.1; // the least cosine of a face and a node's normal that it can have
const CREASE = Math.cos((40 * Math.PI) / 180); // of two faces between which no edge is seen
const MOST = 65535;  // of a number of 16 bits
const LEVEL = 0x808080; // a byte for each corner that is neither hollow nor raised

export class Bends {
  // `corners` has the nodes at the corners of all drawn faces; a hierarchy may have `normals`,
  // three numbers for each node, `hollows`, one for each (hollows.js), and `pages`, one for each
  // face.
  constructor(nodes, corners, { normals = null, hollows = null, pages = null }) {
    const around = new Lists(nodes, corners.length);
    Object.assign(this, { corners, normals, hollows, pages, around });
    this.units = new Float32Array(corners.length);
    this.sizes = new Float32Array(corners.length / 3);
    this.words = new Uint32Array(normals === null ? 0 : nodes); // of nodes; 0 until it is asked for
    this.sum = new Float64Array(3);
  }

  // A face is drawn, whose normal is as long as it is large.
  add(face, normal) {
    const { around, corners, units } = this, first = 3 * face;
    const x = normal[0], y = normal[1], z = normal[2];
    const size = Math.sqrt(x * x + y * y + z * z), scale = size > 0 ? 1 / size : 0;
    this.sizes[face] = size;
    units[first] = scale * x; units[first + 1] = scale * y; units[first + 2] = scale * z;
    for (let at = first; at < first + 3; at++) around.add(corners[at], at);
  }

  remove(face) {
    for (let at = 3 * face; at < 3 * face + 3; at++) this.around.remove(this.corners[at], at);
  }

  // Marks where the drawn faces around some nodes stand.
  markAround(nodes, slots, marked) {
    for (let i = 0; i < nodes.length; i++) this.markAt(nodes[i], slots, marked);
  }

  markAt(node, slots, marked) {
    const { first, next } = this.around;
    for (let at = first[node]; at >= 0; at = next[at]) marked.add(slots[(at / 3) | 0]);
  }

  // The normals of the faces that stand in some slots, how hollow their corners are, and their
  // pages: four numbers each.
  of(faces, slots) {
    const bends = new Uint32Array(4 * slots.length);
    for (let i = 0, to = 0; i < slots.length; i++, to += 4) {
      const from = 3 * faces.at[slots[i]];
      bends[to] = this.packed(from);
      bends[to + 1] = this.packed(from + 1);
      bends[to + 2] = this.packed(from + 2);
      bends[to + 3] = this.hollowsAt(from) | this.pageAt(from / 3);
    }
    return bends;
  }

  hollowsAt(from) {
    const { corners, hollows } = this;
    if (hollows === null) return LEVEL;
    const byte = (i) => hollows[corners[from + i]];
    return byte(0) | (byte(1) << 8) | (byte(2) << 16);
  }

  // The page of a face, above the three bytes of its corners.
  pageAt(face) { return this.pages === null ? 0 : this.pages[face] << 24; }

  // The normal of a corner, as one number.
  packed(at) {
    const { corners, normals, units } = this, own = 3 * ((at / 3) | 0);
    const x = units[own], y = units[own + 1], z = units[own + 2];
    if (normals !== null) {
      const from = 3 * corners[at];
      const along = normals[from] * x + normals[from + 1] * y + normals[from + 2] * z;
      if (along > AGAINST) return this.wordOf(corners[at]);
    }
    return this.packedAround(corners[at], x, y, z);
  }

  // The normal of a node, as one number.
  wordOf(node) {
    const { normals: n, words } = this, at = 3 * node;
    if (words[node] === 0) words[node] = octahedral(n[at], n[at + 1], n[at + 2]);
    return words[node];
  }

  // The sum of the faces around a node that lie about along a normal.
  packedAround(node, x, y, z) {
    const { around: { first, next }, sizes, sum, units } = this;
    sum[0] = sum[1] = sum[2] = 0;
    for (let other = first[node]; other >= 0; other = next[other]) {
      const face = (other / 3) | 0, from = 3 * face, size = sizes[face];
      const a = units[from], b = units[from + 1], c = units[from + 2];
      if (a * x + b * y + c * z < CREASE) continue;
      sum[0] += size * a; sum[1] += size * b; sum[2] += size * c;
    }
    return octahedral(sum[0], sum[1], sum[2]);
  }
}

// A direction as a place on an octahedron that is folded out to a square: two numbers in one.
function octahedral(x, y, z) {
  const size = Math.abs(x) + Math.abs(y) + Math.abs(z) || 1;
  let u = x / size, v = y / size;
  if (z < 0) {
    const folded = (1 - Math.abs(v)) * (u < 0 ? -1 : 1);
    v = (1 - Math.abs(u)) * (v < 0 ? -1 : 1);
    u = folded;
  }
  const number = (c) => Math.round((c * 0.5 + 0.5) * MOST);
  return ((number(u) << 16) | number(v)) >>> 0;
}
