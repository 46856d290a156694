// Unpacks the frames of a film (tools/viewer/film.py has the form), and has one of them at a time.
import { WIDTH, rows } from "./layout.js";
import { putNormals } from "./normals.js";

class Numbers {
  constructor(bytes) {
    this.bytes = bytes;
    this.at = 0;
  }

  next() {
    let number = 0, size = 1, byte = 0;
    do {
      byte = this.bytes[this.at++];
      number += (byte & 127) * size;
      size *= 128;
    } while (byte > 127);
    return number;
  }

  signed() {
    const number = this.next();
    return number % 2 === 0 ? number / 2 : -(number + 1) / 2;
  }

  take(count) {
    this.at += count;
    return this.bytes.subarray(this.at - count, this.at);
  }
}

const textureOf = (Kind, count) => new Kind(4 * WIDTH * rows(count));

export class Reel {
  constructor(bytes) {
    const numbers = new Numbers(bytes);
    this.head = JSON.parse(new TextDecoder().decode(numbers.take(numbers.next())));
    this.length = this.head.views.length;
    this.readPoints(numbers);
    this.changes = this.head.views.map(() => this.readChange(numbers));
    this.at = -1;
    this.faces = new Map(); // the corners of the faces of the frame `at`
  }

  readPoints(numbers) {
    const count = numbers.next(), { coloured } = this.head;
    Object.assign(this, { pointCount: count, places: textureOf(Int16Array, count) });
    this.colours = coloured ? textureOf(Uint8Array, count) : null;
    const last = [0, 0, 0];
    this.low = [Infinity, Infinity, Infinity];
    this.high = [-Infinity, -Infinity, -Infinity];
    for (let point = 0; point < count; point++) {
      for (let axis = 0; axis < 3; axis++) {
        last[axis] += numbers.signed();
        this.places[4 * point + axis] = last[axis];
        this.low[axis] = Math.min(this.low[axis], last[axis]);
        this.high[axis] = Math.max(this.high[axis], last[axis]);
      }
      this.places[4 * point + 3] = numbers.next();
      if (coloured) this.colours.set([numbers.next(), numbers.next(), numbers.next()], 4 * point);
    }
  }

  readChange(numbers) {
    const nodes = numbers.next(), gone = [], come = [];
    let face = 0, corner = 0;
    for (let left = numbers.next(); left > 0; left--) gone.push(face += numbers.next());
    face = 0;
    for (let left = numbers.next(); left > 0; left--) {
      face += numbers.next();
      corner += numbers.signed();
      come.push([face, corner, corner + numbers.signed(), corner + numbers.signed()]);
    }
    return { nodes, gone, come };
  }

  // Goes to a frame, through those between; back by going through all from the first on.
  go(to) {
    if (to < this.at) {
      this.at = -1;
      this.faces.clear();
    }
    while (this.at < to) {
      const { gone, come } = this.changes[++this.at];
      for (const face of gone) this.faces.delete(face);
      for (const [face, ...corners] of come) this.faces.set(face, corners);
    }
  }

  get nodeCount() { return this.changes[this.at].nodes; }

  // The frame as the renderer takes it. All points are there, and faces use some of them.
  frame() {
    const faceCount = this.faces.size, corners = textureOf(Uint32Array, faceCount);
    let at = 0;
    for (const [face, [a, b, c]] of this.faces) {
      corners[at++] = a; corners[at++] = b; corners[at++] = c; corners[at++] = face;
    }
    const { places, colours, pointCount: nodeCount } = this;
    const normals = textureOf(Int16Array, nodeCount);
    putNormals({ places, nodeCount, corners, faceCount }, normals);
    const arrays = { places, corners, normals, ...(colours && { colours }) };
    return { nodeCount, faceCount, arrays };
  }
}
