// The late faces of a drawn mesh: those that the front hasn't, or with other corners. They are
// found by the nodes at their corners, so that nobody has to look through all of them.
import { Lists } from "./slots.js";

export class Late {
  // `corners` has the nodes at the corners of all drawn faces.
  constructor(nodes, corners) {
    this.corners = corners;
    this.isLate = new Uint8Array(corners.length / 3);
    this.around = new Lists(nodes, corners.length);
    this.size = 0;
  }

  set(face, isLate) {
    const { around, corners } = this;
    if ((this.isLate[face] === 1) === isLate) return;
    this.isLate[face] = isLate ? 1 : 0;
    this.size += isLate ? 1 : -1;
    for (let at = 3 * face; at < 3 * face + 3; at++) {
      if (isLate) around.add(corners[at], at);
      else around.remove(corners[at], at);
    }
  }

  // Marks those that have a node at a corner.
  markAt(node, marked) {
    const { first, next } = this.around;
    for (let at = first[node]; at >= 0; at = next[at]) marked.add(Math.floor(at / 3));
  }
}
