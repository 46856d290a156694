// Where nodes are in the pictures of a texture. A node that glides brings this along as it does its
// place, so that the picture doesn't swim.
export class Spots {
  // `goals` has u and v for each node.
  constructor(goals) { Object.assign(this, { goals, starts: new Float32Array(goals.length) }); }

  // A node's glide begins where another is that has gone a part of its way to a third.
  begin(node, seen, goal, part) {
    const { goals, starts } = this;
    for (let i = 0; i < 2; i++) {
      const start = starts[2 * seen + i];
      starts[2 * node + i] = start + (goals[2 * goal + i] - start) * part;
    }
  }

  // Of nodes, by the nodes to which they glide: where they come, and where they begin.
  cells(nodes, glidesTo) {
    const { goals, starts } = this, cells = new Float32Array(4 * nodes.length);
    for (let i = 0, at = 0; i < nodes.length; i++, at += 4) {
      const goal = 2 * glidesTo[nodes[i]], start = 2 * nodes[i];
      cells[at] = goals[goal]; cells[at + 1] = goals[goal + 1];
      cells[at + 2] = starts[start]; cells[at + 3] = starts[start + 1];
    }
    return cells;
  }
}

const WHOLE = 65536; // of a picture's width or height, as `paint` tells it

export const spotsOf = (words) => new Spots(Float32Array.from(words, (word) => word / WHOLE));
