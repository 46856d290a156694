// A mesh cut open along the seams of its texture, as tools/dressing/seams.py cuts it.

// Corners that stay together.
class Corners {
  constructor(count) { this.above = Int32Array.from({ length: count }, (_, corner) => corner); }

  first(corner) {
    const { above } = this;
    let at = corner;
    while (above[at] !== at) {
      above[at] = above[above[at]];
      at = above[at];
    }
    return at;
  }

  join(one, other) { this.above[this.first(one)] = this.first(other); }
}

// Two faces at a side are joined there where they have the same at both of its ends. `isSame` tells
// of two corners whether they have.
function joined(count, faces, isSame) {
  const corners = new Corners(faces.length), sides = new Map();
  const next = (corner) => (corner % 3 === 2 ? corner - 2 : corner + 1);
  for (let corner = 0; corner < faces.length; corner++) {
    sides.set(faces[corner] * count + faces[next(corner)], corner);
  }
  for (const from of sides.values()) {
    const a = faces[from], b = faces[next(from)], back = sides.get(b * count + a);
    if (a >= b || back === undefined) continue;
    if (!isSame(from, next(back)) || !isSame(next(from), back)) continue;
    corners.join(from, next(back));
    corners.join(next(from), back);
  }
  return corners;
}

// The vertices before that those of the cut mesh were, a corner that each of them is (-1 of one
// without a face), and the vertices at its faces' corners. Vertices keep their order.
export function cut(count, faces, isSame) {
  const together = joined(count, faces, isSame);
  const parts = Array.from({ length: count }, () => []);
  for (let corner = 0; corner < faces.length; corner++) {
    if (together.first(corner) === corner) parts[faces[corner]].push(corner);
  }
  const before = [], firsts = [], numbers = new Int32Array(faces.length);
  parts.forEach((found, vertex) => {
    for (const corner of found.length > 0 ? found : [-1]) {
      if (corner >= 0) numbers[corner] = before.length;
      before.push(vertex);
      firsts.push(corner);
    }
  });
  const named = Int32Array.from(faces, (_, corner) => numbers[together.first(corner)]);
  return { before, firsts, faces: named };
}
