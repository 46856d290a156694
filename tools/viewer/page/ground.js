// What a mesh is as ground: whether it is a height field, and where level water lies lowest. It is
// told for both axes that may be up.
const LOW = 0.02; // of the range of heights, in which water is looked for

// The bounding box of the vertices of the full mesh. Nodes of coarse fronts may be outside.
export function boxOf({ leaves, leafNodes, places }) {
  const low = [Infinity, Infinity, Infinity], high = [-Infinity, -Infinity, -Infinity];
  for (let i = 0; i < 3 * leaves; i++) {
    const axis = i % 3, c = places[3 * leafNodes[(i - axis) / 3] + axis];
    if (c < low[axis]) low[axis] = c;
    if (c > high[axis]) high[axis] = c;
  }
  return { low, high };
}

// `low` and `high` are corners of the whole's bounding box, in units of this mesh.
export function groundsOf(hierarchy, { low, high }) {
  const of = (axis) => new Ground(hierarchy, axis, low[axis] + LOW * (high[axis] - low[axis])).told;
  return { y: of(1), z: of(2) };
}

class Ground {
  // Water isn't higher than `top`.
  constructor(hierarchy, axis, top) {
    Object.assign(this, hierarchy, { axis, top, levels: new Map(), plan: 0, facing: 0 });
    [this.right, this.ahead] = axis === 2 ? [0, 1] : [2, 0];
    for (let face = 0; face < this.faces; face++) this.take(3 * face);
  }

  at(corner) { return 3 * this.leafNodes[this.faceLeaves[corner]]; }

  take(first) {
    const { places: c, right: x, ahead: y, axis, levels } = this;
    const p = this.at(first), q = this.at(first + 1), r = this.at(first + 2);
    const size = (c[q + x] - c[p + x]) * (c[r + y] - c[p + y])
      - (c[q + y] - c[p + y]) * (c[r + x] - c[p + x]);
    this.plan += Math.abs(size);
    this.facing += size;
    const height = c[p + axis];
    if (height > this.top || c[q + axis] !== height || c[r + axis] !== height) return;
    levels.set(height, (levels.get(height) ?? 0) + Math.abs(size));
  }

  // As seen from above: how large the faces are together, how much more of them faces up than down,
  // and the height at which most is level, with how much that is.
  get told() {
    const most = [...this.levels].reduce((best, one) => (one[1] > best[1] ? one : best), [0, 0]);
    return { plan: this.plan, facing: this.facing, level: most[0], flat: most[1] };
  }
}
