// How hollow or raised the complete mesh is at each node, so that hollows can be shaded darker than
// ridges. On the way from a vertex to its neighbour the normal turns back in a hollow, and on along
// the way on a ridge.
import { NO_PARENT } from "./hierarchy.js";

const REACH = 0.02; // parts of the box's diagonal over which it is evened out
const MOST = 8;     // rounds of that
const GAIN = 3;     // times what the normal turns over the reach, in radians, is all hollow
const LEVEL = 128;  // of a byte, what is neither hollow nor raised

// Calls `each` with the leaves at the ends of each side of each face.
function forSides({ faces, faceLeaves }, each) {
  for (let at = 0; at < 3 * faces; at += 3) {
    const a = faceLeaves[at], b = faceLeaves[at + 1], c = faceLeaves[at + 2];
    each(a, b);
    each(b, c);
    each(c, a);
  }
}

// Of each leaf how far normals turn along the ways to its neighbours, and the squares of these ways
// together.
function turnsAt({ vertexNormals: n, hierarchy }) {
  const { leaves, leafNodes, places } = hierarchy;
  const turns = new Float32Array(leaves), squares = new Float32Array(leaves);
  forSides(hierarchy, (a, b) => {
    const p = 3 * leafNodes[a], q = 3 * leafNodes[b], u = 3 * a, v = 3 * b;
    const x = places[q] - places[p], y = places[q + 1] - places[p + 1];
    const z = places[q + 2] - places[p + 2];
    const turn = (n[v] - n[u]) * x + (n[v + 1] - n[u + 1]) * y + (n[v + 2] - n[u + 2]) * z;
    const square = x * x + y * y + z * z;
    turns[a] += turn; turns[b] += turn;
    squares[a] += square; squares[b] += square;
  });
  return { turns, squares };
}

// The mean of each leaf and its neighbours.
function evened(hierarchy, values) {
  const sums = new Float32Array(values.length), counts = new Float32Array(values.length);
  forSides(hierarchy, (a, b) => {
    sums[a] += values[b]; sums[b] += values[a];
    counts[a]++; counts[b]++;
  });
  return values.map((value, i) => (value + (counts[i] > 0 ? sums[i] / counts[i] : value)) / 2);
}

function leafValues(surface, reach) {
  const { hierarchy, hierarchy: { faces, leaves } } = surface;
  const { turns, squares } = turnsAt(surface);
  const all = squares.reduce((sum, square) => sum + square, 0), side2 = all / (6 * faces || 1);
  let values = turns.map((turn, i) => (squares[i] > 0 ? (reach * turn) / squares[i] : 0));
  const rounds = leaves > 0 ? Math.min(MOST, Math.ceil((reach * reach) / (side2 || 1))) : 0;
  for (let round = 0; round < rounds; round++) values = evened(hierarchy, values);
  const mean = values.reduce((sum, value) => sum + value, 0) / (leaves || 1);
  return values.map((value) => value - mean); // a ball is neither hollow nor raised
}

// A byte for each node: the mean of its leaves, from hollow to raised.
export function hollowsOf(surface) {
  const { hierarchy: { high, leafNodes, leaves, low, parents } } = surface;
  const reach = REACH * Math.hypot(...low.map((c, axis) => high[axis] - c));
  const values = leafValues(surface, reach);
  const sums = new Float32Array(parents.length), counts = new Float32Array(parents.length);
  for (let leaf = 0; leaf < leaves; leaf++) {
    sums[leafNodes[leaf]] = values[leaf];
    counts[leafNodes[leaf]] = 1;
  }
  for (let node = parents.length - 1; node >= 0; node--) {
    if (parents[node] === NO_PARENT) continue;
    sums[parents[node]] += sums[node];
    counts[parents[node]] += counts[node];
  }
  const byte = (value) => Math.round(LEVEL + (LEVEL - 1) * Math.max(-1, Math.min(1, GAIN * value)));
  return Uint8Array.from(sums, (sum, node) => byte(sum / counts[node]));
}
