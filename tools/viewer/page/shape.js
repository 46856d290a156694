// What pictures need of the whole mesh once it is read: the normals of its nodes, whether it is
// closed, and which axis points up, as far as one can tell.
import { NO_PARENT } from "./hierarchy.js";
import { Surface } from "./surface.js";
import { uprightOf } from "./upright.js";

// A vertex is at a sharp edge where a face turns away from its normal by more than this.
const SHARP = Math.cos((26 * Math.PI) / 180);
const SHARE = 0.2; // of a node's vertices at sharp edges that make it sharp

// Three numbers for each node: the mean normal, of length 1, of the vertices that it stands for, so
// that a coarse mesh is shaded as the fine one is; 0 where it stands at sharp edges.
function nodeNormals(surface) {
  const { parents, leafNodes, leaves } = surface.hierarchy, count = parents.length;
  const sums = new Float64Array(3 * count), vertices = new Float32Array(count);
  const sharp = sharpLeaves(surface), sharpBelow = new Float32Array(count);
  for (let leaf = 0; leaf < leaves; leaf++) {
    const node = leafNodes[leaf], weight = surface.vertexSizes[leaf] || 1;
    for (let axis = 0; axis < 3; axis++) {
      sums[3 * node + axis] = weight * surface.vertexNormals[3 * leaf + axis];
    }
    vertices[node] = 1;
    sharpBelow[node] = sharp[leaf];
  }
  addToParents(parents, [sums, vertices, sharpBelow]);
  return unitsOf(sums, (node) => sharpBelow[node] > SHARE * vertices[node]);
}

// 1 for each vertex at a sharp edge.
function sharpLeaves({ normals, sizes, vertexNormals, hierarchy: { faces, faceLeaves, leaves } }) {
  const sharp = new Uint8Array(leaves);
  for (let i = 0; i < 3 * faces; i++) {
    const face = (i / 3) | 0, n = 3 * face, leaf = faceLeaves[i], v = 3 * leaf;
    const cosine = normals[n] * vertexNormals[v] + normals[n + 1] * vertexNormals[v + 1]
      + normals[n + 2] * vertexNormals[v + 2];
    if (sizes[face] > 0 && cosine < SHARP) sharp[leaf] = 1;
  }
  return sharp;
}

// Adds what each node has to its parent's, children first: they have the greater numbers.
function addToParents(parents, tables) {
  for (const table of tables) {
    const width = table.length / parents.length;
    for (let node = parents.length - 1; node >= 0; node--) {
      if (parents[node] === NO_PARENT) continue;
      const to = width * parents[node], from = width * node;
      for (let i = 0; i < width; i++) table[to + i] += table[from + i];
    }
  }
}

function unitsOf(sums, isLeftOut) {
  const units = new Float32Array(sums.length);
  for (let at = 0; at < sums.length; at += 3) {
    if (isLeftOut(at / 3)) continue;
    const length = Math.sqrt(sums[at] ** 2 + sums[at + 1] ** 2 + sums[at + 2] ** 2) || 1;
    for (let axis = 0; axis < 3; axis++) units[at + axis] = sums[at + axis] / length;
  }
  return units;
}

// `normals` of nodes, `side` as Surface has it, and `upright`, which is "y" or "z".
export function shapeOf(hierarchy) {
  const surface = new Surface(hierarchy), { side } = surface;
  return { normals: nodeNormals(surface), side, upright: uprightOf(surface) };
}
