// From where the whole mesh is seen as large as a picture allows, and in its middle.
import { Stretch } from "./stretch.js";

const ROUNDS = 4; // of bringing it to the middle, each several times as near

// The places of all vertices as a camera has them, less `target`: to the right, up, and towards it.
function seenFrom({ right, up, back }, target, { places, leafNodes, leaves }) {
  const all = new Float32Array(3 * leaves), axes = [right, up, back];
  for (let leaf = 0, to = 0; leaf < leaves; leaf++) {
    const at = 3 * leafNodes[leaf], x = places[at] - target[0];
    const y = places[at + 1] - target[1], z = places[at + 2] - target[2];
    for (const axis of axes) all[to++] = x * axis[0] + y * axis[1] + z * axis[2];
  }
  return all;
}

// Axes and a place of the mesh itself, by which it is seen as those that are given see it drawn.
function unstretched({ right, up, back }, target, told) {
  const stretch = Object.assign(new Stretch(), told);
  const own = (axis) => stretch.ownNormal(axis);
  return [{ right: own(right), up: own(up), back: own(back) }, stretch.own(target)];
}

// On one axis of the picture the two planes through its edges that just have all vertices between
// them meet in a line: how far before the target, and how far aside.
function between(all, axis, slope) {
  let most = -Infinity, least = -Infinity;
  for (let at = 0; at < all.length; at += 3) {
    const aside = slope * all[at + axis], near = all[at + 2];
    if (near + aside > most) most = near + aside;
    if (near - aside > least) least = near - aside;
  }
  return { distance: (most + least) / 2, aside: (most - least) / 2 / slope };
}

// The middle between the outermost vertices as they are seen from a distance.
function middle(all, axis, distance, aside) {
  let least = Infinity, most = -Infinity;
  for (let at = 0; at < all.length; at += 3) {
    const seen = (all[at + axis] - aside) / (distance - all[at + 2]);
    if (seen < least) least = seen;
    if (seen > most) most = seen;
  }
  return (least + most) / 2;
}

// How far the eye has to be from what is looked at, and where that is: `target`, which is about the
// mesh's middle, or somewhat beside it. The mesh is drawn stretched.
export function fitted(hierarchy, { axes, target, picture: { width, height, focal }, stretch }) {
  if (hierarchy.leaves === 0) return { distance: 1, target };
  const all = seenFrom(...unstretched(axes, target, stretch), hierarchy);
  const across = between(all, 0, (2 * focal) / width);
  const along = between(all, 1, (2 * focal) / height);
  const distance = Math.max(1, across.distance, along.distance);
  const asides = [across.aside, along.aside];
  // On the axis that would let the eye come nearer, both planes lie beyond the outermost vertices.
  const loose = across.distance < along.distance ? 0 : 1;
  for (let round = 0; round < ROUNDS; round++) {
    asides[loose] += middle(all, loose, distance, asides[loose]) * distance;
  }
  const [x, y] = asides;
  return { distance, target: target.map((c, i) => c + x * axes.right[i] + y * axes.up[i]) };
}
