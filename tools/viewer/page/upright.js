// Guesses which axis of a file points up, y or z.
const LEVEL = 0.6;    // how much of an open mesh faces one way where it is ground
const FLAT = 0.3;     // how flat a body is on the axis that counts as up
const TALL = 1.5;     // how many times as high as broad a body is that stands on z
const REST = 0.03;    // of a body's height that counts as its foot
const ALONG = 0.9;    // the cosine of an axis and a face that rests on the ground
const STANDS = 0.03;  // how much of a body is foot where it stands on z
const MORE = 4;       // times as much as on y
const ACROSS = 0.995; // the cosine of an axis and a face that lies across it
const PLATES = 0.2;   // how much of a machined part lies across the axis that counts as up
const CLEAR = 1.5;    // times as much as across the other one
const LOW = 0.75;     // how flat it is there

// How much of the surface is foot, along y and along z.
function feet({ normals, sizes, hierarchy: { faces, faceLeaves, leafNodes, places, low, high } }) {
  const foot = [0, 0, 0], rest = low.map((c, axis) => c + REST * (high[axis] - c));
  for (let face = 0; face < faces; face++) {
    for (let axis = 1; axis < 3; axis++) {
      if (Math.abs(normals[3 * face + axis]) < ALONG) continue;
      const place = places[3 * leafNodes[faceLeaves[3 * face]] + axis];
      if (place < rest[axis]) foot[axis] += sizes[face];
    }
  }
  return foot;
}

// The axis on which a machined part lies flat, which has plates where what has grown has none; null
// where there is no such axis.
function lying({ normals, sizes, size, hierarchy: { faces } }, [broad, tall, deep]) {
  let acrossY = 0, acrossZ = 0;
  for (let face = 0; face < faces; face++) {
    if (Math.abs(normals[3 * face + 1]) > ACROSS) acrossY += sizes[face];
    if (Math.abs(normals[3 * face + 2]) > ACROSS) acrossZ += sizes[face];
  }
  const hasPlates = (own, other) => own > PLATES * size && own > CLEAR * other;
  if (hasPlates(acrossZ, acrossY) && deep < LOW * Math.min(broad, tall)) return "z";
  return hasPlates(acrossY, acrossZ) && tall < LOW * Math.min(broad, deep) ? "y" : null;
}

// Ground faces its sky. Of bodies most files have y up; z where they are flat on it, or by far the
// longest there, or lie or have much more foot to stand on there.
export function uprightOf(surface) {
  const { facing, side, size, hierarchy: { low, high } } = surface;
  const [, y, z] = facing.map((sum) => Math.abs(sum) / (size || 1));
  if (side === 0 && Math.max(y, z) > LEVEL) return z > y ? "z" : "y";
  const box = low.map((c, axis) => high[axis] - c), [broad, tall, deep] = box;
  if (deep < FLAT * Math.min(broad, tall) || deep > TALL * Math.max(broad, tall)) return "z";
  if (tall < FLAT * Math.min(broad, deep)) return "y";
  const flat = lying(surface, box);
  if (flat !== null) return flat;
  const foot = feet(surface);
  return foot[2] > STANDS * size && foot[2] > MORE * foot[1] ? "z" : "y";
}
