// Heights along the axis that is up, in the units of the file: what contours and the legend count.
const AXES = { y: 1, z: 2 };
export const FIFTH = 5; // of contours each is a thick one
const LINES = 25;       // contours at most
const TICKS = 8;        // numbers of the legend at most
const NEAR = 0.14;      // of the legend's height that two of its numbers are apart
const PARTS = 500;      // of the range that a number tells

// Even steps to the eye, from dark green over sand to a pale one, each lighter than the one before:
// bytes of red, green and blue.
export const RAMP = [
  [33, 93, 59], [57, 111, 59], [83, 129, 58], [116, 145, 57], [152, 158, 62], [186, 171, 82],
  [214, 182, 118], [232, 195, 163], [242, 216, 202],
];
export const WATER = [59, 130, 176];

// The least of 1, 2 and 5 times a power of ten of which `range` has at most so many.
export function stepOf(range, most) {
  if (!(range > 0)) return 1;
  const ten = 10 ** Math.floor(Math.log10(range / most));
  return ten * [1, 2, 5, 10].find((n) => n * ten * most >= range * (1 - 1e-9));
}

// `low` and `high` are corners of the bounding box, in units of the mesh; `unit` and `middle` lead
// from there to the file. `water` is the height of water in units of the mesh, or null.
export function heightsOf({ low, high }, { unit, middle }, upright, water) {
  const axis = AXES[upright], told = (c) => unit * c + middle[axis];
  const least = told(low[axis]), most = told(high[axis]), step = stepOf(most - least, LINES);
  return { unit, least, most, step, water: water === null ? null : told(water) };
}

// The same as the graphics processor counts it: in steps between contours, from one on that is a
// thick one, so that numbers stay small.
export function countedInSteps({ unit, least, most, step, water }) {
  const first = least / step - FIFTH * Math.floor(least / step / FIFTH);
  const span = Math.max((most - least) / step, 1e-6);
  // What is rounded is water too.
  const shore = Math.max(unit / 2, (most - least) / 2000) / step;
  const level = water === null ? -1e30 : first + (water - least) / step + shore;
  return { perUnit: unit / step, first, span, level };
}

// A height in words, as exactly as the range is worth it.
export function heightText(height, { least, most }) {
  const part = most > least ? 10 ** Math.floor(Math.log10((most - least) / PARTS)) : 1;
  const digits = Math.max(0, Math.min(20, Math.round(-Math.log10(part))));
  const rounded = (Math.round(height / part) || 0) * part;
  return rounded.toLocaleString("en", { maximumFractionDigits: digits });
}

// The numbers beside the legend's colours: [height, its part of the whole, what it is].
export function ticksOf({ least, most, water }) {
  const range = most - least, part = (height) => (range > 0 ? (height - least) / range : 0);
  const found = [[water ?? least, water === null ? "" : "water"], [most, ""]];
  const step = stepOf(range, TICKS);
  for (let n = Math.ceil(least / step); n * step <= most && range > 0; n++) {
    const height = n * step, isApart = ([other]) => Math.abs(part(other) - part(height)) > NEAR;
    if (found.every(isApart)) found.push([height, ""]);
  }
  return found.map(([height, what]) => [height, part(height), what]);
}
