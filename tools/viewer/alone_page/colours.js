// The colours of an OBJ text's vertices, as tools/viewer/colours.py finds them: lines
// `v X Y Z R G B`, with parts from 0 to 1 or from 0 to 255. Where the text went through prepare, a
// vertex has the mean of those that were scaled to its place.
const LF = 10, V = 118, BLANKS = [32, 9];
const PLAIN = [184, 178, 168];
const FIRST = 1000; // vertices, of which one has a colour where any has
const NO_COLOUR = [NaN, NaN, NaN];
const VERTEX = 6;   // numbers: a place, and a colour

// Calls `take` with the numbers of each line `v`, until it answers false.
function eachVertex(bytes, take) {
  const decoder = new TextDecoder("latin1");
  for (let at = 0; at < bytes.length;) {
    const found = bytes.indexOf(LF, at), end = found < 0 ? bytes.length : found;
    if (bytes[at] === V && BLANKS.includes(bytes[at + 1])) {
      const line = decoder.decode(bytes.subarray(at + 2, end)).split("#", 1)[0].trim();
      if (take(line.split(/\s+/).map(Number)) === false) return;
    }
    at = end + 1;
  }
}

// Six numbers for each vertex, of which the last three are NaN where it has no colour; null where
// none has.
export function colouredVertices(bytes) {
  const found = [];
  let count = 0, coloured = 0;
  eachVertex(bytes, (numbers) => {
    const isColoured = numbers.length === VERTEX && !numbers.some(Number.isNaN);
    count++;
    if (isColoured) coloured++;
    found.push(...numbers.slice(0, 3), ...(isColoured ? numbers.slice(3) : NO_COLOUR));
    return coloured > 0 || count < FIRST;
  });
  return coloured > 0 ? Float64Array.from(found) : null;
}

// By what a part is multiplied to be one of 255.
function scaleOf(vertices) {
  const isPart = (_, at) => at % VERTEX > 2;
  return vertices.some((part, at) => isPart(part, at) && part > 1) ? 1 : 255;
}

const byte = (part) => Math.max(0, Math.min(255, Math.round(part)));

// Three bytes for each vertex.
export function packed(vertices) {
  const scale = scaleOf(vertices), colours = new Uint8Array(vertices.length / 2);
  for (let i = 0; i < colours.length; i++) {
    const part = vertices[VERTEX * Math.floor(i / 3) + 3 + (i % 3)];
    colours[i] = Number.isNaN(part) ? PLAIN[i % 3] : byte(scale * part);
  }
  return colours;
}

// The same for each vertex of a prepared text, whose places lead back by `scale`.
export function packedByPlace(vertices, text, scale) {
  const sums = sumsByPlace(vertices, scale ?? { unit: 1, middle: [0, 0, 0] }), colours = [];
  eachVertex(text, ([x, y, z]) => {
    const sum = nearby(sums, x, y, z);
    colours.push(...(sum ? sum.slice(0, 3).map((part) => byte(part / sum[3])) : PLAIN));
  });
  return Uint8Array.from(colours);
}

const keyOf = (x, y, z) => ((x + 32769) * 65540 + y + 32769) * 65540 + z + 32769;

// By the places of a grid: the sums of the colours there, and how many there are.
function sumsByPlace(vertices, { unit, middle }) {
  const sums = new Map(), scale = scaleOf(vertices);
  for (let at = 0; at < vertices.length; at += VERTEX) {
    if (Number.isNaN(vertices[at + 3])) continue;
    const place = middle.map((c, axis) => Math.round((vertices[at + axis] - c) / unit));
    const key = keyOf(...place), sum = sums.get(key) ?? [0, 0, 0, 0];
    for (let part = 0; part < 3; part++) sum[part] += scale * vertices[at + 3 + part];
    sum[3]++;
    sums.set(key, sum);
  }
  return sums;
}

const STEPS = [0, 1, -1];
const AROUND = STEPS.flatMap((x) => STEPS.flatMap((y) => STEPS.map((z) => [x, y, z])));

// What was summed up at a place, or beside it: a coordinate in the middle of two places may be
// rounded to either.
function nearby(sums, x, y, z) {
  for (const [i, j, k] of AROUND) {
    const sum = sums.get(keyOf(x + i, y + j, z + k));
    if (sum) return sum;
  }
  return null;
}
