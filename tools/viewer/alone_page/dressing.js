// A text that the engine takes, cut open along the seams of its texture, and what its vertices and
// faces have of that, as tools/dressing goes.
import { asTheyStood, meshOf, traced } from "./origins.js";
import { cut } from "./seams.js";
import { NONE } from "./textured.js";

const WIDTH = 65536;         // of a picture
const FARTHEST = 32 * WIDTH; // that the engine takes
const MOST_PAGES = 256;
const LF = 10, V = 118, BLANKS = [32, 9];
const PIECE = 4096; // faces that are spelled at once

const within = (part) => Math.max(-FARTHEST, Math.min(FARTHEST, Math.round(part * WIDTH)));

// Where vertices begin and end in a text.
function vertexLines(text) {
  const found = [];
  for (let at = 0; at < text.length;) {
    const line = text.indexOf(LF, at), end = line < 0 ? text.length : line;
    if (text[at] === V && BLANKS.includes(text[at + 1])) found.push([at, end]);
    at = end + 1;
  }
  return found;
}

function spelled(faces) {
  const parts = [];
  for (let at = 0; at < faces.length; at += 3 * PIECE) {
    const lines = [];
    for (let i = at; i < Math.min(faces.length, at + 3 * PIECE); i += 3) {
      lines.push(`f ${faces[i] + 1} ${faces[i + 1] + 1} ${faces[i + 2] + 1}\n`);
    }
    parts.push(new TextEncoder().encode(lines.join("")));
  }
  return parts;
}

// The text of the cut mesh: lines of vertices of the one before, and its own faces.
function cutText(text, lines, { before, faces }) {
  const ends = spelled(faces), size = (sum, part) => sum + part.length;
  const length = before.reduce((sum, vertex) => sum + lines[vertex][1] - lines[vertex][0] + 1, 0);
  const made = new Uint8Array(ends.reduce(size, length));
  let to = 0;
  for (const vertex of before) {
    const [begin, end] = lines[vertex];
    made.set(text.subarray(begin, end), to);
    made[to + end - begin] = LF;
    to += end - begin + 1;
  }
  for (const part of ends) {
    made.set(part, to);
    to += part.length;
  }
  return made;
}

// What a text is dressed with, that was made of the one which `textured` was read of. `scale` leads
// back from places to coordinates; null where vertices and faces stand as they stood. `before` are
// the vertices of the text that those of the dressed one were; `spots` has u and v of each in
// 65,536ths, v from below, and `pages` the page of each face. The answer is null where there are
// more pages than a byte tells, or the faces aren't found again.
export function dressed(textured, text, scale) {
  if (textured.pages.length > MOST_PAGES) return null;
  const mesh = meshOf(text), lines = vertexLines(text), count = lines.length;
  if (mesh.places.length !== 3 * count) return null;
  const origins = scale ? traced(textured, mesh, scale) : asTheyStood(textured);
  if (origins === null || origins.corners.length !== mesh.faces.length) return null;
  const spotAt = new Int32Array(2 * mesh.faces.length);
  origins.corners.forEach((corner, i) => {
    const spot = textured.cornerSpots[corner];
    if (spot === NONE) return;
    spotAt[2 * i] = within(textured.spots[2 * spot]);
    spotAt[2 * i + 1] = within(textured.spots[2 * spot + 1]);
  });
  const pages = Uint8Array.from(origins.faces, (face) => textured.facePages[face]);
  const pageAt = (corner) => pages[(corner / 3) | 0];
  const isSame = (one, other) => !textured.hasSpots || (spotAt[2 * one] === spotAt[2 * other]
    && spotAt[2 * one + 1] === spotAt[2 * other + 1] && pageAt(one) === pageAt(other));
  const made = cut(count, mesh.faces, isSame);
  const spots = new Int32Array(2 * made.before.length);
  made.firsts.forEach((corner, vertex) => {
    if (corner >= 0) spots.set(spotAt.subarray(2 * corner, 2 * corner + 2), 2 * vertex);
  });
  const isCut = made.before.length > count;
  return { text: cutText(text, lines, made), isCut, before: made.before, spots, pages };
}
