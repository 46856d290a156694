// From a file to a stream, by the engine in this worker, as tools/viewer/model.py goes: an OBJ text
// as it stands with the least number of decimals that it allows; where it isn't fit, or for a PLY
// or STL file, what `prepare` makes of it. A file that is a stream already, packed or not, is taken
// as it is.
import { Fault } from "../page/fault.js";
import { Fault as TextFault } from "../../wasm/faults.mjs";
import { colouredVertices, packed, packedByPlace } from "./colours.js";
import { dressed } from "./dressing.js";
import { hasColours, isPacked, isScan, isStream, otherKind } from "./kinds.js";
import { colouredPly } from "./ply.js";
import { simplified } from "./stepping.js";
import { readTextured } from "./textured.js";

const MOST_DIGITS = 4, TOO_MANY_DECIMALS = 5, NO_FACE = 12;
const ALL_FACES = 0xffffffff; // none is simplified away
const AS_IT_STANDS = { unit: 1, middle: [0, 0, 0] };
const TOO_MUCH = [9, 15, 25, 26, 52, 53];
// What is known of a stream beside itself.
export const OF_STREAM = {
  colours: null, dress: null, known: { prepared: false, scale: null, notes: [] },
};
const LF = 10, F = 102, S = 115, T = 116, U = 117, V = 118;
const FIRST_LINE = 256; // bytes that have the first line of a prepared text
const OF_FILES = 14;    // the first fault that is of a file, and not of a line
const A_FACE = 50;      // bytes that a triangle takes of a PLY or STL file, or so

// What a fault of a text says, and what to do about it, by the manual's words for its number.
function toldOf({ number, place }, words) {
  if (number === NO_FACE) {
    return new Fault("This file has no triangles that could be shown.",
      "What to do: see whether it is an OBJ file with faces, and no point cloud.");
  }
  if (TOO_MUCH.includes(number)) {
    return new Fault("This file has more than 1,048,576 triangles or vertices, or more than 1 GB.",
      "What to do: simplify it before, or cut it into tiles, as docs/WORLDS.md tells.");
  }
  const [what, cure] = words[number] ?? [`has fault ${number}`, ""];
  const at = place?.toLocaleString("en"), isOfLine = place !== null && number < OF_FILES;
  const told = isOfLine ? `Line ${at} ${what}` : `The file ${what}`;
  const where = place !== null && !isOfLine ? `, at line or byte ${at}` : "";
  return new Fault(`${told}${where}.`, cure && `What to do: ${cure}.`);
}

// What a file's stream is, and what is known of it: { stream, colours, dress, known }. Where
// `dresses` says so an OBJ text gets a dress: { spots, pages, textured }, of which the first two go
// by the vertices and faces of what was simplified.
export function built(engine, bytes, { told, words, dresses }) {
  if (isStream(bytes) || isPacked(bytes)) {
    const stream = isPacked(bytes) ? engine.unpack(bytes) : bytes;
    return { stream, ...OF_STREAM };
  }
  try {
    if (isScan(bytes)) return ofScan(engine, bytes, told);
    return ofText(engine, bytes, { told, textured: dresses ? readTextured(bytes) : null });
  } catch (fault) {
    throw fault instanceof TextFault ? toldOf(fault, words) : fault;
  }
}

function ofScan(engine, bytes, told) {
  told({ faces: Math.ceil(bytes.length / A_FACE) });
  const vertices = colouredPly(bytes), isLost = vertices === null && hasColours(bytes);
  const more = isLost ? ["colours of PLY ignored"] : [];
  return prepared(engine, bytes, { vertices, textured: null, told, more });
}

function ofText(engine, bytes, { told, textured }) {
  const kind = otherKind(bytes);
  if (kind !== null) {
    throw new Fault(`This is ${kind}, and OBJ, PLY and STL files are what is read here.`,
      "What to do: open it in a program as Blender, MeshLab or assimp, and export it as OBJ.");
  }
  const { faces, notes } = lookedThrough(bytes);
  told({ faces });
  const vertices = colouredVertices(bytes);
  told({ step: "simplify" });
  const what = { vertices, textured };
  return asItStands(engine, bytes, { ...what, told, notes })
    ?? prepared(engine, bytes, { ...what, told, more: [] });
}

// How many lines are faces, of polygons somewhat fewer than their triangles; and what of the text
// isn't shown, in words as those of `prepare`.
function lookedThrough(bytes) {
  const passed = new Set();
  let faces = 0;
  for (let at = bytes.indexOf(LF); at >= 0; at = bytes.indexOf(LF, at + 1)) {
    if (bytes[at + 1] === F) faces++;
    else if (bytes[at + 1] === V && bytes[at + 2] === T) passed.add("texture coordinates");
    else if (bytes[at + 1] === U && bytes[at + 2] === S) passed.add("materials");
  }
  return { faces, notes: [...passed].map((what) => `${what} ignored`) };
}

// Whether a stream has no face: after its version, and its digits if that is 2, and the numbers of
// leaves and roots come those of base faces and records.
function isEmpty({ buffer, byteOffset }) {
  const view = new DataView(buffer, byteOffset), counts = view.getUint32(4, true) === 2 ? 12 : 8;
  return view.getUint32(counts + 8, true) + view.getUint32(counts + 12, true) === 0;
}

// What is built of a text as it stands; null where it isn't fit for that.
function asItStands(engine, bytes, { vertices, textured, told, notes }) {
  for (let digits = 0; digits <= MOST_DIGITS; digits++) {
    try {
      // (what is cut before it is simplified has to be fit as it stands too)
      const first = textured === null ? simplified(engine, bytes, { digits }, told)
        : engine.simplify(bytes, { digits, faces: ALL_FACES });
      if (isEmpty(first)) break;
      const known = { prepared: false, scale: null, notes };
      const what = { colours: vertices && packed(vertices), known };
      if (textured === null) return { ...what, stream: first, dress: null };
      return worn(engine, { ...what, text: bytes, digits, textured, told, at: null });
    } catch (fault) {
      if (!(fault instanceof TextFault)) throw fault;
      if (fault.number !== TOO_MANY_DECIMALS) break;
    }
  }
  return null;
}

// The same where the text is dressed, if it can be. `at` is how its places lead back; null where
// they are those of the file.
function worn(engine, { colours, known, text, digits, textured, told, at }) {
  const cut = dressed(textured, text, at);
  if (cut === null) {
    const stream = simplified(engine, text, { digits }, told);
    return { stream, colours, dress: null, known };
  }
  const stream = simplified(engine, cut.text, { digits, keepBorder: cut.isCut }, told);
  const dress = { spots: cut.spots, pages: cut.pages, textured };
  return { stream, colours: colours && taken(colours, cut.before), dress, known };
}

// Three bytes for each of some vertices.
function taken(colours, vertices) {
  const found = new Uint8Array(3 * vertices.length);
  vertices.forEach((vertex, i) => found.set(colours.subarray(3 * vertex, 3 * vertex + 3), 3 * i));
  return found;
}

function prepared(engine, bytes, { vertices, textured, told, more }) {
  told({ step: "prepare" });
  const { text, notes: said } = engine.prepare(bytes), notes = [...said, ...more];
  const scale = scaleOf(new TextDecoder().decode(text.subarray(0, FIRST_LINE)));
  const colours = vertices && packedByPlace(vertices, text, scale);
  told({ step: "simplify" });
  const what = { colours, known: { prepared: true, scale, notes } };
  if (textured === null) {
    return { ...what, stream: simplified(engine, text, {}, told), dress: null };
  }
  return worn(engine, { ...what, text, digits: 0, textured, told, at: scale ?? AS_IT_STANDS });
}

const SCALED = /^# coordinate = (\S+) \/ (\d+) \* place \+ \((\S+) (\S+) (\S+)\)/;

// How places of a prepared mesh lead back to the file's own, by its first line; null where they
// are these.
function scaleOf(text) {
  const found = SCALED.exec(text);
  if (found === null) return null;
  const [extent, parts, ...middle] = found.slice(1).map(Number);
  return { unit: extent / parts, middle };
}
