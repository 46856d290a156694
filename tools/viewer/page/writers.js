// The mesh shown as the files of other programs, in the coordinates of the file that was opened, as
// tools/lods/written.py writes them: OBJ, PLY and GLB. A level has
//   places    three numbers for each vertex, in steps of a grid
//   corners   three places of vertices in that list for each triangle
//   colours   three bytes for each vertex, or null
//   grid      { unit, middle }: a coordinate is unit times the number, plus the middle's
//   dress     of a textured mesh { spots, pages, pictures }: u and v for each vertex, v from below;
//             for each triangle which of the pictures it has; and these, { colour, kind, bytes }
import { glb } from "./gltf.js";
import { zipped } from "./zip.js";

const TRIANGLE = 13; // bytes of a triangle in PLY

const textBytes = (text) => new TextEncoder().encode(text);
const at = (grid, places, i) => grid.unit * places[i] + grid.middle[i % 3];

// A level of a front's frame. Colours have four bytes for each node, and a dress its spots by node
// and its pages by face.
export function levelOf({ nodes, places, faces, corners }, colours, grid, dress = null) {
  const numbers = new Map([...nodes].map((node, i) => [node, i]));
  const own = colours && new Uint8Array(3 * nodes.length);
  nodes.forEach((node, i) => own?.set(colours.subarray(4 * node, 4 * node + 3), 3 * i));
  const worn = dress && { ...dress, ...wornOf(dress, nodes, faces) };
  const named = Uint32Array.from(corners, (n) => numbers.get(n));
  return { places, corners: named, colours: own, grid, dress: worn };
}

function wornOf({ spots: all, pages }, nodes, faces) {
  const spots = new Float32Array(2 * nodes.length);
  nodes.forEach((node, i) => spots.set(all.subarray(2 * node, 2 * node + 2), 2 * i));
  return { spots, pages: Uint8Array.from(faces, (face) => pages[face]) };
}

// How many decimals tell a coordinate: all of a grid of decimals, or a hundredth of a step.
function decimalsOf({ unit: step, middle }) {
  const exact = [0, 1, 2, 3, 4].find((digits) => step === 10 ** -digits);
  if (exact !== undefined && middle.every((c) => c === 0)) return exact;
  return Math.max(0, Math.ceil(-Math.log10(step)) + 2);
}

function vertexLines({ places, colours, grid }) {
  const decimals = decimalsOf(grid), lines = [];
  for (let i = 0; i < places.length; i += 3) {
    const place = [i, i + 1, i + 2].map((j) => at(grid, places, j).toFixed(decimals));
    const colour = colours ? [i, i + 1, i + 2].map((j) => (colours[j] / 255).toFixed(4)) : [];
    lines.push(`v ${[...place, ...colour].join(" ")}\n`);
  }
  return lines;
}

function obj(level) {
  const lines = vertexLines(level), { corners } = level;
  for (let i = 0; i < corners.length; i += 3) {
    lines.push(`f ${corners[i] + 1} ${corners[i + 1] + 1} ${corners[i + 2] + 1}\n`);
  }
  return textBytes(lines.join(""));
}

// The faces of one page, whose texture coordinates have the numbers of the vertices.
function facesOf({ corners, dress: { pages } }, page) {
  const lines = [], both = (i) => `${corners[i] + 1}/${corners[i] + 1}`;
  pages.forEach((own, face) => {
    if (own === page) lines.push(`f ${[0, 1, 2].map((i) => both(3 * face + i)).join(" ")}\n`);
  });
  return lines.length > 0 ? [`usemtl page-${page}\n`, ...lines] : [];
}

const ENDINGS = { "image/png": "png", "image/jpeg": "jpg", "image/webp": "webp" };

// An OBJ file with its materials and pictures, as one ZIP file.
function objInZip(level, name) {
  const { dress: { spots, pictures } } = level, files = [], told = [];
  const lines = [`mtllib ${name}.mtl\n`, ...vertexLines({ ...level, colours: null })];
  for (let i = 0; i < spots.length; i += 2) {
    lines.push(`vt ${spots[i].toFixed(6)} ${spots[i + 1].toFixed(6)}\n`);
  }
  pictures.forEach(({ colour, kind, bytes }, page) => {
    lines.push(...facesOf(level, page));
    told.push(`newmtl page-${page}\nKd ${colour.map((part) => part.toFixed(4)).join(" ")}\n`);
    if (!(kind in ENDINGS)) return;
    files.push({ name: `${name}-${page}.${ENDINGS[kind]}`, bytes });
    told.push(`map_Kd ${files.at(-1).name}\n`);
  });
  files.unshift({ name: `${name}.obj`, bytes: textBytes(lines.join("")) },
    { name: `${name}.mtl`, bytes: textBytes(told.join("")) });
  return zipped(files);
}

const properties = (kind, names) => [...names].map((name) => `property ${kind} ${name}`);

// PLY 1.0, binary, least byte first, with doubles.
function ply({ places, corners, colours, grid }) {
  const count = places.length / 3, faces = corners.length / 3, vertex = colours ? 27 : 24;
  const head = textBytes(["ply", "format binary_little_endian 1.0", `element vertex ${count}`,
    ...properties("double", "xyz"), ...properties("uchar", colours ? ["red", "green", "blue"] : []),
    `element face ${faces}`, "property list uchar int vertex_indices", "end_header", "",
  ].join("\n"));
  const bytes = new Uint8Array(head.length + vertex * count + TRIANGLE * faces);
  const view = new DataView(bytes.buffer);
  bytes.set(head);
  for (let i = 0; i < places.length; i++) {
    const to = head.length + vertex * Math.floor(i / 3);
    view.setFloat64(to + 8 * (i % 3), at(grid, places, i), true);
    if (colours) bytes[to + 24 + (i % 3)] = colours[i];
  }
  for (let i = 0; i < corners.length; i++) {
    const to = head.length + vertex * count + TRIANGLE * Math.floor(i / 3);
    bytes[to] = 3;
    view.setInt32(to + 1 + 4 * (i % 3), corners[i], true);
  }
  return bytes;
}

export const WRITERS = { obj, ply, glb };

// A level as a file of a format: { bytes, ending }. `name` is the file's without its ending.
export function fileOf(level, format, name) {
  if (format === "obj" && level.dress) return { bytes: objInZip(level, name), ending: "zip" };
  return { bytes: WRITERS[format](level), ending: format };
}
