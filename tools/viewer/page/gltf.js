// glTF 2.0 in one file, as tools/lods/gltf.py writes it: a mesh with its normals, and with the
// colours of its vertices or else the pictures of its texture.
import { unit } from "./matrices.js";

const MAGIC = 0x46546c67, JSON_PART = 0x4e4f534a, BINARY_PART = 0x004e4942; // glTF, JSON, BIN
const FLOAT = 5126, BYTE = 5121, UNSIGNED = 5125, VERTICES = 34962, INDICES = 34963, TRIANGLES = 4;
const KINDS = ["image/png", "image/jpeg"]; // of pictures that all readers know

const whole = (size) => 4 * Math.ceil(size / 4);

// What a file tells and what stands behind it, as far as they are known.
class Parts {
  constructor() { Object.assign(this, { views: [], accessors: [], data: [], size: 0 }); }

  view(bytes, told = {}) {
    const { byteLength } = bytes;
    this.views.push({ buffer: 0, byteOffset: this.size, byteLength, ...told });
    this.data.push({ at: this.size, bytes });
    this.size += whole(byteLength);
    return this.views.length - 1;
  }

  array({ buffer, byteOffset, byteLength }, target, told) {
    const bufferView = this.view(new Uint8Array(buffer, byteOffset, byteLength), { target });
    this.accessors.push({ bufferView, ...told });
    return this.accessors.length - 1;
  }

  vertices(array, parts, told = {}) {
    const kind = { componentType: FLOAT, count: array.length / parts, type: `VEC${parts}` };
    return this.array(array, VERTICES, { ...kind, ...told });
  }

  corners(array) {
    const kind = { componentType: UNSIGNED, count: array.length, type: "SCALAR" };
    return this.array(array, INDICES, kind);
  }

  file(document) {
    const { accessors, views: bufferViews, size } = this;
    const text = { ...document, accessors, bufferViews, buffers: [{ byteLength: size }] };
    const head = new TextEncoder().encode(JSON.stringify(text)), room = whole(head.length);
    const bytes = new Uint8Array(28 + room + size).fill(32, 20, 20 + room);
    const view = new DataView(bytes.buffer);
    const words = [MAGIC, 2, bytes.length, room, JSON_PART];
    words.forEach((word, i) => view.setUint32(4 * i, word, true));
    bytes.set(head, 20);
    [size, BINARY_PART].forEach((word, i) => view.setUint32(20 + room + 4 * i, word, true));
    for (const { at, bytes: part } of this.data) bytes.set(part, 28 + room + at);
    return bytes;
  }
}

// The normal at each vertex: those of its triangles together, the larger with more weight.
function normalsOf(points, corners) {
  const sums = new Float64Array(points.length), normals = new Float32Array(points.length);
  const side = (p, q, axis) => points[3 * q + axis] - points[3 * p + axis];
  for (let i = 0; i < corners.length; i += 3) {
    const [a, b, c] = corners.subarray(i, i + 3);
    for (let axis = 0; axis < 3; axis++) {
      const [y, z] = [(axis + 1) % 3, (axis + 2) % 3];
      const part = side(a, b, y) * side(a, c, z) - side(a, b, z) * side(a, c, y);
      for (const corner of [a, b, c]) sums[3 * corner + axis] += part;
    }
  }
  for (let i = 0; i < sums.length; i += 3) {
    const normal = unit([sums[i], sums[i + 1], sums[i + 2]]);
    normals.set(normal.some((c) => c !== 0) ? normal : [0, 0, 1], i);
  }
  return normals;
}

// A part of a colour, from 0 to 1, as light.
const linear = (part) => (part <= 0.04045 ? part / 12.92 : ((part + 0.055) / 1.055) ** 2.4);

// Colours of three bytes as parts of light, four bytes each.
function lightOf(colours) {
  const light = new Uint8Array((4 * colours.length) / 3).fill(255);
  for (let i = 0; i < colours.length; i++) {
    light[4 * Math.floor(i / 3) + (i % 3)] = Math.round(255 * linear(colours[i] / 255));
  }
  return light;
}

function boxOf(points) {
  const min = [Infinity, Infinity, Infinity], max = [-Infinity, -Infinity, -Infinity];
  points.forEach((c, i) => {
    min[i % 3] = Math.min(min[i % 3], c);
    max[i % 3] = Math.max(max[i % 3], c);
  });
  return { min, max };
}

// Places stand from the middle, where the node is put, so that coordinates far from 0 lose nothing
// in numbers of 24 bits.
function attributesOf(parts, { places, corners, colours, grid, dress }) {
  const points = Float32Array.from(places, (c) => grid.unit * c);
  const found = {
    POSITION: parts.vertices(points, 3, boxOf(points)),
    NORMAL: parts.vertices(normalsOf(points, corners), 3),
  };
  if (dress) found.TEXCOORD_0 = parts.vertices(dress.spots.map((c, i) => (i % 2 ? 1 - c : c)), 2);
  else if (colours) {
    const kind = { componentType: BYTE, normalized: true, count: points.length / 3, type: "VEC4" };
    found.COLOR_0 = parts.array(lightOf(colours), VERTICES, kind);
  }
  return found;
}

// The triangles of each page that has some, with the number of its material.
function primitivesOf(parts, { corners, dress }) {
  if (!dress) return [{ indices: parts.corners(corners) }];
  return dress.pictures.flatMap((_, material) => {
    const own = corners.filter((_corner, i) => dress.pages[Math.floor(i / 3)] === material);
    return own.length > 0 ? [{ indices: parts.corners(own), material }] : [];
  });
}

function texturesOf(parts, { dress }) {
  if (!dress) return {};
  const images = [], materials = dress.pictures.map(({ colour, kind, bytes }) => {
    const plain = { metallicFactor: 0, roughnessFactor: 1 };
    if (KINDS.includes(kind)) {
      images.push({ bufferView: parts.view(bytes), mimeType: kind });
      plain.baseColorTexture = { index: images.length - 1 };
    } else {
      plain.baseColorFactor = [...colour.map(linear), 1];
    }
    return { pbrMetallicRoughness: plain, doubleSided: true };
  });
  if (images.length === 0) return { materials };
  const textures = images.map((_, source) => ({ sampler: 0, source }));
  return { materials, images, samplers: [{}], textures };
}

export function glb(level) {
  const parts = new Parts(), attributes = attributesOf(parts, level);
  const primitives = primitivesOf(parts, level).map((told) => (
    { attributes, mode: TRIANGLES, ...told }));
  return parts.file({
    asset: { version: "2.0", generator: "vdpm" }, scene: 0, scenes: [{ nodes: [0] }],
    nodes: [{ mesh: 0, translation: level.grid.middle }], meshes: [{ primitives }],
    ...texturesOf(parts, level),
  });
}
