// The places and colours of a PLY file's vertices, as tools/mesh_files/ply.py finds them. What of
// the file is refused, `prepare` says.
const LF = 10, LONGEST_HEAD = 65536;
const TYPES = {
  char: "Int8", int8: "Int8", uchar: "Uint8", uint8: "Uint8", short: "Int16", int16: "Int16",
  ushort: "Uint16", uint16: "Uint16", int: "Int32", int32: "Int32", uint: "Uint32",
  uint32: "Uint32", float: "Float32", float32: "Float32", double: "Float64", float64: "Float64",
};
const COLOURS = ["red green blue", "r g b", "diffuse_red diffuse_green diffuse_blue"];
const latin = new TextDecoder("latin1");

const sizeOf = (type) => Number(type.match(/\d+/)[0]) / 8;

// What the head tells of vertices, where they come first and are numbers alone: { form, count,
// properties, begin }, the last where the first of them begins; null of others.
function headOf(bytes) {
  const text = latin.decode(bytes.subarray(0, LONGEST_HEAD)), end = text.indexOf("end_header");
  const begin = text.indexOf("\n", end) + 1;
  const form = /^format (\S+) 1\.0\s*$/m.exec(text)?.[1];
  const first = /^element vertex (\d+)\s*$([^]*?)^(?:element|end_header)/m.exec(text);
  if (end < 0 || begin === 0 || !form || !first || /^element/m.exec(text).index !== first.index) {
    return null;
  }
  const told = first[2].matchAll(/^property (\S+) (\S+)\s*$/gm);
  const properties = [...told].map(([, type, name]) => ({ name, type: TYPES[type] }));
  if (/^property list/m.test(first[2]) || properties.some(({ type }) => !type)) return null;
  return { form, count: Number(first[1]), properties, begin };
}

// By what a part of a colour is divided to be from 0 to 1.
const mostOf = (type) => (type.startsWith("Float") ? 1 : type === "Uint16" ? 65535 : 255);

// Calls `take` with the numbers of each vertex.
function eachOfText(bytes, { count, begin }, take) {
  for (let at = begin, i = 0; i < count && at < bytes.length;) {
    const found = bytes.indexOf(LF, at), end = found < 0 ? bytes.length : found;
    const line = latin.decode(bytes.subarray(at, end)).trim();
    if (line !== "") {
      take(line.split(/\s+/).map(Number), i);
      i++;
    }
    at = end + 1;
  }
}

function eachOfBytes(bytes, { form, count, properties, begin }, take) {
  const view = new DataView(bytes.buffer, bytes.byteOffset), isLeast = form.includes("little");
  const numbers = new Array(properties.length);
  let at = begin;
  for (let i = 0; i < count; i++) {
    for (let j = 0; j < properties.length; j++) {
      const { type } = properties[j], size = sizeOf(type);
      if (at + size > bytes.length) return;
      numbers[j] = view[`get${type}`](at, isLeast);
      at += size;
    }
    take(numbers, i);
  }
}

// Six numbers for each vertex, its place and its colour, with parts from 0 to 1; null where none
// has a colour.
export function colouredPly(bytes) {
  const head = headOf(bytes), names = head?.properties.map(({ name }) => name);
  const colour = head && COLOURS.map((some) => some.split(" "))
    .find((some) => some.every((name) => names.includes(name)));
  if (!colour) return null;
  const wanted = ["x", "y", "z", ...colour].map((name) => names.indexOf(name));
  const most = wanted.map((at, i) => (i < 3 ? 1 : mostOf(head.properties[at].type)));
  const found = new Float64Array(6 * head.count).fill(NaN);
  const each = head.form === "ascii" ? eachOfText : eachOfBytes;
  each(bytes, head, (numbers, vertex) => {
    for (let i = 0; i < 6; i++) {
      const part = numbers[wanted[i]] / most[i];
      found[6 * vertex + i] = i < 3 ? part : Math.max(0, Math.min(1, part));
    }
  });
  return found;
}
