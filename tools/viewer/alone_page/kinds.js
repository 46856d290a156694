// What a file is, by how it begins.
const STREAM = "VDPM", PACKED = "VDPK";

const OTHERS = [
  [/^glTF/, "a glTF file"], [/^\s*\{/, "a JSON file"], [/^PK/, "a ZIP file"],
  [/^(?:II\*|MM\0)/, "a TIFF image"], [/^\s*</, "an HTML or XML file"],
  [/^(?:Kaydara|; FBX)/, "an FBX file"], [/^(?:\xff\xd8|\x89PNG)/, "a picture"],
];
const LOOKED_AT = 4096;
const beginsWith = (bytes, word) => [...word].every((c, at) => bytes[at] === c.charCodeAt(0));
export const isStream = (bytes) => beginsWith(bytes, STREAM);
export const isPacked = (bytes) => beginsWith(bytes, PACKED);
// A binary STL file tells after its head how many triangles come, each in so many bytes.
const STL = { head: 80, count: 4, triangle: 50 };
const PLY_OR_STL = /^(?:ply\r?\n|solid\s)/;
const COLOURED = /^property \w+ red\s/m;

const beginning = (bytes, count) => String.fromCharCode(...bytes.subarray(0, count));

function isBinaryStl(bytes) {
  if (bytes.length <= STL.head + STL.count) return false;
  const count = new DataView(bytes.buffer, bytes.byteOffset).getUint32(STL.head, true);
  return bytes.length === STL.head + STL.count + STL.triangle * count;
}

// Whether a file is a PLY or STL file, which `prepare` reads.
export const isScan = (bytes) => PLY_OR_STL.test(beginning(bytes, 64)) || isBinaryStl(bytes);

// Whether it is a PLY file with colours, which `prepare` doesn't read.
export const hasColours = (bytes) => COLOURED.test(beginning(bytes, LOOKED_AT));

// Words for a file that is no text, or one of another kind; null of one that may be an OBJ file.
export function otherKind(bytes) {
  const text = beginning(bytes, 64), found = OTHERS.find(([looks]) => looks.test(text));
  if (found) return found[1];
  return bytes.subarray(0, LOOKED_AT).includes(0) ? "no text" : null;
}
