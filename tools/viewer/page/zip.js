// A ZIP file, whose parts stand in it as they are.
const LOCAL = 0x04034b50, CENTRAL = 0x02014b50, END = 0x06054b50; // how its records begin
const VERSION = 20, UTF8 = 0x0800, FIRST_DAY = 0x21; // 1 January 1980: none is told
const POLYNOMIAL = 0xedb88320;

const TABLE = Uint32Array.from({ length: 256 }, (_, byte) => {
  let sum = byte;
  for (let bit = 0; bit < 8; bit++) sum = sum & 1 ? (sum >>> 1) ^ POLYNOMIAL : sum >>> 1;
  return sum;
});

function sumOf(bytes) {
  let sum = 0xffffffff;
  for (let i = 0; i < bytes.length; i++) sum = TABLE[(sum ^ bytes[i]) & 255] ^ (sum >>> 8);
  return (sum ^ 0xffffffff) >>> 0;
}

// Numbers of two or four bytes, least first: [2, 7] is a 7 of two.
function record(...numbers) {
  const bytes = new Uint8Array(numbers.reduce((sum, [size]) => sum + size, 0));
  const view = new DataView(bytes.buffer);
  let at = 0;
  for (const [size, number] of numbers) {
    if (size === 2) view.setUint16(at, number, true);
    else view.setUint32(at, number, true);
    at += size;
  }
  return bytes;
}

function joined(parts) {
  const all = new Uint8Array(parts.reduce((size, { length }) => size + length, 0));
  let at = 0;
  for (const part of parts) {
    all.set(part, at);
    at += part.length;
  }
  return all;
}

// `files` have a name and bytes.
export function zipped(files) {
  const parts = [], list = [];
  let at = 0;
  for (const { name, bytes } of files) {
    const told = new TextEncoder().encode(name), { length } = bytes;
    const common = [
      [2, VERSION], [2, UTF8], [2, 0], [2, 0], [2, FIRST_DAY], [4, sumOf(bytes)], [4, length],
      [4, length], [2, told.length], [2, 0],
    ];
    parts.push(record([4, LOCAL], ...common), told, bytes);
    const rest = [[2, 0], [2, 0], [2, 0], [4, 0], [4, at]];
    list.push(record([4, CENTRAL], [2, VERSION], ...common, ...rest), told);
    at += 30 + told.length + length;
  }
  const size = list.reduce((sum, { length }) => sum + length, 0), { length: count } = files;
  const end = [[4, END], [2, 0], [2, 0], [2, count], [2, count], [4, size], [4, at], [2, 0]];
  return joined([...parts, ...list, record(...end)]);
}
