// The model that a page has in it, as tools/viewer/alone.py puts it there: packed by zlib, and in
// base64, the length of the head as four bytes, least first; the head as JSON, which says what is
// known of the model; its stream as a packed text; where it has colours, three bytes for each
// vertex; and where it has a texture, where each node is in the pictures, u and v in 65,536ths, the
// picture of each face, a byte each, and the pictures that there are.
import { unpacked } from "../page/packed.js";

const sum = (numbers) => numbers.reduce((a, b) => a + b, 0);

export async function carried() {
  const bytes = await unpacked(document.getElementById("model").textContent);
  const size = new DataView(bytes.buffer).getUint32(0, true), begin = 4 + size;
  const head = JSON.parse(new TextDecoder().decode(bytes.subarray(4, begin)));
  const { length, coloured, dress, pictures = [], ...known } = head, end = begin + length;
  const lengths = [...(dress?.lengths ?? []), ...pictures.map((picture) => picture.length)];
  const wornAt = bytes.length - sum(lengths), colours = coloured ? bytes.slice(end, wornAt) : null;
  const worn = dress && wornOf(bytes, wornAt, { lengths, pictures });
  return { packed: bytes.slice(begin, end), colours, worn, known };
}

function wornOf(bytes, at, { lengths, pictures }) {
  let from = at;
  const [spots, pages, ...drawn] = lengths.map((length) => {
    from += length;
    return bytes.slice(from - length, from);
  });
  const pictureOf = ({ length, ...told }, i) => ({ ...told, bytes: length > 0 ? drawn[i] : null });
  return { spots: new Int32Array(spots.buffer), pages, pictures: pictures.map(pictureOf) };
}
