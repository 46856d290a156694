// Numbers that come behind replies and aren't read from lines: tools/viewer/arrays.py has the form.

// The first line of a script to which a frame or a change may be told so.
export const ARRAYS = "arrays\n";

// What stands in a message behind its replies, which end there, as views of it; null where nothing
// does. Nodes and faces have numbers below 2 to the power of 31.
export function arraysOf(message, end) {
  const begin = 4 * Math.ceil(end / 4);
  if (begin >= message.byteLength) return null;
  const counts = new Uint32Array(message, begin, 4);
  let at = begin + counts.byteLength;
  const taken = (count) => {
    const numbers = new Int32Array(message, at, count);
    at += numbers.byteLength;
    return numbers;
  };
  const [facesGone, nodesGone, nodesCome, facesPut] = [...counts].map(taken);
  return { facesGone, nodesGone, nodesCome, facesPut, corners: taken(3 * facesPut.length) };
}
