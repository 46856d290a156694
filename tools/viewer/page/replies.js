// Reads the replies of `vdpm live` from their bytes (docs/FORMATS.md), or those of the library,
// which has the numbers of a frame or a change beside its first line (tools/viewer/arrays.py).

const LF = 10, MINUS = 45, ZERO = 48;
const END = "end\n";

// Numbers of which it isn't known how many come.
class Pile {
  constructor() {
    this.room = new Int32Array(256);
    this.size = 0;
  }

  add(number) {
    if (this.size === this.room.length) {
      const { room } = this;
      this.room = new Int32Array(2 * room.length);
      this.room.set(room);
    }
    this.room[this.size++] = number;
  }

  get all() { return this.room.subarray(0, this.size); }
}

export class Replies {
  // `arrays` has the numbers of the last frame or change, or is null, and they stand in the text.
  constructor(bytes, arrays = null) {
    Object.assign(this, { bytes, arrays, at: 0 });
  }

  // The next reply: its words, and the numbers of a frame or a change too; null at the end.
  next() {
    if (this.at >= this.bytes.length) return null;
    const words = this.line().split(" "), [word, ...counts] = words;
    if (word === "frame") return { words, frame: this.frame(...counts.map(Number)) };
    if (word === "change") return { words, change: this.change(...counts.map(Number)) };
    return { words };
  }

  line() {
    const end = this.bytes.indexOf(LF, this.at);
    const text = new TextDecoder().decode(this.bytes.subarray(this.at, end));
    this.at = end + 1;
    return text;
  }

  // The numbers of nodes and of faces, three coordinates for each node, and three nodes for each
  // face.
  frame(nodeCount, faceCount) {
    if (this.arrays !== null) return frameOf(this.arrays);
    const nodes = new Int32Array(nodeCount), places = new Int32Array(3 * nodeCount);
    const faces = new Int32Array(faceCount), corners = new Int32Array(3 * faceCount);
    for (const [numbers, threes] of [[nodes, places], [faces, corners]]) {
      for (let i = 0; i < numbers.length; i++) this.line4(numbers, i, threes);
    }
    this.at += END.length;
    return { nodes, places, faces, corners };
  }

  // What is gone, and what comes but for the places of nodes, which are known.
  change(nodeCount, faceCount) {
    if (this.arrays !== null) return { nodeCount, faceCount, ...this.arrays };
    const [facesGone] = this.listed("-f ", 0), [nodesGone] = this.listed("-v ", 0);
    const [nodesCome] = this.listed("v ", 3), [facesPut, corners] = this.listed("f ", 3);
    this.at += END.length;
    return { nodeCount, faceCount, facesGone, nodesGone, nodesCome, facesPut, corners };
  }

  // The first numbers of the lines that begin with a word, as long as such lines come, and the
  // `more` that stand behind each.
  listed(word, more) {
    const { bytes } = this, first = word.charCodeAt(0), second = word.charCodeAt(1);
    const numbers = new Pile(), others = new Pile();
    while (bytes[this.at] === first && bytes[this.at + 1] === second) {
      this.at += word.length;
      numbers.add(this.number());
      for (let left = more; left > 0; left--) others.add(this.number());
    }
    return [numbers.all, others.all];
  }

  // The four numbers of a line, which stand after a letter and a blank.
  line4(numbers, i, threes) {
    this.at += 2;
    numbers[i] = this.number();
    for (let j = 3 * i; j < 3 * i + 3; j++) threes[j] = this.number();
  }

  // The next number, and what ends it is passed over.
  number() {
    const { bytes } = this;
    let { at } = this, byte = bytes[at++], number = 0;
    const negative = byte === MINUS;
    if (negative) byte = bytes[at++];
    do {
      number = 10 * number + byte - ZERO;
      byte = bytes[at++];
    } while (byte >= ZERO);
    this.at = at;
    return negative ? -number : number;
  }
}

// A frame is a change of nothing to all that is shown.
const frameOf = ({ nodesCome: nodes, facesPut: faces, corners }) => ({ nodes, faces, corners });

// All replies of a text by their words, and its last frame and last change where it has any.
export function readReplies(bytes, arrays = null) {
  const text = new Replies(bytes, arrays), replies = [];
  let frame = null, change = null;
  for (let reply = text.next(); reply !== null; reply = text.next()) {
    replies.push(reply.words);
    frame = reply.frame ?? frame;
    change = reply.change ?? change;
  }
  return { replies, frame, change };
}
