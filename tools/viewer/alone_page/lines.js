// The lines of an OBJ text, as tools/mesh_files/obj.py parts them: comments end a line, and a
// backslash goes on with the next one.
const LF = 10, BLANK = 32, TAB = 9, HASH = 35, BACKSLASH = 92, CR = 13;
const WORDS = ["v", "vt", "f", "usemtl", "mtllib"];
const decoder = new TextDecoder();

// Whether the line that begins here has one of some words first, behind blanks. (Most lines that
// are wanted begin with a few letters, and others aren't decoded.)
function wordAt(bytes, at) {
  let from = at;
  while (bytes[from] === BLANK || bytes[from] === TAB) from++;
  let end = from;
  while (end < from + 7 && bytes[end] > BLANK) end++;
  return String.fromCharCode(...bytes.subarray(from, end));
}

// Where the line ends that begins here: before its LF.
function endOf(bytes, at) {
  const found = bytes.indexOf(LF, at);
  return found < 0 ? bytes.length : found;
}

// Whether the next line goes on with the one that begins and ends here. A comment never does.
function isContinued(bytes, begin, end) {
  const last = bytes[end - 1] === CR ? end - 2 : end - 1;
  return last >= begin && bytes[last] === BACKSLASH && !bytes.subarray(begin, end).includes(HASH);
}

// Calls `take` with the first word and all fields of each line that begins with one of `words`.
export function eachFields(bytes, take, words = WORDS) {
  for (let at = 0; at < bytes.length;) {
    const word = wordAt(bytes, at), begin = at;
    let end = endOf(bytes, at);
    while (end < bytes.length && isContinued(bytes, at, end)) {
      at = end + 1;
      end = endOf(bytes, at);
    }
    at = end + 1;
    if (!words.includes(word)) continue;
    const text = decoder.decode(bytes.subarray(begin, end)).replace(/#[^\n]*/g, "");
    take(word, text.replace(/\\\r?\n/g, " ").trim().split(/\s+/));
  }
}
