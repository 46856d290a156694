// Why nothing is made, opened or done.

/** What the place of a fault counts, by its number: of a stream and a script line, and of a text.
 * @type {Record<number, string>} */
const OF_STREAM = {
  11: "face", 21: "version", 22: "byte", 24: "root", 25: "face", 26: "record", 27: "input",
  28: "record", 33: "digits",
};
/** @type {Record<number, string>} */
const OF_TEXT = {
  1: "line", 2: "line", 3: "line", 4: "line", 5: "line", 6: "line", 7: "line", 8: "line",
  9: "line", 10: "line", 11: "face", 12: "vertex",
};
/** Of a file that `prepare` reads, each fault has a line or no place; of an STL or a PLY file it
 * has a line of a text, or a byte.
 * @type {Record<number, string>} */
const OF_ANY_TEXT = { ...OF_TEXT, 11: "line", 13: "line" };
for (const [first, last] of [[21, 28], [41, 56]]) {
  for (let number = first; number <= last; number++) OF_ANY_TEXT[number] = "line or byte";
}

/** @typedef {Record<number, string>} Words */
export const WORDS = { OF_STREAM, OF_TEXT, OF_ANY_TEXT };

/** Bytes that are no stream, a line that can't be done, or a text of which nothing is made. The
 * message is the line that the programs say, without their name. */
export class Fault extends Error {
  /**
   * @param {number} number the fault, as docs/commands counts them
   * @param {number | null} place where it is; null where it has no place
   * @param {Words} words
   */
  constructor(number, place, words) {
    const word = words[number] ?? "";
    super(word && place !== null ? `fault ${number} ${word} ${place}` : `fault ${number}`);
    this.name = "Fault";
    this.number = number;
    this.word = word;
    this.place = word ? place : null;
  }
}

/** Memory was wanting: the page or the module has no more. */
export class OutOfMemory extends Error {
  constructor() {
    super("out of memory");
    this.name = "OutOfMemory";
  }
}

/** The session is closed. */
export class NotOpen extends Error {
  constructor() {
    super("the session is closed");
    this.name = "NotOpen";
  }
}

export const STATUS = {
  DONE: 0, FAULTY: 1, OUT_OF_RANGE: 2, NO_MEMORY: 5, NOT_SO: 6, NO_ROOM: 7, NO_SUCH: 8, QUIT: 9,
};

/**
 * Throws what a status says.
 * @param {number} status
 * @param {number | null} place
 */
export function check(status, place = null) {
  if (status === STATUS.DONE || status === STATUS.QUIT) return;
  if (status === STATUS.NO_MEMORY) throw new OutOfMemory();
  if (status === STATUS.NOT_SO) throw new NotOpen();
  if (status === STATUS.OUT_OF_RANGE) throw new RangeError("a number is out of its range");
  if (status === STATUS.NO_SUCH) throw new RangeError("there is no node or leaf of this number");
  throw new Fault(status, place, OF_STREAM);
}

/**
 * A whole number from 0 to `most`: the module would take what is left of another.
 * @param {number} most
 * @param {number} number
 * @param {string} name
 * @returns {number}
 */
export function numberTo(most, number, name) {
  if (!Number.isInteger(number) || number < 0 || number > most) {
    throw new RangeError(`${name} is ${number}, and no whole number from 0 to ${most}`);
  }
  return number;
}
