// What the module made, and the fault of a text of which it made nothing.
import { Fault, STATUS, WORDS, check } from "./faults.mjs";

export const MADE = 8;   // bytes
export const FAULT = 16; // bytes
const PLACE_OF_FAULT = 8;

/** @typedef {import("./memory.mjs").Memory} Memory */

/**
 * Throws what a status says, and the fault that is told beside it.
 * @param {Memory} memory
 * @param {number} status
 * @param {number} fault
 * @param {import("./faults.mjs").Words} words
 */
export function checkMade(memory, status, fault, words) {
  if (status === STATUS.FAULTY) {
    const place = memory.long(fault + PLACE_OF_FAULT);
    // (what a stream has is counted from 0)
    const isNone = place === 0 && words !== WORDS.OF_STREAM;
    throw new Fault(memory.number(fault), isNone ? null : place, words);
  }
  check(status);
}

/**
 * What was made.
 * @param {Memory} memory
 * @param {number} made
 * @returns {{ bytes: Uint8Array, notes: Uint8Array }}
 */
export function copied(memory, made) {
  const { functions } = memory;
  const [length, notesLength] = memory.within([4, 4], (bytes, notes) => {
    check(functions.vdpm_made_length(made, bytes, notes));
    return [memory.number(bytes), memory.number(notes)];
  });
  return memory.within([length, notesLength], (bytes, notes) => {
    check(functions.vdpm_made_bytes(made, bytes, length));
    check(functions.vdpm_made_notes(made, notes, notesLength));
    return { bytes: memory.bytes(bytes, length), notes: memory.bytes(notes, notesLength) };
  });
}
