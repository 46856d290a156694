// Does cases by the module, and compares bytes and faults with what they store:
//
//     node tools/wasm/cases.mjs MODULE CASES
//
// CASES is the JSON that told_cases.py tells. The last line is `N passed, M failed`.
import { createHash } from "node:crypto";
import { readFileSync } from "node:fs";

import { Fault, Vdpm } from "./vdpm.mjs";

/**
 * @typedef {{ output: Buffer, fault: (number | null)[] | string | null }} Came what came of a case
 *
 * @typedef {object} Told a case, its bytes in base 64
 * @property {string} name
 * @property {"open" | "build" | "simplify" | "prepare" | "pack" | "unpack" |
 *     "unpackFirst"} function
 * @property {{ faces?: number, digits?: number, keepBorder?: boolean, size?: number,
 *     budget?: number, records?: number }} asked
 * @property {number} length how long the stream before a script is
 * @property {string} given
 * @property {string | null} output
 * @property {string | null} digest of the output, where it isn't stored
 * @property {string | null} notes
 * @property {Came["fault"]} fault
 */

const [moduleName, casesName] = process.argv.slice(2);
const LF = 10, QUIT = "q";
const vdpm = await Vdpm.load(readFileSync(moduleName));

const bytesOf = (/** @type {string} */ text) => Buffer.from(text, "base64");

/** The lines of a script; what follows the last LF is one where there is something.
 * @param {Buffer} script @returns {Buffer[]} */
function linesOf(script) {
  const lines = [];
  for (let at = 0; at < script.length;) {
    const end = script.indexOf(LF, at), to = end < 0 ? script.length : end;
    lines.push(script.subarray(at, to));
    at = to + 1;
  }
  return lines;
}

/** The replies of a script up to its end, its first fault or a line `q`.
 * @param {import("./vdpm.mjs").Session} session @param {Buffer[]} lines @returns {Came} */
function played(session, lines) {
  const replies = [];
  for (const [i, line] of lines.entries()) {
    try {
      replies.push(session.line(line));
    } catch (fault) {
      if (!(fault instanceof Fault)) throw fault;
      return { output: Buffer.concat(replies), fault: [fault.number, i + 1] };
    }
    if (line.toString() === QUIT) break;
  }
  return { output: Buffer.concat(replies), fault: null };
}

/** @param {Told} told @param {Buffer} given @returns {Came} */
function done({ function: name, asked, length, notes }, given) {
  if (name === "open") {
    const session = vdpm.open(given.subarray(0, length), asked);
    try {
      return played(session, linesOf(given.subarray(length)));
    } finally {
      session.close();
    }
  }
  if (name === "pack" || name === "unpack") {
    return { output: Buffer.from(vdpm[name](given)), fault: null };
  }
  if (name === "unpackFirst") {
    return { output: Buffer.from(vdpm.unpackFirst(given, Number(asked.records))), fault: null };
  }
  if (name !== "prepare") return { output: Buffer.from(vdpm[name](given, asked)), fault: null };
  const made = vdpm.prepare(given, asked);
  const said = made.notes.map((line) => `${line}\n`).join("");
  const same = notes === null || Buffer.from(said).equals(bytesOf(notes));
  return { output: Buffer.from(made.text), fault: same ? null : "other notes" };
}

/** What is wrong with what came of a case; null where nothing is.
 * @param {Told} told @returns {string | null} */
function wrong(told) {
  let got;
  try {
    got = done(told, bytesOf(told.given));
  } catch (fault) {
    if (!(fault instanceof Fault)) return `threw ${fault instanceof Error ? fault.stack : fault}`;
    got = { output: Buffer.alloc(0), fault: [fault.number, fault.place] };
  }
  if (JSON.stringify(got.fault) !== JSON.stringify(told.fault)) {
    return `fault ${JSON.stringify(got.fault)}, wanted ${JSON.stringify(told.fault)}`;
  }
  const digest = createHash("sha256").update(got.output).digest("hex");
  const same = told.output === null ? digest === told.digest
    : got.output.equals(bytesOf(told.output));
  return same ? null : `other bytes: ${got.output.length}`;
}

let passed = 0, failed = 0;
for (const told of JSON.parse(readFileSync(casesName, "utf8"))) {
  const reason = wrong(told);
  if (reason === null) passed += 1;
  else console.log(`FAILED ${told.name}: ${reason}`);
  failed += Number(reason !== null);
}
console.log(`${passed} passed, ${failed} failed`);
process.exitCode = passed > 0 && failed === 0 ? 0 : 1;
