// Tells which steps are done from a file to its picture. While it simplifies the engine tells what
// is done, and its pace tells what is left. How long another step takes is guessed from the number
// of faces, and each step that is over shows how fast this machine is.
import { hideDoing, sayDoing } from "../page/doing.js";
import { Pace } from "./pace.js";

const STEPS = [
  ["read", "Reading the file"], ["prepare", "Preparing the mesh"],
  ["simplify", "Simplifying"], ["open", "Opening"], ["draw", "Drawing"],
];
// Microseconds that each step takes for a face, as measured.
const A_FACE = { read: 0.5, prepare: 5, simplify: 20, open: 5, draw: 5 };
const LEAST = 0.02;    // seconds of a step
const MEASURED = 0.2;  // seconds of steps that are over, from which a machine's speed can be told
const LAST = 0.05;     // of a step that takes longer than was guessed, what counts as still left
const BEFORE = 0.2;    // of simplifying, what comes before its first collapse
const SAY_AGAIN = 100; // milliseconds

const sum = (numbers) => numbers.reduce((a, b) => a + b, 0);

export class Steps {
  constructor(name) {
    Object.assign(this, { name, begun: performance.now(), at: -1, times: {}, faces: null });
    this.pace = null;
    this.timer = setInterval(() => this.say(), SAY_AGAIN);
  }

  // A step that isn't needed is passed over; one that is tried again may come after a later one.
  // Once all have ended, none begins.
  begin(step) {
    if (this.timer === null) return;
    const now = performance.now();
    if (this.at >= 0) this.took(STEPS[this.at][0], now - this.since);
    const at = STEPS.findIndex(([name]) => name === step);
    Object.assign(this, { at, since: now, pace: null });
    this.say();
  }

  // How many faces the file has, which is known once it was looked through.
  counts(faces) { this.faces = faces; }

  // Which share of the step is done, from 0 to 1.
  tells(share) {
    if (this.timer === null) return;
    const now = performance.now();
    this.pace ??= new Pace(now);
    this.pace.tells(share, now);
    this.say();
  }

  took(step, milliseconds) { this.times[step] = (this.times[step] ?? 0) + milliseconds; }

  // The seconds of each step: those of steps that are over are known.
  guesses() {
    const plain = STEPS.map(([step]) => 1e-6 * A_FACE[step] * this.faces + LEAST);
    const over = STEPS.map(([step], i) => (i < this.at ? (this.times[step] ?? 0) / 1000 : null));
    const spent = sum(over), wanted = sum(plain.filter((_, i) => over[i] !== null));
    const slowness = spent > MEASURED ? spent / wanted : 1;
    return plain.map((guess, i) => over[i] ?? slowness * guess);
  }

  say() {
    const { at, faces, name, pace } = this;
    const state = (i) => (i < at ? "done" : i === at ? "now" : "");
    const told = { name, steps: STEPS.map(([, said], i) => [said, state(i)]) };
    if (faces === null || at < 0) {
      sayDoing({ ...told, share: null, left: null });
      return;
    }
    const guesses = this.guesses(), own = guesses[at], simplified = pace && pace.share;
    const { done, rest } = this.ofStep(own);
    const share = (sum(guesses.slice(0, at)) + done * own) / sum(guesses);
    const left = rest === null ? null : rest + sum(guesses.slice(at + 1));
    sayDoing({ ...told, share, left, simplified });
  }

  // Which share of the step is done and how many seconds are left of it, where these can be told.
  ofStep(own) {
    const { pace } = this;
    if (pace === null) return this.guessed(own);
    const before = pace.share > 0 ? 1 : this.guessed(BEFORE * own).done;
    const done = BEFORE * before + (1 - BEFORE) * pace.share;
    return { done, rest: pace.left(performance.now()) };
  }

  // The same, if the step takes so many seconds.
  guessed(own) {
    const spent = (performance.now() - this.since) / 1000, rest = Math.max(own - spent, LAST * own);
    return { done: 1 - rest / own, rest: spent < own ? rest : null };
  }

  end() {
    if (this.timer === null) return;
    this.begin("");
    clearInterval(this.timer);
    hideDoing();
    this.timer = null;
    this.times.all = performance.now() - this.begun;
  }
}
