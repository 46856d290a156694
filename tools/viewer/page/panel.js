// The settings of the bar and the drawer, and what is told there.
import { coordinate } from "./coordinate.js";

const part = (name) => document.getElementById(name);
export const counted = (n) => n.toLocaleString("en");
const pixels = (n) => `${n < 10 ? Number(n.toFixed(2)) : Math.round(n)} px`;
const milliseconds = (n) => (n < 10 ? n.toFixed(1) : n.toFixed(0));
const kilobytes = (n) => `${counted(Math.round(n / 1024))} kB`;
export const ALL_MOVES = 4294967295;
const SHORT = 2500, LONG = 8000; // milliseconds for which something is told

// Who wants little motion gets no glides and no flights of the camera, if they aren't asked for.
export const isStill = matchMedia("(prefers-reduced-motion: reduce)");

// A budget of the command line, which the slider may be unable to show; null once it was moved.
const told = { budget: null };
const chosen = (name) => document.querySelector(`input[name=${name}]:checked`).value;
const budgetOf = (slider) => (slider.value === slider.max ? ALL_MOVES : 2 ** slider.value);

// What the settings say now. Tolerances go in steps of a quarter of a doubling.
export function settings() {
  const tolerance = 2 ** (part("tolerance").valueAsNumber / 4);
  const isOn = (name) => part(name).checked;
  return {
    tolerance,
    outline: tolerance / 2 ** (part("outline").valueAsNumber / 2),
    draft: 2 ** (part("draft").valueAsNumber / 4),
    judged: chosen("judged"),
    budget: told.budget ?? budgetOf(part("budget")),
    colour: chosen("colour"),
    upright: chosen("up"),
    smooth: isOn("smooth"), edges: isOn("edges"), glide: isOn("glide"), freeze: isOn("freeze"),
    round: isOn("round"), beside: isOn("beside"), picks: isOn("picks"),
    contours: isOn("contours"), hillShade: isOn("hillshade"), hollows: isOn("hollows"),
    unlit: isOn("unlit"),
    exaggeration: part("exaggeration").valueAsNumber,
  };
}

// What a tolerance is a tolerance of.
const JUDGED_SAID = {
  deviation: "How far the surface may be off, as it is seen. Flat ground stays coarse.",
  distance: "How far each vertex may be from the one that stands for it, as it is seen. Flat "
    + "ground is refined too.",
};

export function saySettings(now) {
  part("judged-said").textContent = JUDGED_SAID[now.judged];
  part("tolerance-said").textContent = pixels(now.tolerance);
  part("outline-said").textContent = now.outline < now.tolerance ? pixels(now.outline) : "the same";
  part("draft-said").textContent = now.draft > 1 ? pixels(now.tolerance * now.draft) : "the same";
  const { exaggeration: times } = now;
  part("exaggeration-said").textContent = times === 1 ? "none" : `${times} times`;
  part("budget-said").textContent = now.budget === ALL_MOVES ? "all" : counted(now.budget);
}

// What of a file isn't shown: what `prepare` says that it ignored, or pictures that aren't there.
const DROPPED = [[/texture/, "textures"], [/material/, "materials"], [/PLY/, "vertex colours"]];
function droppedOf(notes, textures) {
  if (textures) return [...new Set(textures.map(({ missing }) => missing))].filter(Boolean);
  const said = notes.filter((note) => note.includes("ignored")).join();
  return DROPPED.filter(([looks]) => looks.test(said)).map(([, name]) => name);
}

// What is known of the model before anything is drawn.
export function sayModel({ notes = [], ...about }, { upright }) {
  const { name, proved, prepared, coloured, budget, engine, textures } = about;
  const dropped = droppedOf(notes, textures);
  document.querySelector(`input[name=up][value=${upright}]`).checked = true;
  part("name").textContent = name;
  document.title = name;
  const notices = engine ? [engine] : proved ? [] : ["not proved on this machine"];
  if (prepared) notices.push("rounded and repaired by prepare");
  if (dropped.length > 0) {
    const said = `Not shown: ${dropped.join(" and ")} of the file`;
    notices.push(said);
    tell(said, LONG);
  }
  part("notice").textContent = notices.join(" · ");
  part("notice").hidden = notices.length === 0;
  document.querySelector("input[value=own]").disabled = !coloured;
  if (coloured) choose("own")();
  if (isStill.matches) part("glide").checked = false;
  told.budget = budget;
  part("budget").value = Math.round(Math.log2(Math.max(1, budget)));
}

// How many bytes of the model are there, of how many that come, or null where nobody knows; and
// nothing once none is awaited.
export function sayComing(size, length) {
  part("come").textContent = length === null ? `${kilobytes(size)} so far`
    : `${counted(Math.round(size / 1024))} of ${kilobytes(length)}`;
  part("come").hidden = false;
}
export function hideComing() { part("come").hidden = true; }

// What makes use of the model as a whole is there when that is.
export function sayWhole(isWhole) {
  part("saves").hidden = !isWhole;
  part("beside").disabled = !isWhole;
}

// Calls `changed` with the name of a setting that was changed by hand.
export function watchPanel(changed, signal) {
  part("panel").addEventListener("input", ({ target }) => {
    if (target.id === "budget") told.budget = null;
    changed(target.id || target.name);
  }, { signal });
  part("panel").addEventListener("submit", (event) => event.preventDefault(), { signal });
}

// What each button does, by its name. A page may be without some of them.
export function watchButtons(acts, signal) {
  for (const [name, act] of Object.entries(acts)) {
    part(name)?.addEventListener("click", act, { signal });
  }
}

const press = (name) => () => part(name).click();
export const choose = (value) => () => document.querySelector(`input[value=${value}]`).click();
const other = (name) => () => {
  document.querySelector(`input[name=${name}]:not(:checked)`).click();
};

// The keys of switches and colours.
export const KEYS = {
  f: press("freeze"), e: press("edges"), s: press("smooth"), g: press("glide"), o: press("round"),
  b: press("beside"), y: other("up"), d: other("judged"),
  c: press("contours"), l: press("hillshade"), u: press("unlit"), v: press("hollows"),
  1: choose("stone"), 2: choose("depth"), 3: choose("own"), 4: choose("wire"), 5: choose("height"),
};

// What is shown, what it took, and how often it changes.
let said = "";
export function sayCounters({ shown, all, left, put, draw, pictures, fronts, mark }) {
  const { moves, times, changes: { nodesCome, nodesGone, facesCome, facesGone } } = shown;
  const rows = [
    ["vertices now", counted(shown.nodeCount)],
    ["splits, collapses", left > 0 ? `${counted(moves)}, ${counted(left)} left` : counted(moves)],
    ["vertices changed", `+${counted(nodesCome)}  −${counted(nodesGone)}`],
    ["triangles changed", `+${counted(facesCome)}  −${counted(facesGone)}`],
    ["refine, diff", `${milliseconds(times.view)}, ${milliseconds(times.text)} ms`],
    ["transfer", `${milliseconds(times.transfer)} ms, ${kilobytes(times.bytes)}`],
    ["decode, apply", `${milliseconds(times.read)}, ${milliseconds(times.take)} ms`],
    ["upload, draw", `${milliseconds(put)}, ${milliseconds(draw)} ms`],
    ["frames a second", pictures > 2 ? `${pictures}, ${fronts} updates` : "idle"],
  ];
  const now = JSON.stringify([shown.faceCount, rows, mark]);
  if (now === said) return; // so that nothing is laid out and painted again
  said = now;
  part("faces-said").textContent = counted(shown.faceCount);
  part("all-said").textContent = `of ${counted(all)} triangles`;
  part("rows").replaceChildren(...rows.map(rowOf));
  part("mark").textContent = mark;
  part("mark").hidden = mark === "";
}

// What the program tells of the front, in lengths of the file that was built from.
export function sayLevel([nodes, faces, split, error, deviation], { scale }, { digits }) {
  const length = (units) =>
    (scale ? Number((scale.unit * units).toPrecision(6)) : coordinate(units, digits));
  const rows = [
    ["vertices", counted(nodes)],
    ["triangles", counted(faces)],
    ["vertex splits", counted(split)],
    ["max vertex error", length(error)],
    ["max surface error", length(deviation)],
  ];
  part("level").replaceChildren(...rows.map(rowOf));
}

function made(kind, inside) {
  const element = document.createElement(kind);
  element.append(...inside);
  return element;
}

export const rowOf = (cells) => made("tr", cells.map((cell) => made("td", [cell])));

// What is said of the full model right of the line, by whether it was asked for.
export const INPUT_SAID = {
  unasked: "", asked: "the full model is on its way", shown: "full model",
};

// The line between two pictures, if there is one, and what is said of that right of it.
export function sayHalves(beside, right) {
  part("halves").hidden = !beside;
  part("right-half").textContent = right;
}

export function sayPicked(text) {
  part("picked").hidden = text === null;
  part("picked").textContent = text ?? "";
}

// Tells something for a moment.
let untold = 0;
export function tell(text, milliseconds = SHORT) {
  part("told").textContent = text;
  part("told").hidden = false;
  clearTimeout(untold);
  untold = setTimeout(() => { part("told").hidden = true; }, milliseconds);
}
