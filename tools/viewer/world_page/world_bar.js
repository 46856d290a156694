// Bar and drawer as a world has them: what its engines can't tell is taken away, and that is said.
const part = (name) => document.getElementById(name);
const FIRST = 4; // of the slider of tolerances: 2 pixels
const LACKS = "You can't inspect a click or save a session here: each tile of a world has an "
  + "engine of its own.";
const COMPARED = "Show the finest level, in up to 1,000,000 triangles, right of a line that you "
  + "drag (B)";
const KEYS = [
  ["drag, arrows", "orbit"], ["right or Shift drag, Shift arrows", "pan"],
  ["wheel, two fingers, + and −", "zoom"], ["E, S, O", "wireframe, smooth, turntable"],
  ["1 2 3 4 5, D", "shading, which error"], ["U, C, L", "unlit, contours, hill shade"],
  ["Y, R, P", "other axis up, fit, picture"],
  ["B, G, F, H", "compare, geomorphs, freeze, this drawer"],
];

function named(kind, text) {
  const element = document.createElement(kind);
  element.textContent = text;
  return element;
}

export function asWorld({ name, proved }) {
  part("name").textContent = document.title = name;
  const said = proved ? LACKS : `Not proved on this machine. ${LACKS}`;
  part("notice").textContent = said;
  part("notice").hidden = false;
  for (const each of ["hollows", "picks", "draft"]) part(each).closest("label").hidden = true;
  part("beside").closest("label").title = COMPARED;
  part("beside").nextSibling.textContent = " Compare finest";
  part("level").hidden = true;
  part("save-flight").closest("fieldset").hidden = true;
  const own = document.querySelector("input[value=own]");
  own.disabled = false;
  own.nextElementSibling.textContent = "Tiles";
  own.parentElement.title = "Each tile in a colour of its own (3)";
  part("tolerance").value = FIRST;
  const list = document.querySelector("#drawer dl");
  list.replaceChildren(...KEYS.flatMap(([key, does]) => [named("dt", key), named("dd", does)]));
}
