// A link that brings a view back: where the camera is, and the settings that one sees.
import { Camera } from "./camera.js";

const part = (name) => document.getElementById(name);
const SWITCHES = ["edges", "smooth", "hollows", "unlit", "contours", "hillshade"];
const CHOICES = ["up", "colour", "judged"];
const chosen = (name) => document.querySelector(`input[name=${name}]:checked`).value;

// What stands behind the `#` of such a link.
export function toldOf({ target, distance, yaw, pitch }) {
  const words = new URLSearchParams({
    at: [...target, distance].join(" "),
    turned: [yaw, pitch].join(" "),
    detail: part("tolerance").value,
    exaggeration: part("exaggeration").value,
  });
  for (const name of CHOICES) words.set(name, chosen(name));
  for (const name of SWITCHES) words.set(name, part(name).checked ? "on" : "off");
  return String(words);
}

// Sets the settings as a link tells, and gives its camera; null where it tells of none.
export function restored(told) {
  const words = new URLSearchParams(told.replace(/^#/, ""));
  const numbers = (name) => (words.get(name) ?? "").split(" ").map(Number);
  const [x, y, z, distance] = numbers("at"), [yaw, pitch] = numbers("turned");
  if (![x, y, z, distance, yaw, pitch].every(Number.isFinite) || distance <= 0) return null;
  for (const name of CHOICES) {
    const values = [...document.getElementsByName(name)].filter(({ disabled }) => !disabled);
    for (const one of values) if (one.value === words.get(name)) one.checked = true;
  }
  for (const name of SWITCHES) part(name).checked = words.get(name) === "on";
  part("tolerance").value = words.get("detail") ?? part("tolerance").value;
  part("exaggeration").value = words.get("exaggeration") ?? 1;
  return new Camera({ target: [x, y, z], distance, yaw, pitch, upright: chosen("up") });
}
