// The camera of a view line. Its planes are the sides of a picture, as camera.js writes them and
// tools/flight.py; a view without such planes is taken to look at the mesh's middle.
import { Camera, focalOf } from "./camera.js";
import { dot, plus, scaled, unit } from "./matrices.js";

const ALIKE = 0.999; // the cosine of two directions that count as one
const FLAT = 0.01;   // how little of an axis points up where it counts as level

// The axis that points up where the picture is level: across it the axis has nothing, and upwards
// something. Null where both may be it, as where one looks along an axis, or none.
function uprightOf(across, up) {
  const isUp = (axis) => Math.abs(across[axis]) < FLAT && up[axis] > 0;
  return isUp(1) === isUp(2) ? null : isUp(1) ? "y" : "z";
}

// Where a view looks: `back` is the direction from what is seen to the eye. `opening` is the focal
// length for a picture of height 1. `upright` is null where it can't be told.
function lookOf(line, middle) {
  const [word, ...numbers] = line.split(" "), values = numbers.map(Number);
  const eye = values.slice(0, 3), planes = values.slice(word.endsWith("s") ? 6 : 5);
  const [left, right, lower, upper] = [0, 4, 8, 12].map((at) => planes.slice(at, at + 3));
  if (planes.length >= 16) {
    const forward = unit(plus(left, 1, right)), across = unit(plus(left, -1, right));
    if (dot(forward, unit(plus(lower, 1, upper))) > ALIKE) {
      const up = unit(plus(lower, -1, upper)), opening = dot(lower, up) / dot(lower, forward) / 2;
      return { eye, back: scaled(-1, forward), upright: uprightOf(across, up), opening };
    }
  }
  return { eye, back: unit(plus(eye, -1, middle)), upright: null, opening: focalOf(1000) / 1000 };
}

// Where the views of a flight look; null for a frame without a view. Where a view doesn't tell
// which axis is up it is that of the one before, so that no picture turns over on the way.
export function looksOf(lines, middle) {
  const looks = lines.map((line) => (line === "" ? null : lookOf(line, middle)));
  let upright = looks.find((look) => look?.upright)?.upright ?? "z";
  for (const look of looks) {
    if (look === null) continue;
    upright = look.upright ?? upright;
    look.upright = upright;
  }
  return looks;
}

// The same as a camera that can be turned round what it looks at.
export function cameraOf({ eye, back, upright }, middle, radius) {
  const distance = Math.max(radius / 100, dot(plus(eye, -1, middle), back));
  const [x, y, z] = upright === "y" ? [back[0], -back[2], back[1]] : back;
  return new Camera({
    target: plus(eye, -distance, back), distance, upright,
    yaw: Math.atan2(x, -y), pitch: Math.asin(Math.max(-1, Math.min(1, z))),
  });
}
