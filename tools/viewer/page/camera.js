// Where one looks from, and the script lines that tell it to the program (docs/FORMATS.md).
import { cross, dot, plus, scaled, unit } from "./matrices.js";
import { Stretch } from "./stretch.js";

const LARGEST_NORMAL = 32767;   // of the A, B and C of a plane, and of a ray's way
const LARGEST_PLACE = 16777215; // of an eye
const LARGEST_PIXELS = 65535;   // of a focal length and a tolerance
const FINEST = 16;              // parts of a pixel that a tolerance is told in
const OPENING = (45 * Math.PI) / 180;
const STEEPEST = 1.55;          // radians of pitch: just short of straight down

export const focalOf = (height) => Math.round(height / 2 / Math.tan(OPENING / 2));

const whole = (p) => p.map((c) => Math.round(c) || 0); // no -0, which a line can't have
const within = (p) => p.map((c) => Math.max(-LARGEST_PLACE, Math.min(LARGEST_PLACE, c)));

export class Camera {
  // Looks at `target` from `distance` away. `yaw` turns round the axis that is up, "z" or "y";
  // `pitch` goes up from the ground. All this is of the mesh as it is drawn, stretched.
  constructor({ target, distance, yaw, pitch, upright = "z", stretch = new Stretch(upright) }) {
    Object.assign(this, { target: [...target], distance, yaw, pitch, upright, stretch });
  }

  copy() { return new Camera(this); }

  axes() {
    const { yaw, pitch } = this;
    const turned = ([x, y, z]) => (this.upright === "y" ? [x, z, -y] : [x, y, z]);
    const back = turned([
      Math.cos(pitch) * Math.sin(yaw), -Math.cos(pitch) * Math.cos(yaw), Math.sin(pitch),
    ]);
    const right = turned([Math.cos(yaw), Math.sin(yaw), 0]);
    return { right, up: cross(back, right), back };
  }

  // Looks at the same place of the mesh, which is drawn otherwise. Below all of it there is none.
  stretchAs(stretch) {
    const { target, stretch: { axis, lowest } } = this;
    if (target[axis] > lowest) this.target = stretch.drawn(this.stretch.own(target));
    this.stretch = stretch;
  }

  eye() { return plus(this.target, this.distance, this.axes().back); }

  turn(yaw, pitch) {
    this.yaw += yaw;
    this.pitch = Math.max(-STEEPEST, Math.min(STEEPEST, this.pitch + pitch));
  }

  // Moves what is looked at in the picture's plane, by pixels there.
  move(x, y, focal) {
    const { right, up } = this.axes(), size = this.distance / focal;
    this.target = within(plus(plus(this.target, -x * size, right), y * size, up));
  }

  // Comes nearer to a place, or goes away from it, so that it stays where it is in the picture.
  scaleAbout(place, factor) {
    this.target = within(plus(place, factor, plus(this.target, -1, place)));
    this.distance *= factor;
  }

  // A camera at a part of the way to another one, the shorter way round.
  towards(other, part) {
    const between = (a, b) => a + (b - a) * part, whole = 2 * Math.PI;
    const round = other.yaw - this.yaw - whole * Math.round((other.yaw - this.yaw) / whole);
    return new Camera({
      target: this.target.map((c, axis) => between(c, other.target[axis])),
      distance: Math.exp(between(Math.log(this.distance), Math.log(other.distance))),
      yaw: this.yaw + round * part, pitch: between(this.pitch, other.pitch),
      upright: other.upright, stretch: other.stretch,
    });
  }

  nearer(factor, least, most) {
    this.distance = Math.max(least, Math.min(most, this.distance * factor));
  }
}

// How much farther away one has to be for a picture that is higher than it is wide.
export const farther = ({ width, height }) => Math.max(1, height / width);

// A camera from which a box of the mesh is seen whole, from the side and a little from above; from
// higher where it is flat as a terrain.
export function homeOf(box, upright, picture, stretch = new Stretch(upright)) {
  const low = stretch.drawn(box.low), high = stretch.drawn(box.high);
  const target = low.map((c, axis) => (c + high[axis]) / 2);
  const sizes = low.map((c, axis) => high[axis] - c);
  const radius = Math.hypot(...sizes) / 2 || 1;
  const tall = upright === "y" ? sizes[1] : sizes[2];
  const broad = Math.max(sizes[0], upright === "y" ? sizes[2] : sizes[1]);
  const pitch = tall < 0.4 * broad ? 0.5 : 0.35;
  const distance = 2.4 * radius * farther(picture);
  const camera = new Camera({ target, distance, yaw: 0.5, pitch, upright, stretch });
  return { camera, radius };
}

// The left, the right, the lower and the upper side of a picture that is `margin` times as wide and
// as high, which go through the eye. Their inner sides are the positive ones.
function planes(camera, eye, { focal, width, height }, margin) {
  const { right, up, back } = camera.axes();
  const sides = [[right, (margin * width) / 2], [up, (margin * height) / 2]];
  return sides.flatMap(([side, reach]) => [1, -1].flatMap((sign) => {
    const inward = plus(scaled(sign * focal, side), -reach, back);
    const own = camera.stretch.ownNormal(inward);
    const normal = whole(scaled(LARGEST_NORMAL, unit(own)));
    return [...normal, -dot(normal, eye) || 0];
  }));
}

// The view of a picture, `judged` by "distance" or by "deviation". Focal length and tolerances are
// told in parts of a pixel, since a view depends on their ratios alone. Of a mesh that is drawn
// higher what is seen is told as it is in the mesh itself, where an error is that much smaller.
export function viewLine(camera, picture, { tolerance, outline = tolerance, judged, margin = 1 }) {
  const { stretch, stretch: { times } } = camera, eye = within(whole(stretch.own(camera.eye())));
  const parts = Math.min(FINEST, Math.floor(LARGEST_PIXELS / Math.max(picture.focal, tolerance)));
  const asked = [picture.focal, tolerance / times, outline / times];
  const pixels = asked.map((n) => Math.round(n * parts));
  const [outlined, count] = outline < tolerance ? ["s", 3] : ["", 2];
  const word = `v${judged === "deviation" ? "d" : ""}${outlined}`;
  const sides = planes(camera, eye, picture, margin);
  return [word, ...eye, ...pixels.slice(0, count), ...sides].join(" ");
}

// The direction from the eye through a pixel, counted from the picture's middle to the right and
// upwards.
export function wayThrough(camera, focal, x, y) {
  const { right, up, back } = camera.axes();
  return unit(plus(plus(scaled(x, right), y, up), -focal, back));
}

// The ray through a pixel, counted the same way, in the mesh itself.
export function rayThrough(camera, focal, x, y) {
  const { stretch } = camera, from = within(whole(stretch.own(camera.eye())));
  const seen = unit(stretch.ownWay(wayThrough(camera, focal, x, y)));
  const way = whole(scaled(LARGEST_NORMAL, seen));
  return { from, way, line: `p ${from.join(" ")} ${way.join(" ")}` };
}
