// What a mesh is drawn by beside its places: heights along the axis that is up, their colours and
// contours, vertical exaggeration, and lights.
import { RAMP, WATER } from "./heights.js";
import { plus, scaled, unit } from "./matrices.js";

// Where lights are for who looks: how far to the right, up, and behind the eye.
const KEY_LIGHT = [-0.75, 0.85, 1], FILL_LIGHT = [1.2, -0.35, 0.55];
// Where they are for a hill shade: in the north-west, halfway up, and opposite.
const HILL_LIGHTS = { 1: [[-1, 1.4, -1], [1, 0.5, 1]], 2: [[-1, 1, 1.4], [1, -1, 0.5]] };
const NO_HEIGHTS = { perUnit: 0, first: 0, span: 1, level: -1 };
const share = (bytes) => bytes.map((byte) => byte / 255);
const COLOURS = new Float32Array([...RAMP, WATER].flatMap(share));

const along = ({ right, up, back }, [x, y, z]) => plus(plus(scaled(x, right), y, up), z, back);

function lightsOf(axes, hillShade, axis, up) {
  if (hillShade) {
    const [light, fill] = HILL_LIGHTS[axis].map(unit);
    return { light, fill, above: up };
  }
  const [light, fill] = [KEY_LIGHT, FILL_LIGHT].map((way) => unit(along(axes, way)));
  return { light, fill, above: axes.up };
}

// For a mesh whose zero stands at `offset`, as a camera with these axes sees it.
export function bindRelief(gl, at, { axes, stretch, offset }, look) {
  const { perUnit, first, span, level } = look.heights ?? NO_HEIGHTS, { axis, times } = stretch;
  const up = [0, 0, 0].map((_, i) => (i === axis ? 1 : 0));
  const { light, fill, above } = lightsOf(axes, look.hillShade, axis, up);
  gl.uniform3fv(at.light, light);
  gl.uniform3fv(at.fill, fill);
  gl.uniform3fv(at.above, above);
  gl.uniform3fv(at.up, up);
  gl.uniform1f(at.times, times);
  gl.uniform1f(at.lowest, stretch.from(offset).lowest);
  gl.uniform4f(at.rises, perUnit, first, span, level);
  gl.uniform1i(at.contours, look.contours ? 1 : 0);
  gl.uniform3fv(at["heights[0]"], COLOURS);
}
