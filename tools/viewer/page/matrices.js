// Vectors of three numbers, and matrices of four columns as WebGL takes them.

export const plus = (p, t, q) => [p[0] + t * q[0], p[1] + t * q[1], p[2] + t * q[2]];
export const dot = (p, q) => p[0] * q[0] + p[1] * q[1] + p[2] * q[2];
export const cross = (p, q) =>
  [p[1] * q[2] - p[2] * q[1], p[2] * q[0] - p[0] * q[2], p[0] * q[1] - p[1] * q[0]];
export const scaled = (t, p) => [t * p[0], t * p[1], t * p[2]];
export const unit = (p) => scaled(1 / (Math.hypot(...p) || 1), p);

// From places less the eye to clip space. The eye is taken off before, so that large coordinates
// lose nothing.
export function clipMatrix({ right, up, back }, { focal, width, height }, near, far) {
  const a = (2 * focal) / width, b = (2 * focal) / height;
  const c = -(far + near) / (far - near), d = (-2 * far * near) / (far - near);
  const column = (i) => [a * right[i], b * up[i], c * back[i], -back[i]];
  return new Float32Array([...column(0), ...column(1), ...column(2), 0, 0, d, 0]);
}
