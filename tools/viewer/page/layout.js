// How nodes and faces lie in textures: number i is in column i % WIDTH of row i / WIDTH, rounded
// down.
export const WIDTH = 1024;
export const rows = (count) => Math.max(1, Math.ceil(count / WIDTH));

// How long a node takes from its elder's place to its own, in seconds.
export const GLIDE = 0.4;
export const THERE = -GLIDE; // when a glide began that is over

// How far of its way a glide is after a part of its time: the same as in shaders.js.
export function eased(part) {
  const time = Math.max(0, Math.min(1, part));
  return time * time * (3 - 2 * time);
}
