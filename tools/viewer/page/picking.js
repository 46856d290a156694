// The face of the input under a place of the picture.
import { rayThrough } from "./camera.js";
import { plus } from "./matrices.js";

// What a ray meets: the face's number in the stream and in the input, and the place in units of the
// stream; null where it meets nothing. Places of the picture count from its middle, upwards.
export async function met(work, camera, focal, x, y) {
  const { from, way, line } = rayThrough(camera, focal, x, y);
  const { replies } = await work.ask({ task: "ask", script: `${line}\n` });
  const [word, face, s, q, input] = replies[0];
  if (word !== "hit") return null;
  return { face: Number(face), input, place: plus(from, Number(s) / Number(q), way) };
}

// A place in the coordinates of the file that was built from.
function told(place, { scale }, { digits }) {
  if (scale === null) return place.map((c) => (c / 10 ** digits).toFixed(digits));
  return place.map((c, axis) => Number((scale.unit * c + scale.middle[axis]).toPrecision(6)));
}

export function sentence({ face, input, place }, about, hierarchy) {
  const mesh = about.prepared ? "the prepared mesh" : "the file";
  const at = told(place, about, hierarchy).join("  ");
  return `Triangle ${input} of ${mesh} (${face} in the stream), at ${at}`;
}
