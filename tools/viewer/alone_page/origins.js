// Which corners of a text's faces the corners of its prepared mesh were, as
// tools/dressing/origins.py finds them. `prepare` keeps the order of faces, and the corners of each
// are corners of one face of the text. So a face is that of the first face of the text, from that
// of the face before on, that has three corners where its corners stand.
import { eachFields } from "./lines.js";

const HALF = 0.5 + 1e-6; // of a step: how far a place may be from what it was rounded from

// The places and faces of a text that the engine takes: three numbers each, faces from 0.
export function meshOf(text) {
  const places = [], faces = [];
  eachFields(text, (word, fields) => {
    for (let i = 1; i < 4; i++) {
      if (word === "v") places.push(Number(fields[i]));
      else faces.push(Number.parseInt(fields[i], 10) - 1);
    }
  }, ["v", "f"]);
  return { places, faces };
}

// For each corner of the faces, three a face, which corner of the text it was, and for each face
// which face. Those of a text whose faces are taken as they stand; null where these aren't
// triangles.
export function asTheyStood({ begins, faces: count }) {
  for (let face = 0; face < count; face++) if (begins[face + 1] !== 3 * face + 3) return null;
  return {
    faces: Int32Array.from({ length: count }, (_, face) => face),
    corners: Int32Array.from({ length: 3 * count }, (_, corner) => corner),
  };
}

// Finds corners of the text by where they stand in the prepared mesh.
class Tracing {
  // A coordinate is `unit` times the place plus that of `middle`.
  constructor(textured, mesh, { unit, middle }) {
    Object.assign(this, { textured, mesh });
    this.placed = Float64Array.from(textured.places, (c, i) => (c - middle[i % 3]) / unit);
  }

  // The corner of a face of the text that stands at a vertex of the mesh; -1 of none.
  cornerAt(face, vertex) {
    const { placed, mesh: { places }, textured: { begins, corners } } = this, to = 3 * vertex;
    for (let corner = begins[face]; corner < begins[face + 1]; corner++) {
      const from = 3 * corners[corner];
      if (Math.abs(placed[from] - places[to]) < HALF
        && Math.abs(placed[from + 1] - places[to + 1]) < HALF
        && Math.abs(placed[from + 2] - places[to + 2]) < HALF) return corner;
    }
    return -1;
  }

  // Puts the three corners of a face of the text that a face of the mesh has there; false where it
  // hasn't them.
  met(face, first, found) {
    for (let at = first; at < first + 3; at++) {
      found[at] = this.cornerAt(face, this.mesh.faces[at]);
      if (found[at] < 0) return false;
    }
    return true;
  }
}

// The same of a prepared mesh; null where a face comes from none.
export function traced(textured, mesh, scale) {
  const tracing = new Tracing(textured, mesh, scale), count = mesh.faces.length / 3;
  const corners = new Int32Array(3 * count), faces = new Int32Array(count);
  for (let face = 0, from = 0; face < count; face++) {
    while (from < textured.faces && !tracing.met(from, 3 * face, corners)) from++;
    if (from === textured.faces) return null;
    faces[face] = from;
  }
  return { faces, corners };
}
