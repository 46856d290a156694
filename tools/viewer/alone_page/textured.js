// What an OBJ text says of textures, as tools/dressing/textured.py reads it: `vt`, `usemtl`,
// `mtllib`, and the second numbers of corners.
import { eachFields } from "./lines.js";

export const NONE = -1; // of a corner without a texture coordinate

class Unreadable extends Error {}

const number = (field) => {
  const found = Number(field);
  if (field === undefined || field === "" || !Number.isFinite(found)) throw new Unreadable();
  return found;
};

// From 0, of a number that counts from 1, or from the end.
function index(field, count) {
  const found = number(field), at = found > 0 ? found - 1 : count + found;
  if (!Number.isInteger(at) || at < 0 || at >= count) throw new Unreadable();
  return at;
}

// What is read: three numbers for each vertex and two for each texture coordinate; where the
// corners of each face begin, the last of these their end; the vertex and the texture coordinate of
// each corner; the page of each face. Pages are the names of materials, in the order of their first
// faces, "" of faces that have none.
class Reader {
  constructor() {
    Object.assign(this, { places: [], spots: [], begins: [0], corners: [], cornerSpots: [] });
    Object.assign(this, { facePages: [], pages: [], libraries: [], hasSpots: false });
    this.numbers = new Map();
    this.material = "";
  }

  take(word, fields) {
    if (word === "v") this.places.push(number(fields[1]), number(fields[2]), number(fields[3]));
    else if (word === "vt") {
      this.spots.push(number(fields[1]), fields.length > 2 ? number(fields[2]) : 0);
    } else if (word === "f") this.face(fields);
    else if (word === "usemtl") this.material = fields.slice(1).join(" ");
    else if (word === "mtllib") this.libraries.push(fields.slice(1).join(" "));
  }

  face(fields) {
    const { corners, cornerSpots, begins } = this;
    for (let i = 1; i < fields.length; i++) {
      const [corner, spot] = fields[i].split("/");
      corners.push(index(corner, this.places.length / 3));
      cornerSpots.push(spot ? index(spot, this.spots.length / 2) : NONE);
      if (spot) this.hasSpots = true;
    }
    begins.push(corners.length);
    this.facePages.push(this.page());
  }

  page() {
    const { material, numbers, pages } = this;
    if (!numbers.has(material)) {
      numbers.set(material, pages.length);
      pages.push(material);
    }
    return numbers.get(material);
  }

  get faces() { return this.facePages.length; }
}

// Null where no corner has a texture coordinate and no face a material, or a number isn't one.
export function readTextured(bytes) {
  const reader = new Reader();
  try {
    eachFields(bytes, (word, fields) => reader.take(word, fields));
  } catch (fault) {
    if (fault instanceof Unreadable) return null;
    throw fault;
  }
  return reader.hasSpots || reader.pages.some(Boolean) ? reader : null;
}

// The files of materials that a text names.
export function librariesOf(bytes) {
  const found = [];
  eachFields(bytes, (_, fields) => found.push(fields.slice(1).join(" ")), ["mtllib"]);
  return found;
}
