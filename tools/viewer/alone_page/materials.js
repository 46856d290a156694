// Materials of an OBJ file, as tools/dressing/materials.py finds them: the colour and the picture
// that each has, by the files that were dropped with it.
const OPTIONS = { // of a picture's line, and how many words each takes
  "-blendu": 1, "-blendv": 1, "-bm": 1, "-boost": 1, "-cc": 1, "-clamp": 1, "-imfchan": 1,
  "-mm": 2, "-o": 3, "-s": 3, "-t": 3, "-texres": 1, "-type": 1,
};
const KINDS = [["\x89PNG\r\n\x1a\n", "image/png"], ["\xff\xd8", "image/jpeg"],
  ["RIFF", "image/webp"]];
const PLAIN = [1, 1, 1];
const MOST = 64 << 20; // bytes of a file of materials

// A file by the name that another tells, which may have been written on another machine: with
// folders that aren't here, or in letters of another size.
function named(files, name) {
  const last = name.replaceAll("\\", "/").split("/").at(-1), small = last.toLowerCase();
  return files.find((file) => file.name === last)
    ?? files.find((file) => file.name.toLowerCase() === small);
}

function colourOf(fields) {
  const parts = fields.slice(1, 4).map(Number);
  return parts.length === 3 && parts.every(Number.isFinite) ? parts : PLAIN;
}

// The name of the picture, which may have blanks in it, behind its options.
function pictureOf(fields) {
  let at = 1;
  while (fields[at] in OPTIONS) at += 1 + OPTIONS[fields[at]];
  return fields.slice(at).join(" ");
}

// Those that the text of a file of materials tells, by their names.
export function materialsIn(text) {
  const found = new Map();
  let material = null;
  for (const line of text.split(/\r\n|\r|\n/)) {
    const fields = line.split("#", 1)[0].trim().split(/\s+/), word = fields[0].toLowerCase();
    if (word === "newmtl") {
      material = { colour: PLAIN, picture: "" };
      found.set(fields.slice(1).join(" "), material);
    } else if (material !== null && word === "kd") material.colour = colourOf(fields);
    else if (material !== null && word === "map_kd") material.picture = pictureOf(fields);
  }
  return found;
}

// The names of an OBJ file's files of materials, of which some may have been dropped with it.
const namesFor = (name, libraries) =>
  (libraries.length > 0 ? libraries : [name.replace(/\.[^.]*$/, ".mtl")]);

export const hasMaterials = (name, libraries, files) =>
  namesFor(name, libraries).some((one) => named(files, one));

async function shown({ colour, picture }, files) {
  const plain = { colour, kind: "", bytes: null, missing: "" };
  if (picture === "") return plain;
  const file = named(files, picture);
  const bytes = file && new Uint8Array(await file.arrayBuffer());
  const begins = (begin) => [...begin].every((c, i) => bytes?.[i] === c.charCodeAt(0));
  const kind = KINDS.find(([begin]) => begins(begin))?.[1];
  return kind ? { ...plain, kind, bytes } : { ...plain, missing: picture };
}

// What each page of a file is drawn with: a picture as its file has it, or else a colour alone,
// with parts from 0 to 1. `missing` names the picture that isn't there or can't be shown.
export async function picturesFor(name, { pages, libraries }, files) {
  const known = new Map();
  let missing = "";
  for (const one of namesFor(name, libraries)) {
    const file = named(files, one);
    if (!file || file.size > MOST) missing = one;
    else for (const [of, material] of materialsIn(await file.text())) known.set(of, material);
  }
  const none = { colour: PLAIN, kind: "", bytes: null, missing };
  return Promise.all(pages.map((page) => (known.has(page) ? shown(known.get(page), files) : none)));
}
