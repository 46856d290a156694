// The page with the model in it, as one file; and the model's stream alone, packed.
import { download } from "../page/keeping.js";
import { toldOf } from "../page/link.js";
import { tell } from "../page/panel.js";

const PIECE = 1 << 16; // bytes that are packed at once

// The page as it was written, before anything of it was changed.
export const ownPage = () => document.documentElement.cloneNode(true);

async function deflated(parts) {
  const stream = new Blob(parts).stream().pipeThrough(new CompressionStream("deflate"));
  const bytes = new Uint8Array(await new Response(stream).arrayBuffer()), letters = [];
  for (let at = 0; at < bytes.length; at += PIECE) {
    letters.push(String.fromCharCode(...bytes.subarray(at, at + PIECE)));
  }
  return btoa(letters.join(""));
}

// The model as model.js reads it, with the view that is seen now.
async function carriedBy({ about, camera, work }) {
  const { packed, colours, worn } = await work.ask({ task: "model" });
  const { name, prepared, scale, notes } = about, coloured = colours !== null;
  const known = { name, prepared, scale, notes, view: toldOf(camera) };
  const dress = worn && { lengths: [worn.spots.byteLength, worn.pages.byteLength] };
  const pictures = worn?.pictures ?? [];
  const told = JSON.stringify({
    ...known, length: packed.length, coloured, dress, pictures: pictures.map(toldOfPicture),
  });
  const head = new TextEncoder().encode(told);
  const dressed = worn ? [worn.spots, worn.pages] : [];
  const drawn = pictures.flatMap(({ bytes }) => bytes ?? []);
  const all = [packed, ...(coloured ? [colours] : []), ...dressed, ...drawn];
  return deflated([Uint32Array.of(head.length), head, ...all]);
}

const toldOfPicture = ({ colour, kind, missing, bytes }) => (
  { colour, kind, missing, length: bytes?.length ?? 0 });

function save({ about }, ending, blob) {
  const name = about.name.replace(/\.[^.]*$/, ending);
  download(name, blob);
  tell(`Saved ${name}`);
}

export async function savePage(own, viewer) {
  const page = own.cloneNode(true), model = page.querySelector("#model");
  model.textContent = await carriedBy(viewer);
  const text = `<!doctype html>\n${page.outerHTML}\n`;
  save(viewer, ".html", new Blob([text], { type: "text/html" }));
}

export async function savePacked(viewer) {
  const { packed } = await viewer.work.ask({ task: "model" });
  save(viewer, ".vdpz", new Blob([packed]));
}
