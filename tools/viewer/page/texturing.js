// Brings the pictures of a texture, which films haven't.
import { addColour, layDrape } from "./draping.js";

async function pageOf(work, { hasPicture, colour }, number) {
  if (!hasPicture) return colour;
  const { kind: type, bytes } = await work.ask({ task: "picture", page: number });
  const data = new Blob([bytes], { type });
  return createImageBitmap(data, { premultiplyAlpha: "none" }).catch(() => colour);
}

// Gives a texture's pictures to a renderer, and adds the texture to the colours, chosen.
async function layTexture({ pictures }, work, pages) {
  await pictures.show(await Promise.all(pages.map((page, i) => pageOf(work, page, i))));
  addColour("texture", "Texture", "The file's own pictures");
}

// Lays what is told of a model: its own pictures, and one that lies over it.
export async function layPictures(renderer, work, { textures, drape }) {
  if (textures) await layTexture(renderer, work, textures);
  if (drape) await layDrape(renderer, drape);
}
