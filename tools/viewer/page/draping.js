// Brings the server's picture that lies over a terrain, which films and pages without a server
// haven't; and the ways to colour faces that a model adds.

// The picture, no larger than the graphics processor takes.
async function pictureFor(gl, url) {
  const whole = await createImageBitmap(await (await fetch(url)).blob());
  const most = gl.getParameter(gl.MAX_TEXTURE_SIZE), { width, height } = whole;
  const share = Math.min(1, most / Math.max(width, height));
  if (share === 1) return whole;
  const resizeWidth = Math.floor(width * share), resizeHeight = Math.floor(height * share);
  return createImageBitmap(whole, { resizeWidth, resizeHeight });
}

const stone = () => document.querySelector("input[name=colour][value=stone]");

// Takes away the ways to colour faces that a model before has added.
export function dropColours() {
  const added = [...document.querySelectorAll("label[data-added]")];
  if (added.some((label) => label.querySelector("input").checked)) stone().click();
  for (const label of added) label.remove();
}

// Adds one of the ways to colour faces, chosen.
export function addColour(value, name, title) {
  const plain = stone().closest("label");
  const label = plain.cloneNode(true), choice = label.querySelector("input");
  label.dataset.added = "";
  Object.assign(choice, { id: "", value, checked: true });
  label.title = title;
  label.querySelector("span").textContent = name;
  plain.after(label);
  choice.dispatchEvent(new Event("input", { bubbles: true }));
}

// Lays the server's picture over what a renderer draws, and adds it to the colours, chosen.
export async function layDrape({ gl, drape }, rows) {
  drape.show(await pictureFor(gl, "drape"), rows);
  addColour("drape", "Image", "The picture that lies on the terrain");
}
