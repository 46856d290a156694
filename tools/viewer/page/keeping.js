// What a user takes away: the picture, the mesh shown, a link, the session and the view's line.
import { focalOf } from "./camera.js";
import { toldOf } from "./link.js";
import { ALL_MOVES, tell } from "./panel.js";

const SAVED = 10000; // milliseconds after which the browser has surely read a file that it saves

// Gives a file to the browser, which saves it where it saves such files.
export function download(name, blob) {
  const link = document.createElement("a");
  link.href = URL.createObjectURL(blob);
  link.download = name;
  link.click();
  setTimeout(() => URL.revokeObjectURL(link.href), SAVED);
}

const textFile = (text) => new Blob([text], { type: "text/plain" });

// Lines that `vdpm live` plays and `vdpm view` doesn't.
const LIVE = /^(?:d|l|b \d+|vds? .*)$/m;

// Puts a text on the clipboard; where the browser doesn't let it, by an older way.
export async function copy(text) {
  try {
    await navigator.clipboard.writeText(text);
  } catch {
    const field = document.createElement("textarea");
    field.value = text;
    document.body.append(field);
    field.select();
    document.execCommand("copy");
    field.remove();
  }
}

// The size that is chosen of a picture, where the window shows `seen`: none has a side of more than
// `most` pixels.
export function chosenSize(seen, most) {
  const { value } = document.getElementById("picture-size");
  if (value === "1") return { isAsSeen: true, picture: seen, told: "" };
  const [wide, high] = value.includes("x") ? value.split("x").map(Number)
    : [seen.width * value, seen.height * value];
  const part = Math.min(1, most / Math.max(wide, high));
  const [width, height] = [wide, high].map((n) => Math.round(part * n));
  return { picture: { width, height, focal: focalOf(height) }, told: `-${width}x${height}` };
}

export class Keeping {
  constructor(viewer) { this.viewer = viewer; }

  // All lines since the program was started. The file's name tells which command plays them, and
  // with which budget where it isn't all moves.
  async saveFlight() {
    const { work, session: { startedWith: budget } } = this.viewer;
    const { text } = await work.ask({ task: "flight" });
    const command = LIVE.test(text) ? "live" : "view";
    const ending = budget === ALL_MOVES ? "" : `-budget-${budget}`;
    download(`flight-${command}${ending}.script`, textFile(text));
    tell(`The script that vdpm ${command} ${budget} plays`);
  }

  // A name for a file of the model, without its ending.
  get name() { return this.viewer.about.name.replace(/\.[^.]*$/, ""); }

  // The picture at the size that is chosen, refined for that many pixels.
  async savePicture() {
    const { name, viewer, viewer: { scene } } = this;
    const size = chosenSize(viewer.picture(), scene.most);
    if (size.isAsSeen) viewer.draw(performance.now());
    else await this.drawAt(size.picture);
    // What was drawn is there until this task ends.
    scene.canvas.toBlob((blob) => download(`${name}${size.told}.png`, blob), "image/png");
    if (!size.isAsSeen) viewer.draw(performance.now());
    tell(`Saved ${name}${size.told}.png`);
  }

  // Draws the front that a picture of another size asks for, and asks for that of the window anew.
  async drawAt(picture) {
    const { viewer, viewer: { camera, scene, set, views, work } } = this, seen = camera.copy();
    if (viewer.frozen === null) {
      const line = views.line(seen, picture, set, Infinity);
      const { patch } = await work.ask({ task: "view", line, glides: false });
      scene.renderer.change("front", patch);
      viewer.glides.take("front", patch, false);
      views.forget();
    }
    scene.drawAs(seen, viewer.look(performance.now() / 1000), picture, 1);
    viewer.change({});
  }

  // The mesh shown, named by the model and how many triangles it has.
  async saveMesh(format) {
    const name = `${this.name}-${this.viewer.shown.faceCount}`;
    const { bytes, ending } = await this.viewer.work.ask({ task: "mesh", format, name });
    download(`${name}.${ending}`, new Blob([bytes]));
    tell(`Saved ${name}.${ending}`);
  }

  // A link to this view: of this page, where it has the model; else the model is opened first.
  async copyLink() {
    const page = location.href.replace(/#.*/, "");
    await copy(`${page}#${toldOf(this.viewer.camera)}`);
    tell("The link is on the clipboard");
  }

  async copyView() {
    await copy(`${this.viewer.views.asked}\n`);
    tell("The view's line is on the clipboard");
  }
}
