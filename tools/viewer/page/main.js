// The page that a server has given.
import { isThere } from "./awaiting.js";
import { toggle, watchMenu } from "./bar.js";
import { boot } from "./boot.js";
import { toldOf } from "./link.js";
import { returnWhenBack } from "./returning.js";
import { Scene } from "./scene.js";
import { Viewer } from "./viewer.js";
import { Work } from "./work.js";

watchMenu();

function told({ fault }) {
  const { viewer } = globalThis;
  viewer?.fail(fault);
  if (viewer?.camera && fault.isLost) returnWhenBack(() => toldOf(viewer.camera));
}

if (await isThere()) {
  const work = new Work(new Worker("worker.js", { type: "module" }), told);
  boot((canvas) => new Viewer(new Scene(canvas), work, { toggled: toggle }));
}
