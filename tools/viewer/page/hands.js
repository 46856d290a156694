// What hands do to a window: on its canvas, by keys, and in its bar and drawer.
import { Controls } from "./controls.js";
import * as panel from "./panel.js";

const NEAREST = 2, PARTS = 400, FARTHEST = 30; // units, parts of the radius, and times it

// The controls of a viewer's canvas. All ends when its `leaving` is told to.
export function takeHands(viewer) {
  const { keeping, steering, scene: { canvas }, leaving: { signal } } = viewer;
  panel.watchPanel((name) => viewer.settingChanged(name), signal);
  panel.watchButtons(buttonsOf(viewer), signal);
  addEventListener("hashchange", () => {
    const camera = viewer.linked(location.hash);
    if (camera !== null) steering.fly(camera);
  }, { signal });
  const resizes = new ResizeObserver(() => {
    viewer.change({});
    steering.resized();
  });
  resizes.observe(canvas);
  signal.addEventListener("abort", () => resizes.disconnect());
  return new Controls(canvas, {
    camera: () => viewer.camera,
    focal: () => viewer.picture().focal,
    nearest: () => Math.max(NEAREST, viewer.radius / PARTS),
    farthest: () => FARTHEST * viewer.radius,
    moved: () => {
      steering.stop();
      viewer.moved();
    },
    zoomed: (factor, x, y) => steering.zoom(factor, x, y),
    centred: (x, y) => steering.centre(x, y),
    picked: (x, y) => viewer.pick(x, y),
    keys: {
      ...panel.KEYS, r: () => steering.goHome(), p: () => keeping.savePicture(), h: viewer.toggled,
    },
  });
}

const buttonsOf = ({ keeping, steering, toggled }) => ({
  "save-flight": () => keeping.saveFlight(),
  "save-picture": () => keeping.savePicture(),
  "save-obj": () => keeping.saveMesh("obj"),
  "save-ply": () => keeping.saveMesh("ply"),
  "save-glb": () => keeping.saveMesh("glb"),
  "copy-link": () => keeping.copyLink(),
  "copy-view": () => keeping.copyView(),
  home: () => steering.goHome(),
  unhide: toggled,
});
