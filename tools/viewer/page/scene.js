// The canvas, as large as the screen wants it, and the picture on it: the front, and right of a
// line the input where that is asked for.
import { focalOf } from "./camera.js";
import { Renderer } from "./renderer.js";

// A word of the address, for slow machines and tests: how many pixels are drawn for each of the
// screen.
const sharpness = Number(new URLSearchParams(location.search).get("sharpness")) || 1;

const LARGEST = 8192; // pixels of a side of a picture that is saved

export class Scene {
  constructor(canvas) {
    Object.assign(this, { canvas, renderer: new Renderer(canvas) });
  }

  // The picture in pixels of the screen. Views are asked for these, however many are drawn.
  picture() {
    const { clientWidth, clientHeight } = this.canvas;
    const [width, height] = [clientWidth, clientHeight].map((n) =>
      Math.max(1, Math.round(n * devicePixelRatio)));
    return { width, height, focal: focalOf(height) };
  }

  // A place of the window in pixels of the picture, from its middle to the right and upwards.
  placeAt(clientX, clientY) {
    const { width, height } = this.picture();
    const { left, top } = this.canvas.getBoundingClientRect();
    const x = (clientX - left) * devicePixelRatio - width / 2;
    return [x, height / 2 - (clientY - top) * devicePixelRatio];
  }

  draw(camera, look) {
    const picture = this.picture();
    this.drawAs(camera, look, picture, sharpness);
  }

  // Draws a picture, with so many pixels for each of it. `cut` is the part of it that the front
  // has, left of the input, if that is shown too.
  drawAs(camera, look, picture, times) {
    const [width, height] = [picture.width, picture.height].map((n) => Math.ceil(n * times));
    const { canvas } = this;
    if (canvas.width !== width || canvas.height !== height) {
      Object.assign(canvas, { width, height });
    }
    const cut = look.beside ? Math.round(look.cut * width) : width;
    const parts = [{ names: look.names ?? ["front"], left: 0, width: cut }];
    const inputs = look.inputs ?? ["input"];
    if (look.beside) parts.push({ names: inputs, left: cut, width: width - cut });
    this.renderer.draw({ camera, picture, parts, look });
  }

  // The largest picture that can be drawn, in pixels of a side.
  get most() {
    const { gl } = this.renderer;
    return Math.min(gl.getParameter(gl.MAX_RENDERBUFFER_SIZE), LARGEST);
  }
}
