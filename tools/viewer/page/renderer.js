// Draws the frames that the graphics processor has, from any camera, and the pyramid of a frozen
// one.
import { Drape } from "./drape.js";
import { rows } from "./layout.js";
import { clipMatrix, plus } from "./matrices.js";
import { Pictures } from "./pictures.js";
import { bindRelief } from "./relief.js";
import {
  LINES_FRAGMENT, LINES_VERTEX, MESH_FRAGMENT, MESH_VERTEX, SKY_FRAGMENT, SKY_VERTEX,
} from "./shaders.js";
import { Texture } from "./textures.js";

export class NoGraphics extends Error {}

export const COLOURS = { stone: 0, depth: 1, wire: 2, own: 3, drape: 4, height: 5, texture: 6 };
export const NO_FACE = 0xffffffff; // no face has this number
const MARK = [1, 0.71, 0.33], HIT = [1, 0.3, 0.1, 1];
const EDGES = 0.62; // how dark edges are
const NOTHING_GLIDES = -1;

// What the page is drawn on: the sky, and the faces and edges where edges alone are drawn.
const DARK = {
  low: [0.225, 0.265, 0.315], high: [0.075, 0.095, 0.125],
  paper: [0.085, 0.11, 0.14], ink: [0.62, 0.82, 1],
};
const LIGHT = {
  low: [0.87, 0.885, 0.9], high: [0.965, 0.972, 0.98],
  paper: [0.93, 0.94, 0.95], ink: [0.1, 0.24, 0.4],
};

// Calls `take` with the theme of the screen, which is dark or light, now and when it changes.
export function watchTheme(take, signal) {
  const light = matchMedia("(prefers-color-scheme: light)");
  light.addEventListener("change", () => take(light.matches ? LIGHT : DARK), { signal });
  take(light.matches ? LIGHT : DARK);
}

export class Renderer {
  constructor(canvas) {
    const wanted = { antialias: true, alpha: false, powerPreference: "high-performance" };
    const gl = canvas.getContext("webgl2", wanted);
    if (gl === null) throw new NoGraphics("This browser gives no WebGL 2, which draws pictures.");
    Object.assign(this, { gl, canvas, meshes: new Map() });
    this.mesh = linked(gl, MESH_VERTEX, MESH_FRAGMENT);
    this.lines = linked(gl, LINES_VERTEX, LINES_FRAGMENT);
    this.sky = linked(gl, SKY_VERTEX, SKY_FRAGMENT);
    this.drape = new Drape(gl);
    this.pictures = new Pictures(gl);
    this.empty = gl.createVertexArray();
    this.line = { array: gl.createVertexArray(), buffer: gl.createBuffer() };
    gl.bindVertexArray(this.line.array);
    gl.bindBuffer(gl.ARRAY_BUFFER, this.line.buffer);
    gl.enableVertexAttribArray(0);
    gl.vertexAttribPointer(0, 3, gl.FLOAT, false, 0, 0);
  }

  // Takes a whole frame, with the arrays of its textures, under a name.
  show(name, frame) { this.named(name).show(frame); }

  // Takes what becomes another, as mesh.js tells it. The mesh's zero stands at `offset`.
  change(name, patch, offset = [0, 0, 0]) { this.named(name).change(patch, offset); }

  named(name) {
    if (!this.meshes.has(name)) this.meshes.set(name, new Mesh(this.gl));
    return this.meshes.get(name);
  }

  drop(name) {
    this.meshes.get(name)?.free();
    this.meshes.delete(name);
  }

  has(name) { return this.meshes.has(name); }

  // The picture of a scene: `parts` are names of meshes, with where the part of the canvas begins
  // in which they are seen, in pixels, and how wide it is.
  draw({ camera, picture, parts, look }) {
    const { gl, canvas } = this;
    const far = look.reach + camera.distance;
    const near = Math.max(0.5, far / 65536, camera.distance / 500);
    const axes = camera.axes(), eye = camera.eye();
    const toClip = clipMatrix(axes, picture, near, 2 * far);
    gl.enable(gl.SCISSOR_TEST);
    for (const { names, left, width } of parts) {
      gl.viewport(0, 0, canvas.width, canvas.height);
      gl.scissor(left, 0, width, canvas.height);
      this.drawSky(look.theme);
      for (const mesh of names.flatMap((name) => this.meshes.get(name) ?? [])) {
        this.drawMesh(mesh, camera, toClip, look);
      }
      if (look.frozen) this.drawPyramid(look.frozen, eye, toClip);
      gl.disable(gl.DEPTH_TEST);
      if (look.hit) this.paint(gl.POINTS, [look.hit], eye, toClip, HIT);
    }
    gl.disable(gl.SCISSOR_TEST);
  }

  drawSky({ low, high }) {
    const { gl, sky: { program, at } } = this;
    gl.clear(gl.DEPTH_BUFFER_BIT);
    gl.disable(gl.DEPTH_TEST);
    gl.bindVertexArray(this.empty);
    gl.useProgram(program);
    gl.uniform3fv(at.low, low);
    gl.uniform3fv(at.high, high);
    gl.drawArrays(gl.TRIANGLES, 0, 3);
    gl.enable(gl.DEPTH_TEST);
  }

  drawMesh(mesh, camera, toClip, look) {
    const { gl, mesh: { program, at } } = this, { offset } = mesh, { stretch } = camera;
    gl.useProgram(program);
    mesh.bind(at);
    this.drape.bind(at, offset);
    this.pictures.bind(at);
    bindRelief(gl, at, { axes: camera.axes(), stretch, offset }, look);
    gl.uniformMatrix4fv(at.toClip, false, toClip);
    gl.uniform3fv(at.eye, plus(camera.eye(), -1, offset));
    gl.uniform3fv(at.paper, look.theme.paper);
    gl.uniform3fv(at.ink, look.theme.ink);
    gl.uniform1f(at.now, mesh.glides ? look.now : NOTHING_GLIDES);
    gl.uniform1f(at.deepest, look.deepest);
    gl.uniform1ui(at.picked, look.picked);
    gl.uniform1i(at.colour, COLOURS[look.colour]);
    gl.uniform1i(at.smoothly, look.smooth ? 1 : 0);
    gl.uniform1i(at.bent, mesh.isBent ? 1 : 0);
    gl.uniform1i(at.hollows, look.hollows ? 1 : 0);
    gl.uniform1i(at.unlit, look.unlit ? 1 : 0);
    gl.uniform1f(at.edges, look.edges ? EDGES : 0);
    this.drawFaces(mesh, look.side ?? 0);
  }

  // Where a mesh is closed nobody sees a face from behind: `side` is what Surface tells of it.
  drawFaces({ faceCount }, side) {
    const { gl, mesh: { at } } = this;
    gl.uniform1f(at.side, side);
    if (side !== 0) gl.enable(gl.CULL_FACE);
    gl.cullFace(side < 0 ? gl.FRONT : gl.BACK);
    gl.drawArrays(gl.TRIANGLES, 0, 3 * faceCount);
    gl.disable(gl.CULL_FACE);
  }

  // The sides of what a frozen camera sees, from its eye on.
  drawPyramid({ camera, picture }, eye, toClip) {
    const { gl } = this, { right, up, back } = camera.axes(), from = camera.eye();
    const depth = camera.distance * 1.15, middle = plus(from, -depth, back);
    const [x, y] = [picture.width, picture.height].map((n) => (n * depth) / picture.focal / 2);
    const corner = (i, j) => plus(plus(middle, i * x, right), j * y, up);
    const ends = [corner(-1, -1), corner(1, -1), corner(1, 1), corner(-1, 1)];
    const next = (i) => ends[(i + 1) % 4];
    const sides = ends.flatMap((end, i) => [from, end, next(i)]);
    const edges = ends.flatMap((end, i) => [from, end, end, next(i)]);
    gl.enable(gl.BLEND);
    gl.blendFunc(gl.ONE, gl.ONE_MINUS_SRC_ALPHA);
    gl.depthMask(false);
    this.paint(gl.TRIANGLES, sides, eye, toClip, [...MARK, 0.09]);
    gl.depthMask(true);
    this.paint(gl.LINES, edges, eye, toClip, [...MARK, 0.95]);
    gl.disable(gl.BLEND);
    this.paint(gl.POINTS, [from], eye, toClip, [...MARK, 1]);
  }

  paint(kind, points, eye, toClip, paint) {
    const { gl, lines: { program, at }, line } = this;
    gl.useProgram(program);
    gl.bindVertexArray(line.array);
    gl.bindBuffer(gl.ARRAY_BUFFER, line.buffer);
    gl.bufferData(gl.ARRAY_BUFFER, new Float32Array(points.flat()), gl.STREAM_DRAW);
    gl.uniformMatrix4fv(at.toClip, false, toClip);
    gl.uniform3fv(at.eye, eye);
    gl.uniform4fv(at.paint, paint);
    gl.drawArrays(kind, 0, points.length);
    gl.bindVertexArray(this.empty);
  }

  // Waits until all is drawn, for measuring.
  finish() {
    this.gl.readPixels(0, 0, 1, 1, this.gl.RGBA, this.gl.UNSIGNED_BYTE, new Uint8Array(4));
  }
}

// The places and faces of one mesh as textures.
class Mesh {
  constructor(gl) {
    this.gl = gl;
    this.faceCount = 0;
    this.glides = false;
    this.isBent = false; // whether corners have normals of their own
    this.offset = [0, 0, 0];
    const { RGBA_INTEGER: whole, RGBA: parts } = gl;
    this.textures = {
      places: new Texture(gl, Int16Array, gl.RGBA16I, whole, gl.SHORT),
      normals: new Texture(gl, Int16Array, gl.RGBA16I, whole, gl.SHORT),
      corners: new Texture(gl, Uint32Array, gl.RGBA32UI, whole, gl.UNSIGNED_INT),
      bends: new Texture(gl, Uint32Array, gl.RGBA32UI, whole, gl.UNSIGNED_INT),
      colours: new Texture(gl, Uint8Array, gl.RGBA8, parts, gl.UNSIGNED_BYTE),
      starts: new Texture(gl, Float32Array, gl.RGBA32F, parts, gl.FLOAT),
      spots: new Texture(gl, Float32Array, gl.RGBA32F, parts, gl.FLOAT),
    };
  }

  free() {
    for (const { texture } of Object.values(this.textures)) this.gl.deleteTexture(texture);
  }

  show({ nodeCount, faceCount, arrays }) {
    for (const [name, array] of Object.entries(arrays)) {
      this.textures[name].put(array, rows(name === "corners" ? faceCount : nodeCount));
    }
    this.faceCount = faceCount;
  }

  change({ drawn, nodes, faces }, offset) {
    for (const { slots, ...cells } of [nodes, faces]) {
      for (const [name, values] of Object.entries(cells)) this.textures[name].change(slots, values);
    }
    Object.assign(this, { faceCount: drawn, offset, glides: true, isBent: true });
  }

  bind(at) {
    Object.entries(this.textures).forEach(([name, { texture }], place) => {
      this.gl.activeTexture(this.gl.TEXTURE0 + place);
      this.gl.bindTexture(this.gl.TEXTURE_2D, texture);
      this.gl.uniform1i(at[name], place);
    });
  }
}

function compiled(gl, kind, text) {
  const shader = gl.createShader(kind);
  gl.shaderSource(shader, text);
  gl.compileShader(shader);
  if (gl.getShaderParameter(shader, gl.COMPILE_STATUS)) return shader;
  throw new NoGraphics(gl.getShaderInfoLog(shader));
}

// A program, and where its uniforms are, by their names.
function linked(gl, vertexText, fragmentText) {
  const program = gl.createProgram();
  gl.attachShader(program, compiled(gl, gl.VERTEX_SHADER, vertexText));
  gl.attachShader(program, compiled(gl, gl.FRAGMENT_SHADER, fragmentText));
  gl.bindAttribLocation(program, 0, "place");
  gl.linkProgram(program);
  if (!gl.getProgramParameter(program, gl.LINK_STATUS)) {
    throw new NoGraphics(gl.getProgramInfoLog(program));
  }
  const at = {}, count = gl.getProgramParameter(program, gl.ACTIVE_UNIFORMS);
  for (let i = 0; i < count; i++) {
    const { name } = gl.getActiveUniform(program, i);
    at[name] = gl.getUniformLocation(program, name);
  }
  return { program, at };
}
