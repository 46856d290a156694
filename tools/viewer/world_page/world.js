// The page of a world: tiles near the camera are open, each refined for where it looks, and far
// ones are shown by a parent or as coarse as they can be. Bar and drawer are the window's, but for
// what the engines of a world can't tell.
import { isThere } from "./awaiting.js";
import { toggle, watchMenu } from "./bar.js";
import { boot } from "./boot.js";
import { homeOf } from "./camera.js";
import { Controls } from "./controls.js";
import { Divider } from "./divider.js";
import { layDrape } from "./draping.js";
import { showFault } from "./faults.js";
import { Finest } from "./finest.js";
import { Glides } from "./glides.js";
import { chosenSize, copy, download } from "./keeping.js";
import { restored, toldOf } from "./link.js";
import * as panel from "./panel.js";
import { NO_FACE, watchTheme } from "./renderer.js";
import { returnWhenBack } from "./returning.js";
import { Scene } from "./scene.js";
import { Terrain } from "./terrain.js";
import { Tiles } from "./tiles.js";
import { Work } from "./work.js";
import { asWorld } from "./world_bar.js";

const SAY_AGAIN = 100; // milliseconds between two sayings of the counters
const CIRCLE = 0.25;   // radians a second of the turntable
const DEEPEST = 40;    // splits below a root, at which a node's colour is the last one
const { counted } = panel;
const part = (name) => document.getElementById(name);
const megabytes = (n) => `${counted(Math.round(n / 1e6))} MB`;

class WorldViewer {
  constructor(canvas) {
    this.canvas = canvas;
    this.scene = new Scene(canvas);
    this.renderer = this.scene.renderer;
    const worker = new Worker("world_worker.js", { type: "module" });
    this.work = new Work(worker, ({ fault }) => this.fail(fault));
    const failed = (fault) => this.fail(fault);
    this.glides = new Glides({ land: (name) => this.land(name), failed });
    Object.assign(this, { set: panel.settings(), saidAt: 0, dirty: true, ended: false });
    this.larger = null; // a picture of another size that is being made
    this.divider = new Divider(canvas, () => { this.dirty = true; });
  }

  async open() {
    try {
      this.about = await this.work.ask({ task: "open", pageOrigin: performance.timeOrigin });
    } catch (fault) {
      this.fail(fault);
      return;
    }
    const heard = { dropped: (name) => this.drop(name), failed: (fault) => this.fail(fault) };
    const { drape, origin: middle, tiles, unit } = this.about;
    const framed = (tile, patch, grounds) => this.framed(tile, patch, grounds);
    this.tiles = new Tiles(tiles, this.work, { ...heard, framed });
    this.finest = new Finest(tiles, this.work, {
      ...heard, framed: (name, patch, offset) => this.put(name, patch, offset),
    });
    this.terrain = new Terrain(this.about, { unit, middle });
    asWorld(this.about);
    this.goHome();
    this.isChosen = this.follow(location.hash) || Boolean(drape); // whether its colours are
    this.takeHands();
    watchTheme((theme) => Object.assign(this, { theme, dirty: true }));
    requestAnimationFrame((now) => this.tick(now));
    if (drape) await layDrape(this.renderer, drape);
  }

  goHome() {
    const stretch = this.terrain.stretch(this.set);
    const { camera, radius } = homeOf(this.about, this.set.upright, this.picture(), stretch);
    Object.assign(this, { camera, radius, dirty: true, home: JSON.stringify(camera) });
  }

  // What was seen whole is so again where it is drawn otherwise.
  stretch() {
    if (this.home === JSON.stringify(this.camera)) this.goHome();
    else this.camera.stretchAs(this.terrain.stretch(this.set));
  }

  // Looks as a link tells, if it tells of a view.
  follow(link) {
    const camera = restored(link);
    if (camera === null) return false;
    camera.stretch = this.terrain.stretch(panel.settings());
    this.camera = camera;
    return true;
  }

  takeHands() {
    const pressed = ["f", "e", "s", "g", "o", "b", "y", "d", "c", "l", 1, 2, 3, 4, 5];
    const keys = Object.fromEntries(pressed.map((key) => [key, panel.KEYS[key]]));
    new Controls(this.canvas, {
      camera: () => this.camera,
      focal: () => this.picture().focal,
      nearest: () => 20,
      farthest: () => 30 * this.radius,
      moved: () => { this.dirty = true; },
      picked: () => {},
      keys: { ...keys, r: () => this.goHome(), p: () => this.savePicture(), h: toggle },
    });
    panel.watchPanel((name) => this.changed(name));
    panel.watchButtons({
      home: () => this.goHome(), unhide: toggle, "copy-link": () => this.copyLink(),
      "save-picture": () => this.savePicture(), "save-obj": () => this.saveMesh("obj"),
      "save-ply": () => this.saveMesh("ply"), "save-glb": () => this.saveMesh("glb"),
    });
    new ResizeObserver(() => { this.dirty = true; }).observe(this.canvas);
    addEventListener("hashchange", () => {
      this.follow(location.hash);
      this.changed("");
    });
    this.changed("");
  }

  changed(name) {
    this.set = panel.settings();
    panel.saySettings(this.set);
    if (name === "up") this.goHome();
    if (name === "exaggeration") this.stretch();
    if (!this.set.beside) this.finest.close();
    this.terrain.say(this.set);
    this.dirty = true;
  }

  picture() { return this.scene.picture(); }

  tick(now) {
    if (this.ended) return;
    const { tiles, set } = this, passed = Math.min(100, now - (this.tickedAt ?? now));
    this.tickedAt = now;
    if (set.round) {
      this.camera.turn((passed / 1000) * CIRCLE, 0);
      this.dirty = true;
    }
    const isFirst = tiles.wanted === null, picture = this.larger ?? this.picture();
    if (isFirst || !set.freeze) tiles.look(this.camera, picture, set, this.about.memory);
    if (set.beside) this.finest.look(this.camera, picture, now);
    if (!this.isChosen && tiles.drawn.length > 0) this.chooseColours();
    this.glides.end(now);
    if (this.dirty || this.glides.isOn(now)) this.draw();
    if (now - this.saidAt > SAY_AGAIN) this.say(now);
    requestAnimationFrame((next) => this.tick(next));
  }

  draw() {
    this.dirty = false;
    this.scene.draw(this.camera, this.look());
  }

  look() {
    return {
      ...this.set, ...this.terrain.look(this.set), names: this.tiles.drawn, theme: this.theme,
      inputs: this.finest.drawn, cut: this.divider.cut, now: performance.now() / 1000,
      frozen: null, reach: 2 * this.radius, deepest: DEEPEST, picked: NO_FACE, hit: null,
    };
  }

  framed(tile, patch, grounds) {
    this.put(tile.name, patch, tile.offset);
    this.glides.take(tile.name, patch, this.set.glide);
    if (grounds && this.terrain.hear(tile.name, grounds, tile.offset)) this.terrain.say(this.set);
  }

  put(name, patch, offset) {
    this.renderer.change(name, patch, offset);
    this.dirty = true;
  }

  // A height field is shown by height at first, once all of it is there.
  chooseColours() {
    this.isChosen = true;
    if (this.terrain.isField(this.set.upright)) panel.choose("height")();
  }

  drop(name) {
    this.renderer.drop(name);
    this.glides.drop(name);
    this.dirty = true;
  }

  // Draws a tile's front itself, now that the nodes that go have come to where they go.
  async land(name) {
    const { patch } = await this.work.ask({ task: "settle", name });
    if (!patch || !this.renderer.has(name)) return; // it was left meanwhile
    this.renderer.change(name, patch, this.tiles.tile(name).offset);
    this.glides.take(name, patch, false);
    this.dirty = true;
  }

  say(now) {
    this.saidAt = now;
    const { faces, nodes, parents } = this.tiles.counts, { open, closed, held } = this.tiles.wanted;
    const rows = [
      ["vertices", counted(nodes)], ["parents shown", `${parents}`],
      ["open tiles", `${open.length}`], ["closed", `${closed.length}`],
      ["memory of programs", `${megabytes(held)} of ${megabytes(this.about.memory)}`],
    ];
    part("faces-said").textContent = counted(faces);
    part("all-said").textContent = `of ${counted(this.about.faces)} triangles`;
    part("rows").replaceChildren(...rows.map(panel.rowOf));
    panel.sayHalves(this.set.beside, this.finest.told);
    const isComing = faces === 0 ? "Opening the tiles in view" : "";
    part("mark").textContent = this.set.freeze ? "LOD is frozen: turn the world" : isComing;
    part("mark").hidden = part("mark").textContent === "";
  }

  // Whether all is shown as it is asked for.
  get isSettled() {
    const { finest, set, tiles } = this;
    if (!tiles?.wanted || tiles.waiting > 0 || !this.glides.isOver) return false;
    if (set.beside && !finest.isThere) return false;
    const names = [...tiles.wanted.open, ...tiles.wanted.closed];
    return !this.dirty && names.every((name) => tiles.isShown(name))
      && names.length === tiles.drawn.length;
  }

  // --- what a user takes away

  async savePicture() {
    const { picture, told } = chosenSize(this.picture(), this.scene.most);
    const name = `${this.about.name}${told}.png`;
    this.larger = picture;
    await this.settled();
    this.scene.drawAs(this.camera, this.look(), picture, 1);
    // What was drawn is there until this task ends.
    this.canvas.toBlob((blob) => download(name, blob), "image/png");
    this.larger = null;
    this.draw();
    panel.tell(`Saved ${name}`);
  }

  async settled() {
    do {
      await new Promise((next) => { requestAnimationFrame(next); });
    } while (!this.isSettled && !this.ended && !this.set.round);
  }

  async saveMesh(format) {
    const { tiles, about: { name, unit, origin } } = this;
    const drawn = tiles.drawn.map((each) => ({ name: each, offset: tiles.tile(each).offset }));
    const { bytes, faces } = await this.work.ask({ task: "mesh", format, drawn, unit, origin });
    download(`${name}-${faces}.${format}`, new Blob([bytes]));
    panel.tell(`Saved ${name}-${faces}.${format}`);
  }

  async copyLink() {
    await copy(`${location.href.replace(/#.*/, "")}#${toldOf(this.camera)}`);
    panel.tell("The link is on the clipboard");
  }

  fail({ reason, cure, isLost = false }) {
    this.ended = true;
    const again = () => { if (!isLost) location.reload(); };
    const label = isLost ? "OK" : "Start it again";
    showFault({ title: "The view has ended", reason, cure, again, label });
    if (this.camera && isLost) returnWhenBack(() => toldOf(this.camera));
  }
}

watchMenu();
if (await isThere()) boot((canvas) => new WorldViewer(canvas));
