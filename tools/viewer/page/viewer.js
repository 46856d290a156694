// The window: asks for the view of the camera, again and again, and draws what came last. It is the
// same over a server and over an engine in the page: what differs is its worker.
import { Divider } from "./divider.js";
import { dropColours } from "./draping.js";
import { showFault } from "./faults.js";
import { Keeping } from "./keeping.js";
import { Glides } from "./glides.js";
import { takeHands } from "./hands.js";
import { shadeHollows } from "./hollowing.js";
import { restored } from "./link.js";
import * as panel from "./panel.js";
import { met, sentence } from "./picking.js";
import { upOf } from "./remembering.js";
import { NO_FACE, watchTheme } from "./renderer.js";
import { Session } from "./session.js";
import { Steering } from "./steering.js";
import { Terrain } from "./terrain.js";
import { layPictures } from "./texturing.js";
import { Views } from "./views.js";

const CIRCLE = 0.25;        // radians a second of the slow circle
const BUDGET_SETTLES = 400; // milliseconds until a budget that is being changed is taken
const SAY_AGAIN = 100;      // milliseconds between two sayings of the counters

// Words of the address, for tests and measurements: scripts on their way at once, and whether
// drawing is waited for.
const words = new URLSearchParams(location.search);
const ahead = Number(words.get("ahead")) || 2;
const measures = words.has("measure");

export class Viewer {
  // `work` is the page's end of its worker. `toggled` shows or hides the settings, and `failed`, if
  // it is given, tells what ended the view.
  constructor(scene, work, { toggled, failed = null }) {
    Object.assign(this, { scene, work, toggled, failedOver: failed });
    this.leaving = new AbortController();
    this.set = panel.settings();
    this.frozen = null;          // the camera whose front is kept, with its picture
    this.hit = null;             // what a click met
    this.dirty = true;           // whether what is drawn isn't what is known
    this.wakes = false;          // whether a picture is going to be made
    this.budgetAt = null;        // when a budget that was changed is taken
    this.fronts = 0;             // how many were shown
    this.firstDrawn = new Promise((resolve) => { this.sawFirst = resolve; });
    this.inputState = "unasked";
    this.shown = null;           // the counts and times of the front
    this.times = { put: 0, draw: 0, said: 0, draws: [], fronts: [] };
    this.log = [];               // all times, where they are measured
    const fail = (fault) => this.fail(fault), framed = (answer) => this.framed(answer);
    this.glides = new Glides({ land: () => this.land(), failed: fail });
    this.views = new Views(this.work, ahead, { framed, failed: fail });
    const told = (level) => panel.sayLevel(level, this.about, this.hierarchy);
    this.session = new Session(this.work, { told, failed: fail });
    this.steering = new Steering(this);
    this.keeping = new Keeping(this);
    this.divider = new Divider(scene.canvas, () => this.change({}), this.leaving.signal);
  }

  async open() {
    try {
      await this.show(await this.work.ask({ task: "open", pageOrigin: performance.timeOrigin }));
    } catch (fault) {
      this.fail(fault);
    }
  }

  // Shows a model that the worker has opened, as a link tells, if that tells of a view.
  async show({ about, hierarchy }, link = location.hash) {
    Object.assign(this, { about, hierarchy });
    this.session.began(about);
    this.terrain = new Terrain(hierarchy.box, hierarchy.grid);
    this.terrain.hear("model", hierarchy.grounds);
    dropColours();
    panel.sayModel(about, { upright: upOf(about, hierarchy) });
    if (!about.coloured && this.terrain.isField(hierarchy.upright)) panel.choose("height")();
    panel.sayPicked(null);
    await layPictures(this.scene.renderer, this.work, about);
    this.set = panel.settings();
    Object.assign(this, await this.steering.whole());
    this.camera = this.linked(link) ?? this.camera;
    this.controls = takeHands(this);
    watchTheme((theme) => this.change({ theme }), this.leaving.signal);
  }

  // The camera that a link tells, whose settings are taken; null where it tells of none.
  linked(link) {
    const camera = restored(link);
    this.takeSettings();
    if (camera !== null) camera.stretch = this.terrain.stretch(this.set);
    return camera;
  }

  takeSettings() {
    this.set = panel.settings();
    panel.saySettings(this.set);
    this.terrain.say(this.set);
    if (this.set.hollows) shadeHollows(this);
  }

  // Takes what is known now, which has to be drawn.
  change(known) {
    Object.assign(this, known, { dirty: true });
    this.wake();
  }

  // Pictures are made while something happens, and none at rest.
  wake() {
    if (this.wakes) return;
    this.wakes = true;
    requestAnimationFrame((now) => this.tick(now));
  }

  settingChanged(name) {
    this.takeSettings();
    if (name === "freeze") this.frozen = this.set.freeze ? this.seen() : null;
    if (name === "budget") this.budgetAt = performance.now() + BUDGET_SETTLES;
    if (name === "up") this.steering.turnUp();
    if (name === "exaggeration") this.steering.stretch(this.terrain.stretch(this.set));
    if (name === "beside" && this.set.beside) this.showInput();
    this.change({});
  }

  moved() {
    if (this.frozen === null) this.views.moved();
    this.change({});
  }

  // --- one picture

  tick(now) {
    const passed = Math.min(100, now - (this.tickedAt ?? now));
    Object.assign(this, { tickedAt: now, wakes: false });
    if (this.steering.isFlying) this.steering.flyOn(now);
    else if (this.set.round) {
      this.camera.turn((passed / 1000) * CIRCLE, 0);
      this.moved();
    }
    if (this.session.isRunning) this.goOn(now);
    if (this.isDone) this.session.askLevel(this.fronts);
    this.glides.end(now);
    if (this.dirty || this.glides.isOn(now)) this.draw(now);
    if (now - this.times.said > SAY_AGAIN && this.shown !== null) this.say(now);
    // Counters go on for a second, until all that they count is past.
    if ((!this.session.ended && !this.isSettled) || this.times.draws.length > 0) this.wake();
  }

  goOn(now) {
    const { camera, picture } = this.frozen ?? this.seen();
    if (this.budgetAt !== null && now > this.budgetAt) this.takeBudget();
    this.views.ask(camera, picture, this.set, now);
  }

  draw(now) {
    if (this.shown === null) return; // what another window drew stays until then
    this.dirty = false;
    const begun = performance.now();
    this.scene.draw(this.camera, this.look(begun / 1000));
    if (measures) this.scene.renderer.finish();
    this.times.draw = performance.now() - begun;
    this.times.draws.push(now);
    if (measures) this.log.push({ draw: this.times.draw });
  }

  // How the scene is drawn at a time, in seconds.
  look(now) {
    return {
      ...this.set,
      ...this.terrain.look(this.set),
      cut: this.divider.cut,
      theme: this.theme,
      now,
      frozen: this.frozen,
      reach: 2 * this.radius,
      deepest: this.hierarchy.deepest,
      side: this.hierarchy.side,
      picked: this.hit?.face ?? NO_FACE,
      hit: this.hit && this.camera.stretch.drawn(this.hit.place),
    };
  }

  picture() { return this.scene.picture(); }

  // The camera as it is now, and its picture.
  seen() { return { camera: this.camera.copy(), picture: this.picture() }; }

  say(now) {
    const { shown, times, set, hierarchy: { faces: all }, views: { left } } = this;
    const { put, draw, draws, fronts } = times;
    times.said = now;
    for (const ago of [draws, fronts]) while (ago[0] < now - 1000) ago.shift();
    const mark = set.freeze ? "LOD is frozen: turn the model" : "";
    const rates = { pictures: draws.length, fronts: fronts.length };
    panel.sayCounters({ shown, all, left, put, draw, ...rates, mark });
    panel.sayHalves(set.beside, panel.INPUT_SAID[this.inputState]);
  }

  // Whether the front is the one that is asked for, so that it stays until a hand moves.
  get isDone() {
    const now = performance.now(), { views } = this;
    if (this.shown === null || !this.session.isRunning || this.budgetAt !== null) return false;
    if (this.steering.isFlying || this.steering.goesHome) return false;
    if (this.set.round || !views.isIdle || views.goesOn) return false;
    const { camera, picture } = this.frozen ?? this.seen();
    return views.isAtRest(now) && views.asked === views.line(camera, picture, this.set, now);
  }

  // Whether all that is asked for is shown and told.
  get isSettled() {
    const { session: { knownOf, budget }, fronts, set } = this;
    if (!this.isDone || this.dirty || !this.glides.isOver) return false;
    return knownOf === fronts && budget === set.budget;
  }

  // --- what comes from the program

  framed({ patch, times, moves }) {
    const begun = performance.now();
    this.fronts++;
    this.scene.renderer.change("front", patch);
    if (measures) this.scene.renderer.finish();
    this.times.put = performance.now() - begun;
    const { nodeCount, faceCount, changes } = patch;
    this.glides.take("front", patch, this.set.glide);
    if (this.fronts === 1) requestAnimationFrame(() => requestAnimationFrame(this.sawFirst));
    this.change({ shown: { nodeCount, faceCount, changes, moves, times } });
    this.times.fronts.push(begun);
    if (measures) this.log.push({ put: this.times.put, ...this.shown });
  }

  // Draws the front itself, now that the nodes that go have come to where they go.
  async land() {
    const { patch } = await this.work.ask({ task: "settle" });
    this.scene.renderer.change("front", patch);
    this.glides.take("front", patch, false);
    this.change({});
  }

  async showInput() {
    if (this.inputState !== "unasked") return;
    this.inputState = "asked";
    try {
      const { patch } = await this.work.ask({ task: "input" });
      this.scene.renderer.change("input", patch);
      this.change({ inputState: "shown" });
    } catch (fault) {
      this.inputState = "unasked";
      this.fail(fault);
    }
  }

  // Makes way for another window on the same canvas.
  close() {
    this.session.ended = true;
    this.shown = null;
    this.controls?.leave();
    this.leaving.abort();
    for (const name of ["front", "input"]) this.scene.renderer.drop(name);
    this.work.end();
  }

  // Where the engine is lost what was drawn last can still be looked at.
  fail({ reason, cure = "", isLost = false }) {
    this.session.ended = true;
    if (this.failedOver !== null) {
      this.failedOver({ reason, cure });
      return;
    }
    const again = () => {
      if (this.about === undefined) location.reload();
      else if (!isLost) this.restart();
    };
    const label = isLost ? "OK" : "Start it again";
    showFault({ title: "The view has ended", reason, cure, again, label });
  }

  // Another budget is a line of the script, and the front is kept.
  async takeBudget() {
    this.budgetAt = null;
    await this.session.takeBudget(this.set.budget);
    this.views.tryAgain();
    this.wake();
  }

  async restart() {
    this.budgetAt = null;
    await this.session.start(this.set.budget);
    this.views.forget();
    this.change({});
  }

  async pick(clientX, clientY) {
    if (!this.session.isRunning || !this.set.picks) return;
    const at = this.scene.placeAt(clientX, clientY);
    try {
      this.hit = await met(this.work, this.camera, this.picture().focal, ...at);
    } catch (fault) {
      this.fail(fault);
    }
    panel.sayPicked(this.hit && sentence(this.hit, this.about, this.hierarchy));
    this.change({});
  }
}
