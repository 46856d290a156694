// Where the camera goes by itself: to where the whole mesh is seen, nearer to what is under the
// pointer, and to a place that becomes the middle.
import { homeOf, wayThrough } from "./camera.js";
import { plus } from "./matrices.js";
import { isStill } from "./panel.js";
import { met } from "./picking.js";
import { rememberUp } from "./remembering.js";

const ROOM = 1.08;    // of the mesh in a picture that shows the whole
const FLIGHT = 350;   // milliseconds of a way, where it may be seen
const CLOSEST = 150;  // parts of the radius that the eye stays away from the surface
const FARTHEST = 30;  // times the radius
const CENTRED = 0.6;  // of the distance from which a place that becomes the middle is seen
const HOLDS = 250;    // milliseconds for which what is under the pointer counts as known
const STRAYS = 12;    // pixels that the pointer may move meanwhile

const length = (p) => Math.hypot(...p);

export class Steering {
  // `viewer` has the camera.
  constructor(viewer) {
    Object.assign(this, { viewer, flight: null, gripped: null, waiting: null, home: null });
    this.finding = 0; // how often the worker is being asked from where the whole is seen
  }

  get isFlying() { return this.flight !== null; }

  // Whether the camera is on its way to where the whole is seen, or will be.
  get goesHome() { return this.finding > 0 || Boolean(this.flight?.isHome); }

  // Whether the camera still is where the whole was seen from.
  get isAtHome() { return this.home !== null && this.home === JSON.stringify(this.viewer.camera); }

  // A camera that sees the whole mesh, in the middle of the picture and as large as it can be; and
  // the mesh's radius.
  async whole() {
    const { hierarchy, set, terrain, work } = this.viewer, picture = this.viewer.picture();
    const stretch = terrain.stretch(set);
    const { camera, radius } = homeOf(hierarchy, set.upright, picture, stretch);
    const axes = camera.axes(), { target } = camera;
    const found = await work.ask({ task: "fit", axes, target, picture, stretch });
    Object.assign(camera, { target: found.target, distance: ROOM * found.distance });
    this.home = JSON.stringify(camera);
    return { camera, radius };
  }

  // Where it is asked for again meanwhile the last one that is found counts.
  async goHome(isQuick = isStill.matches) {
    this.finding++;
    const { camera } = await this.whole().finally(() => { this.finding--; });
    this.fly(camera, { isQuick, isHome: true });
  }

  // Another axis points up, and will when the model is opened again.
  turnUp() {
    const { about, hierarchy, set } = this.viewer;
    rememberUp(about, hierarchy, set.upright);
    this.goHome();
  }

  // The picture has another size: what was seen whole is so again.
  resized() {
    if (this.isAtHome || this.goesHome) this.goHome(true);
  }

  // The mesh is drawn otherwise: what was seen whole is so again.
  stretch(stretch) {
    if (this.isAtHome || this.goesHome) this.goHome();
    else {
      this.stop(); // it leads to where the mesh is drawn as before
      this.viewer.camera.stretchAs(stretch);
    }
    this.viewer.moved();
  }

  // Flies to a camera. It is there at once where that is asked for, or draws the mesh otherwise.
  fly(to, { isQuick = isStill.matches, isHome = false } = {}) {
    const { viewer, viewer: { camera } } = this;
    const isOther = to.upright !== camera.upright || to.stretch.times !== camera.stretch.times;
    this.stop();
    if (isQuick || isOther) viewer.camera = to.copy();
    else this.flight = { from: camera.copy(), to, begun: performance.now(), isHome };
    viewer.moved();
  }

  flyOn(now) {
    const { from, to, begun } = this.flight, part = Math.min(1, Math.max(0, now - begun) / FLIGHT);
    this.viewer.camera = part < 1 ? from.towards(to, part * part * (3 - 2 * part)) : to.copy();
    if (part === 1) this.stop();
    this.viewer.moved();
  }

  stop() { this.flight = null; }

  // What is under the pointer: a place of the mesh, or one as far away as what is looked at.
  async grip(x, y) {
    const now = performance.now(), last = this.gripped;
    const isKnown = last !== null && now - last.at < HOLDS
      && Math.hypot(x - last.x, y - last.y) < STRAYS;
    if (!isKnown) this.gripped = { x, y, ...await this.under(x, y) };
    this.gripped.at = performance.now();
    return this.gripped;
  }

  async under(x, y) {
    const { viewer, viewer: { scene, session, work } } = this, camera = viewer.camera.copy();
    const { focal } = viewer.picture(), at = scene.placeAt(x, y);
    const away = plus(camera.eye(), camera.distance, wayThrough(camera, focal, ...at));
    if (!session.isRunning) return { place: away, isHit: false };
    const hit = await met(work, camera, focal, ...at).catch(() => null);
    const place = hit === null ? away : camera.stretch.drawn(hit.place);
    return { place, isHit: hit !== null };
  }

  // Nearer to what is under the pointer, and never through it. What comes while the engine is asked
  // is done together.
  async zoom(factor, x, y) {
    const isFirst = this.waiting === null;
    this.waiting = (this.waiting ?? 1) * factor;
    if (!isFirst) return;
    const { place } = await this.grip(x, y), all = this.waiting;
    this.waiting = null;
    this.stop();
    const { viewer, viewer: { camera, radius } } = this;
    const away = Math.max(1, length(plus(camera.eye(), -1, place)));
    const least = Math.min(1, Math.max(2, radius / CLOSEST) / away);
    const most = (FARTHEST * radius) / camera.distance;
    camera.scaleAbout(place, Math.min(most, Math.max(least, all)));
    viewer.moved();
  }

  // Makes what is under the pointer the middle; shows the whole where nothing is.
  async centre(x, y) {
    this.gripped = null;
    const { place, isHit } = await this.grip(x, y), to = this.viewer.camera.copy();
    if (!isHit) {
      await this.goHome();
      return;
    }
    to.distance = CENTRED * length(plus(to.eye(), -1, place));
    to.target = place;
    this.fly(to);
  }
}
