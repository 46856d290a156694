// The page that needs no server: a file that is dropped on it, the model that it has in it, or one
// that is beside it on a server, is shown by the engine that it has in it too.
import { toggle, watchMenu } from "../page/bar.js";
import { showFault } from "../page/faults.js";
import { unpacked } from "../page/packed.js";
import { hideComing, sayComing, sayWhole } from "../page/panel.js";
import { NoGraphics } from "../page/renderer.js";
import { Scene } from "../page/scene.js";
import { Viewer } from "../page/viewer.js";
import { Work } from "../page/work.js";
import { Fetching, nameOf } from "./fetching.js";
import { MOST_BYTES, TOO_LARGE, watchFiles } from "./files.js";
import { goOn, keptOf } from "./going_on.js";
import { isPacked } from "./kinds.js";
import { carried } from "./model.js";
import { sampleText } from "./sample.js";
import { ownPage, savePacked, savePage } from "./saving.js";
import { Steps } from "./steps.js";

const part = (name) => document.getElementById(name);
const FIRST = 1 << 12; // bytes of a packed file from which on it is shown

class Alone {
  // `own` is the page as it was written.
  constructor(scene, own) {
    Object.assign(this, { scene, own, viewer: null, steps: null, coming: null, turn: 0 });
    this.fetching = null;
    this.link = location.hash;
    const text = part("worker").textContent;
    this.workerAt = URL.createObjectURL(new Blob([text], { type: "text/javascript" }));
    this.engine = unpacked(part("engine").textContent);
    this.words = JSON.parse(part("words").textContent);
    for (const name of ["open-file", "save-page", "save-packed"]) part(name).hidden = false;
    part("save-page").onclick = () => savePage(this.own, this.viewer);
    part("save-packed").onclick = () => savePacked(this.viewer);
    watchFiles((file, beside) => this.take(file, beside));
    part("cancel").onclick = () => this.cancel();
    part("sample").onclick = () => this.take(new File([sampleText()], "knot.obj"));
  }

  // Builds and shows a file, with what belongs to it of the files that came with it.
  take(file, beside = []) {
    return this.show(file.name, async () => {
      if (file.size > MOST_BYTES) throw TOO_LARGE;
      return { bytes: new Uint8Array(await file.arrayBuffer()), beside };
    });
  }

  // Shows the model that the page has in it.
  async takeOwn() {
    const model = await carried();
    this.link ||= model.known.view ?? "";
    await this.show(model.known.name, async () => ({ model }));
  }

  // Shows the file of an address as it comes: of a packed stream what its first bytes tell, and
  // that anew whenever there are twice as many.
  takeFrom(address) {
    const name = nameOf(address), fetching = new Fetching(sayComing);
    return this.showBy(name, async (turn) => {
      this.fetching = fetching;
      await fetching.begin(address);
      let isFiner = false;
      for (let size = FIRST; await fetching.isCutAt(size); size *= 2) {
        size = Math.max(size, fetching.size);
        const first = fetching.bytes.slice();
        if (isPacked(first)) isFiner = await this.showFirst(turn, { name, first }, isFiner);
      }
      await this.exchangeFor(turn, { name, bytes: fetching.bytes.slice() }, { isFiner });
      if (turn === this.turn) this.leaveFetching();
    });
  }

  // Shows what has come so far, and gives whether anything is shown: at first it may be no mesh
  // yet.
  async showFirst(turn, given, isFiner) {
    try {
      await this.exchangeFor(turn, given, { isFiner, isWhole: false });
      return true;
    } catch (fault) {
      if (!fault.isShort) throw fault;
      this.coming?.end();
      this.coming = null;
      return isFiner;
    }
  }

  // Shows what `read` gives to the worker. What was shown before goes when the new is there.
  show(name, read) {
    return this.showBy(name, async (turn) => {
      await this.exchangeFor(turn, { name, ...await read() });
    });
  }

  async showBy(name, doing) {
    const turn = this.begin(name);
    try {
      this.steps.begin("read");
      await doing(turn);
    } catch (fault) {
      if (turn === this.turn) this.fail(fault);
    }
  }

  begin(name) {
    this.leave();
    this.steps = new Steps(name);
    this.look("doing");
    return ++this.turn;
  }

  // Opens what is given, and shows it. What is finer is shown as what it's finer than was.
  async exchangeFor(turn, given, { isFiner = false, isWhole = true } = {}) {
    const budget = isFiner ? this.viewer.set.budget : undefined;
    const opened = await this.opened(turn, { ...given, budget });
    if (turn === this.turn) await this.exchange(opened, { isFiner, isWhole });
  }

  // What a new worker tells of a model once it has opened it.
  async opened(turn, given) {
    const module = (await this.engine).slice();
    if (turn !== this.turn) return null;
    this.coming = new Work(new Worker(this.workerAt), ({ step, faces, share }) => {
      if (turn !== this.turn) return;
      if (faces !== undefined) this.steps.counts(faces);
      else if (share !== undefined) this.steps.tells(share);
      else this.steps.begin(step);
    });
    const task = { task: "open", pageOrigin: performance.timeOrigin, words: this.words, module };
    const parts = [module, given.bytes, given.first].filter(Boolean);
    const handedOver = parts.map(({ buffer }) => buffer);
    return this.coming.ask({ ...task, ...given }, handedOver);
  }

  async exchange(opened, { isFiner, isWhole }) {
    const { coming: work } = this, kept = isFiner ? keptOf(this.viewer) : { link: this.link };
    Object.assign(this, { coming: null, link: "" }); // a link is of the first model
    this.steps.begin("draw");
    this.viewer?.close();
    this.viewer = new Viewer(this.scene, work, {
      toggled: toggle, failed: (fault) => this.fail(fault),
    });
    globalThis.viewer = this.viewer; // there for tests and the browser's console
    document.body.classList.remove("empty");
    sayWhole(isWhole);
    await this.viewer.show(opened, kept.link);
    if (isFiner) goOn(this.viewer, kept);
    await this.viewer.firstDrawn;
    this.steps.end();
    this.times = { ...this.steps.times, engine: opened.times };
    this.look(null);
  }

  // Ends the worker that builds, in the middle of what it does, and what is fetched.
  leave() {
    this.steps?.end();
    this.coming?.end();
    this.coming = null;
    this.leaveFetching();
  }

  leaveFetching() {
    this.fetching?.end();
    this.fetching = null;
    hideComing();
  }

  cancel() {
    this.turn++;
    this.leave();
    this.lookAgain();
  }

  // Shows the card that asks for a file, the one that tells of steps, or none.
  look(name) {
    for (const each of ["welcome", "doing"]) part(each).hidden = each !== name;
  }

  lookAgain() { this.look(this.viewer === null ? "welcome" : null); }

  fail({ reason, message = "", cure = "" }) {
    this.leave();
    this.look(null);
    const title = "This can't be shown", again = () => this.lookAgain();
    showFault({ title, reason: reason ?? message, cure, again });
  }
}

// Nothing is built that couldn't be drawn.
function boot() {
  const canvas = part("picture"), again = () => location.reload();
  const own = ownPage();
  watchMenu();
  try {
    // There for tests and the browser's console.
    globalThis.alone = new Alone(new Scene(canvas), own);
  } catch (fault) {
    part("welcome").hidden = true;
    const title = fault instanceof NoGraphics ? "Nothing can be drawn" : "The page can't begin";
    showFault({ title, reason: fault.message });
    return;
  }
  canvas.addEventListener("webglcontextlost", () => {
    showFault({ title: "The graphics processor gave up", reason: "Load the page again.", again });
  });
  const address = new URLSearchParams(location.search).get("model");
  if (address !== null) globalThis.alone.takeFrom(address);
  else if (part("model").textContent !== "") globalThis.alone.takeOwn();
}

boot();
