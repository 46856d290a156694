// Plays a film: its frames one after the other, from the flight's camera or from any other.
import { focalOf, homeOf } from "./camera.js";
import { Controls } from "./controls.js";
import { showFault } from "./faults.js";
import { cameraOf, looksOf } from "./flight.js";
import { unpacked } from "./packed.js";
import { Reel } from "./reel.js";
import { NO_FACE, Renderer, watchTheme } from "./renderer.js";

const part = (name) => document.getElementById(name);
const isOn = (name) => part(name).checked;
const counted = (n) => n.toLocaleString("en");

class Film {
  constructor(canvas, reel) {
    const { camera, radius } = homeOf(reel, "z", this.picture());
    Object.assign(this, { canvas, reel, camera, radius, middle: camera.target });
    this.renderer = new Renderer(canvas);
    this.plays = true;
    this.passed = 0;      // of a frame, since the last one
    this.wakes = false;   // whether a picture is going to be made
    this.tickedAt = 0;
    part("at").max = reel.length - 1;
    part("name").textContent = reel.head.name;
    document.title = `${reel.head.name}: a film`;
    part("colour").querySelector("[value=own]").disabled = !reel.head.coloured;
    if (reel.head.coloured) part("colour").value = "own";
    this.looks = looksOf(reel.head.views, this.middle);
    // While a camera moves its views reach a little beyond the picture, so the narrowest is it.
    this.opening = Math.max(0, ...this.looks.map((look) => look?.opening ?? 0));
    this.takeHands();
    watchTheme((theme) => {
      this.theme = theme;
      this.wake();
    });
    this.show(0);
  }

  // A picture is drawn when something changes or the film plays, and none else.
  wake() {
    if (this.wakes) return;
    this.wakes = true;
    requestAnimationFrame((now) => this.tick(now));
  }

  takeHands() {
    this.controls = new Controls(this.canvas, {
      camera: () => this.freed(),
      focal: () => this.picture().focal,
      nearest: () => Math.max(2, this.radius / 400),
      farthest: () => 30 * this.radius,
      moved: () => this.wake(),
      picked: () => {},
      keys: { " ": () => this.playOrPause() },
    });
    part("play").onclick = () => this.playOrPause();
    part("at").oninput = () => {
      this.pause();
      this.show(part("at").valueAsNumber);
    };
    part("bar").addEventListener("submit", (event) => event.preventDefault());
    part("bar").addEventListener("change", () => {
      if (isOn("follow")) this.follow(this.reel.at);
      this.wake();
    });
    addEventListener("resize", () => this.wake());
  }

  // The camera that hands move: it leaves the flight where it is.
  freed() {
    part("follow").checked = false;
    return this.camera;
  }

  playOrPause() {
    if (this.plays) {
      this.pause();
      return;
    }
    if (this.reel.at === this.reel.length - 1) this.show(0);
    Object.assign(this, { plays: true, passed: 0 });
    part("play").textContent = "Pause";
    this.wake();
  }

  pause() {
    this.plays = false;
    part("play").textContent = "Play";
  }

  show(at) {
    this.reel.go(at);
    this.renderer.show("front", this.reel.frame());
    part("at").value = at;
    part("faces-said").textContent = counted(this.reel.faces.size);
    part("all-said").textContent = `of ${counted(this.reel.head.faces)} faces`;
    const step = this.reel.head.steps[at], glide = step ? `, ${step[0]}/${step[1]} of the way` : "";
    part("frame-said").textContent = `frame ${at + 1} of ${this.reel.length}${glide}`;
    if (isOn("follow")) this.follow(at);
    this.wake();
  }

  // Takes the camera from where a frame's view looks.
  follow(at) {
    const look = this.looks[at];
    if (look !== null) this.camera = cameraOf(look, this.middle, this.radius);
  }

  tick(now) {
    const passed = Math.min(0.1, (now - this.tickedAt) / 1000);
    Object.assign(this, { tickedAt: now, wakes: false });
    if (this.plays) this.play(passed);
    this.draw();
    if (this.plays) this.wake();
  }

  play(passed) {
    this.passed += passed * Number(part("speed").value);
    const to = Math.min(this.reel.length - 1, this.reel.at + Math.floor(this.passed));
    this.passed %= 1;
    if (to > this.reel.at) this.show(to);
    if (to === this.reel.length - 1) this.pause();
  }

  picture() {
    const width = Math.max(1, Math.round(innerWidth * devicePixelRatio));
    const height = Math.max(1, Math.round(innerHeight * devicePixelRatio));
    return { width, height, focal: Math.round(this.opening * height) || focalOf(height) };
  }

  draw() {
    const picture = this.picture(), { width, height } = picture, { canvas } = this;
    if (canvas.width !== width || canvas.height !== height) {
      Object.assign(canvas, { width, height });
    }
    this.renderer.draw({
      camera: this.camera,
      picture,
      parts: [{ names: ["front"], left: 0, width }],
      look: {
        colour: part("colour").value,
        smooth: isOn("smooth"),
        edges: isOn("edges"),
        theme: this.theme,
        now: 0,
        frozen: null,
        hit: null,
        picked: NO_FACE,
        reach: 2 * this.radius,
        deepest: this.reel.head.deepest,
      },
    });
  }
}

async function boot() {
  try {
    const reel = new Reel(await unpacked(part("frames").textContent));
    globalThis.film = new Film(part("picture"), reel); // there for tests and the browser's console
  } catch (fault) {
    showFault({ title: "The film can't be played", reason: fault.message });
  }
}

boot();
