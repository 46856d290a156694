// Mouse, wheel, touch and keys move a camera.
const TURN = 0.005;       // radians a pixel
const KEY_TURN = 0.05;    // radians a press
const KEY_MOVE = 30;      // pixels a press
const KEY_NEARER = 0.92;  // of the distance a press
const WHEEL = 0.0015;     // of the distance's logarithm a pixel
const LINE = 30;          // pixels of a wheel that counts in lines
const STILL = 4;          // pixels that a click may move

const ARROWS = { ArrowLeft: [1, 0], ArrowRight: [-1, 0], ArrowUp: [0, 1], ArrowDown: [0, -1] };

// What hands do. `hands` has `camera()`, `focal()`, `nearest()`, `farthest()`, `moved()`,
// `picked(x, y)`, and by letter the actions of `keys`; it may have `zoomed(factor, x, y)`, which
// goes nearer to a place of the window, and `centred(x, y)`.
export class Controls {
  constructor(canvas, hands) {
    Object.assign(this, { canvas, hands, fingers: new Map(), way: 0, button: 0 });
    this.leaving = new AbortController();
    const { signal } = this.leaving;
    const on = (name, act, options = {}) => {
      canvas.addEventListener(name, (event) => act.call(this, event), { ...options, signal });
    };
    on("pointerdown", this.press);
    on("pointermove", this.drag);
    on("pointerup", this.release);
    on("pointercancel", this.release);
    on("contextmenu", (event) => event.preventDefault());
    on("dblclick", (event) => this.hands.centred?.(event.clientX, event.clientY));
    on("wheel", this.wheel, { passive: false });
    addEventListener("keydown", (event) => this.key(event), { signal });
  }

  // Hands do nothing here any more.
  leave() { this.leaving.abort(); }

  // Goes on with what hands hold of other controls, which they have left.
  goOnAs({ fingers, way, button }) { Object.assign(this, { fingers, way, button }); }

  turn(x, y) {
    this.hands.camera().turn(-x, y);
    this.hands.moved();
  }

  move(x, y) {
    this.hands.camera().move(x * devicePixelRatio, y * devicePixelRatio, this.hands.focal());
    this.hands.moved();
  }

  // Nearer to a place of the window; without one, to what is looked at.
  nearer(factor, at = null) {
    if (at !== null && this.hands.zoomed) {
      this.hands.zoomed(factor, at.x, at.y);
      return;
    }
    this.hands.camera().nearer(factor, this.hands.nearest(), this.hands.farthest());
    this.hands.moved();
  }

  press(event) {
    this.canvas.setPointerCapture(event.pointerId);
    this.canvas.focus();
    this.fingers.set(event.pointerId, { x: event.clientX, y: event.clientY });
    this.way = this.fingers.size > 1 ? Infinity : 0;
    this.button = event.button;
  }

  drag(event) {
    const finger = this.fingers.get(event.pointerId);
    if (finger === undefined) return;
    const before = this.spread();
    const x = event.clientX - finger.x, y = event.clientY - finger.y;
    Object.assign(finger, { x: event.clientX, y: event.clientY });
    this.way += Math.abs(x) + Math.abs(y);
    const after = this.spread();
    if (after !== null) {
      this.move(after.x - before.x, after.y - before.y);
      this.nearer(before.size / after.size, after);
    } else if (this.button !== 0 || event.shiftKey) {
      this.move(x, y);
    } else {
      this.turn(x * TURN, y * TURN);
    }
  }

  // Where the middle of two fingers is, and how far they are apart; null of any other number.
  spread() {
    if (this.fingers.size !== 2) return null;
    const [p, q] = [...this.fingers.values()];
    return { x: (p.x + q.x) / 2, y: (p.y + q.y) / 2, size: Math.hypot(p.x - q.x, p.y - q.y) || 1 };
  }

  release(event) {
    if (!this.fingers.delete(event.pointerId)) return;
    const isClick = event.type === "pointerup" && this.way < STILL && this.button === 0;
    if (isClick) this.hands.picked(event.clientX, event.clientY);
  }

  wheel(event) {
    event.preventDefault();
    const pixels = event.deltaY * (event.deltaMode === WheelEvent.DOM_DELTA_LINE ? LINE : 1);
    const factor = Math.exp(Math.max(-200, Math.min(200, pixels)) * WHEEL);
    this.nearer(factor, { x: event.clientX, y: event.clientY });
  }

  key(event) {
    if (event.ctrlKey || event.metaKey || event.altKey) return;
    const arrow = ARROWS[event.key], act = this.hands.keys[event.key.toLowerCase()];
    if ((arrow || event.key === " ") && event.target.matches?.("input, button, select")) return;
    if (arrow) {
      if (event.shiftKey) this.move(arrow[0] * KEY_MOVE, arrow[1] * KEY_MOVE);
      else this.turn(arrow[0] * KEY_TURN, arrow[1] * KEY_TURN);
    } else if (event.key === "+" || event.key === "=") this.nearer(KEY_NEARER);
    else if (event.key === "-") this.nearer(1 / KEY_NEARER);
    else if (act && !event.repeat) act();
    else return;
    event.preventDefault();
  }
}
