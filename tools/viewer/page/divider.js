// The line between the level of detail, left of it, and the full model, which one drags.
const FIRST = 0.5, STEP = 0.02; // of the canvas's width
const ARROWS = { ArrowLeft: -STEP, ArrowRight: STEP };

export class Divider {
  // `moved` is called where the line has moved; where `signal` is aborted hands do nothing more.
  constructor(canvas, moved, signal = undefined) {
    Object.assign(this, { canvas, moved, line: document.getElementById("halves") });
    const on = (name, act) => this.line.addEventListener(name, act, { signal });
    on("pointerdown", (event) => {
      this.line.setPointerCapture(event.pointerId);
      event.preventDefault();
      this.line.focus();
    });
    on("pointermove", ({ pointerId, clientX }) => {
      if (this.line.hasPointerCapture(pointerId)) this.put(this.partAt(clientX));
    });
    on("keydown", (event) => {
      const step = ARROWS[event.key];
      if (step === undefined) return;
      event.preventDefault();
      event.stopPropagation(); // arrows turn the model elsewhere
      this.put(this.cut + step);
    });
    on("dblclick", () => this.put(FIRST));
    this.stand(FIRST);
  }

  partAt(clientX) {
    const { left, width } = this.canvas.getBoundingClientRect();
    return (clientX - left) / width;
  }

  put(part) {
    this.stand(part);
    this.moved();
  }

  stand(part) {
    this.cut = Math.min(0.98, Math.max(0.02, part));
    this.line.style.setProperty("--cut", this.cut);
    this.line.ariaValueNow = String(Math.round(100 * this.cut));
  }
}
