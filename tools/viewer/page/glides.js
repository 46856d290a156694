// Until when nodes glide, and in which meshes nodes are drawn that the front no longer has.
import { GLIDE } from "./layout.js";

const GLIDES_ON = 50; // milliseconds that are drawn after a glide's end, so that its end is

export class Glides {
  // `land` is called with the name of a mesh whose glides are over, so that it becomes the front,
  // and `failed` with what went wrong.
  constructor({ land, failed }) {
    Object.assign(this, { land, failed, until: 0, going: new Set(), landing: new Set() });
  }

  // Something of a mesh has become another.
  take(name, { glides, changes }, isWanted) {
    const moves = isWanted && (changes?.nodesCome > 0 || changes?.nodesGone > 0);
    if (moves) this.until = performance.now() + 1000 * GLIDE + GLIDES_ON;
    if (glides) this.going.add(name);
    else this.going.delete(name);
  }

  drop(name) { this.going.delete(name); }

  isOn(now) { return now < this.until; }

  get isOver() { return this.going.size === 0 && !this.isOn(performance.now()); }

  // Lets meshes become their fronts where glides are over.
  end(now) {
    if (this.isOn(now)) return;
    for (const name of this.going) {
      if (this.landing.has(name)) continue;
      this.landing.add(name);
      this.land(name).catch(this.failed).finally(() => this.landing.delete(name));
    }
  }
}
