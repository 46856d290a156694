// Keeps a mesh in step with the program: each view tells what it changes, and a whole frame comes
// first, and wherever a change doesn't lead from the mesh that is kept: where the program was
// started anew, or another page has marked a front meanwhile.
import { OutOfStep } from "./front.js";

const WHOLE = "w\nk\n", CHANGE = "d\n";

export class Follower {
  // `talk` gives the answer to a script. `mark` is the number of the front whose mesh is kept.
  constructor(mesh, talk) {
    Object.assign(this, { mesh, talk, mark: null, isAsked: false });
  }

  // The answer to a view, and what it changes in textures. `clock` gives the seconds for glides, or
  // null. Several views may be on their way.
  async view(line, clock) {
    const ending = this.isAsked ? CHANGE : WHOLE;
    this.isAsked = true; // the whole frame comes before the replies to what is sent from here on
    try {
      const answer = await this.talk(`${line}\n${ending}`), patch = this.taken(answer, clock);
      if (patch !== null) return { ...answer, patch };
      // The view is asked for again, since another page may have asked for others meanwhile.
      const whole = await this.talk(`${line}\n${WHOLE}`);
      return { ...whole, patch: this.taken(whole, clock) };
    } catch (fault) {
      this.isAsked = false;
      throw fault;
    }
  }

  // Takes a frame or a change; null where the change doesn't lead from the mesh that is kept.
  taken({ frame, change, before, after }, clock) {
    if (!frame && before !== this.mark) return null;
    try {
      const patch = frame ? this.mesh.show(frame, clock()) : this.mesh.take(change, clock());
      this.mark = after;
      return patch;
    } catch (fault) {
      if (!(fault instanceof OutOfStep) || frame) throw fault;
      this.mesh.clear();
      return null;
    }
  }
}
