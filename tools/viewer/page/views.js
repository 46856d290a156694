// Asks the program for the view of the camera, as often as answers come and never more: one is on
// its way while the replies to the one before are read.
import { viewLine } from "./camera.js";

const REST = 160;    // milliseconds without a move until the camera counts as at rest
const MARGIN = 1.15; // of the picture's width and height that is refined while the camera moves

export class Views {
  // `framed` is called with each answer, and `failed` with what went wrong.
  constructor(work, ahead, { framed, failed }) {
    Object.assign(this, { work, ahead, framed, failed });
    Object.assign(this, { sent: 0, asked: null, moves: 0, left: 0, movedAt: -Infinity });
  }

  get isIdle() { return this.sent === 0; }

  moved() { this.movedAt = performance.now(); }

  isAtRest(now) { return now - this.movedAt > REST; }

  // Whether moves are left to make. A budget of no moves leads nowhere, however often one asks.
  get goesOn() { return this.left > 0 && this.moves !== 0; }

  // The program was started anew, and knows of nothing that was asked before.
  forget() { Object.assign(this, { asked: null, moves: 0, left: 0 }); }

  // Goes on where moves are left: the budget is another one.
  tryAgain() { this.moves = null; }

  // The line of a view. While the camera moves, what is just outside the picture is refined too,
  // since it will be inside when it is drawn.
  line(camera, picture, set, now) {
    const [draft, margin] = this.isAtRest(now) ? [1, 1] : [set.draft, MARGIN];
    const [tolerance, outline] = [set.tolerance * draft, set.outline * draft];
    return viewLine(camera, picture, { tolerance, outline, judged: set.judged, margin });
  }

  // Asks if the view is another than the last one, or if that one's budget was spent before its
  // end.
  async ask(camera, picture, set, now) {
    if (this.sent >= this.ahead) return;
    const line = this.line(camera, picture, set, now);
    if (line === this.asked && (!this.goesOn || this.sent > 0)) return;
    this.asked = line;
    this.sent++;
    try {
      const answer = await this.work.ask({ task: "view", line, glides: set.glide });
      const [word, moves, left] = answer.replies[0];
      this.moves = Number(moves);
      this.left = word === "spent" ? Number(left) : 0;
      this.framed({ ...answer, moves: this.moves });
    } catch (fault) {
      this.failed(fault);
    } finally {
      this.sent--;
    }
  }
}
