// What is asked of the program beside views and rays: another budget, the level of detail, and to
// be started anew.

export class Session {
  // `told` is called with each level of detail, and `failed` with what went wrong.
  constructor(work, { told, failed }) {
    Object.assign(this, { work, told, failed });
    this.budget = null;      // the one that the program goes by
    this.startedWith = null; // the one that it was started with
    this.starts = false;     // whether it is being started
    this.ended = false;
    this.askedFor = 0;       // the front whose level of detail was asked for last
    this.knownOf = 0;        // the front whose level of detail came last
  }

  // The program runs with these budgets.
  began({ budget, startedWith }) {
    Object.assign(this, { budget, startedWith, ended: false });
  }

  get isRunning() { return !this.starts && !this.ended; }

  // What a script that leaves the front as it is replies; null where the program has ended.
  async ask(script) {
    try {
      const { replies } = await this.work.ask({ task: "ask", script });
      return replies;
    } catch (fault) {
      this.failed(fault);
      return null;
    }
  }

  // Another budget from here on.
  async takeBudget(budget) {
    const replies = await this.ask(`b ${budget}\n`);
    if (replies !== null) this.budget = budget;
  }

  // The level of detail of a front by its number, once for each.
  async askLevel(front) {
    if (this.askedFor === front) return;
    this.askedFor = front;
    const replies = await this.ask("l\n");
    if (replies === null) return;
    this.knownOf = front;
    this.told(replies[0].slice(1).map(Number));
  }

  // Starts the program anew, at the base mesh.
  async start(budget) {
    this.starts = true;
    try {
      await this.work.ask({ task: "start", budget });
      this.began({ budget, startedWith: budget });
    } catch (fault) {
      this.failed(fault);
    }
    this.starts = false;
  }
}
