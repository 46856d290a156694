// The pace of work that tells which share of it is done, by a clock of milliseconds.
const MEASURED = 1000; // milliseconds from which on a pace can be told

export class Pace {
  constructor(now) { this.tells(0, now); }

  // A share from 0 to 1 is done. As long as that is 0 the work hasn't begun.
  tells(share, now) {
    Object.assign(this, { share, at: now });
    if (share === 0) this.begun = now;
  }

  // The seconds that are left at the pace so far; null while there is none.
  left(now) {
    const { begun, at, share } = this;
    if (share === 0 || now - begun < MEASURED) return null;
    return Math.max(0, begun + (at - begun) / share - now) / 1000;
  }
}
