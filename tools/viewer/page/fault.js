// What ended a view: the reason, what to do about it where somebody knows, and whether the engine
// is gone with all that it knew.
export class Fault extends Error {
  constructor(reason, cure = "", isLost = false) {
    super(reason);
    Object.assign(this, { cure, isLost });
  }
}
