// Simplifies in steps, so that whoever waits is told how far it is: the stream is the one that the
// engine makes at once.
const A_STEP = 100;   // milliseconds that a step takes, or so
const FIRST = 256;    // collapses of the first step
const MOST = 1 << 20; // as many as any mesh allows
const LESS = 0.5, MORE = 4; // what a step may be of the one before

// How many collapses take the time of a step, if so many took these milliseconds.
function nextOf(collapses, milliseconds) {
  const factor = Math.min(MORE, Math.max(LESS, A_STEP / milliseconds));
  return Math.min(MOST, Math.max(1, Math.round(factor * collapses)));
}

// What is done at least; all where the end may come any time.
function shareOf({ faces, facesLeft, ended }, target) {
  return ended || faces <= target ? 1 : (faces - facesLeft) / (faces - target);
}

// The stream of a text. `told` is called with the { share } that is done, from 0 to 1: before the
// text is read, before the first step and after each. An older engine simplifies at once, and tells
// nothing.
export function simplified(engine, text, asked, told) {
  if (!engine.memory.functions.vdpm_simplify_begin) return engine.simplify(text, asked);
  told({ share: 0 });
  const run = engine.simplifying(text, asked), target = asked.faces ?? 0;
  try {
    let most = FIRST;
    for (let done = run.more(0); !done.ended;) {
      told({ share: shareOf(done, target) });
      const begun = performance.now();
      done = run.more(most);
      most = nextOf(most, performance.now() - begun);
    }
    told({ share: 1 });
    return run.stream();
  } finally {
    run.close();
  }
}
