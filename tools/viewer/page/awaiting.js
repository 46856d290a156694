// Waits until a server has its model, and shows meanwhile how far it is.
import { fetched } from "./connection.js";
import { hideDoing, sayDoing } from "./doing.js";
import { showFault } from "./faults.js";

const AGAIN = 300; // milliseconds between two questions
const pause = (time) => new Promise((go) => { setTimeout(go, time); });

// Whether it has it; otherwise why not was told.
export async function isThere() {
  let isCancelled = false;
  document.getElementById("cancel").onclick = () => {
    isCancelled = true;
    fetched("end", { method: "POST", body: "" }).catch(() => {});
  };
  try {
    for (;;) {
      const { isReady, fault, ...progress } = await (await fetched("progress")).json();
      if (fault) throw { message: fault.reason, cure: fault.cure };
      if (isReady) break;
      sayDoing(progress);
      await pause(AGAIN);
    }
  } catch ({ message: reason, cure = "" }) {
    hideDoing();
    if (isCancelled) showFault({ title: "Cancelled", reason: "./viewer has ended." });
    else showFault({ title: "This can't be shown", reason, cure });
    return false;
  }
  hideDoing();
  return true;
}
