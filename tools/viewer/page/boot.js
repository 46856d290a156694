// Begins a page.
import { showFault } from "./faults.js";

// Opens the viewer that is made for the page's canvas.
export function boot(viewerFor) {
  const canvas = document.getElementById("picture"), again = () => location.reload();
  try {
    globalThis.viewer = viewerFor(canvas); // there for tests and the browser's console
  } catch (fault) {
    showFault({ title: "Nothing can be drawn", reason: fault.message });
    return;
  }
  canvas.addEventListener("webglcontextlost", () => {
    showFault({ title: "The graphics processor gave up", reason: "Load the page again.", again });
  });
  globalThis.viewer.open();
}
