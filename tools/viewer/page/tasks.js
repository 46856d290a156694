// What workers of pages have in common. A message has a task and a number; the answer has the same
// number, and what the task gives or its fault.

let origin = 0; // when the page's clock began

export function startClock(pageOrigin) { origin = pageOrigin; }

// Seconds of the page's clock, since a worker's own began later.
export const clock = () => (performance.timeOrigin + performance.now() - origin) / 1000;

// What of a patch is handed over to the page, and not copied.
function handedOver(patch) {
  const groups = patch ? [patch.nodes, patch.faces] : [];
  return groups.flatMap((cells) => Object.values(cells).map((array) => array.buffer));
}

// Answers the page's messages by the functions of these names.
export function answerBy(tasks) {
  self.onmessage = async ({ data }) => {
    const { task, number, ...asked } = data;
    try {
      const answer = await tasks[task](asked);
      postMessage({ number, answer }, handedOver(answer.patch));
    } catch (fault) {
      const { message: reason, cure = "", isLost = false, isShort = false } = fault;
      postMessage({ number, fault: { reason, cure, isLost, isShort } });
    }
  };
}
