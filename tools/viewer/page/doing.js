// The card that tells which steps are done from a file to its picture, about how much of all that
// is, and about how long the rest takes.
const part = (name) => document.getElementById(name);

// The words for seconds that are guessed: no more exact than the guess is.
function about(seconds) {
  if (seconds < 1.5) return "about a second left";
  if (seconds < 100) return `about ${Math.ceil(seconds)} seconds left`;
  return `about ${Math.ceil(seconds / 60)} minutes left`;
}

function percent(share, simplified) {
  if (simplified !== null) return `${Math.floor(100 * simplified)} % simplified`;
  return share === null ? "" : `about ${Math.min(99, Math.round(100 * share))} %`;
}

// `steps` has what is said of each and its state, "done", "now" or "". `share` and `left`, in
// seconds, are guesses, and null where nothing can be guessed. `simplified` is the share that the
// engine tells of that step, null where it tells none.
export function sayDoing({ name, steps, share, left, simplified = null }) {
  part("doing").hidden = false;
  part("doing-name").textContent = name;
  const lines = steps.map(([said, state]) => {
    const line = document.createElement("li");
    line.textContent = said;
    line.className = state;
    return line;
  });
  // Nothing is told again that stays as it is: a screen reader would say it.
  const were = [...part("steps").children];
  const isOther = (line, i) => were[i]?.outerHTML !== line.outerHTML;
  if (were.length !== lines.length || lines.some(isOther)) part("steps").replaceChildren(...lines);
  if (share === null) part("share").removeAttribute("value");
  else part("share").value = Math.min(1, share);
  const rest = left === null ? "" : about(left);
  part("doing-said").textContent = [percent(share, simplified), rest].filter(Boolean).join(", ");
}

export function hideDoing() { part("doing").hidden = true; }
