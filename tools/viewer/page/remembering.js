// Which axis of a file a user chose to point up is known when the file is opened again, as far as
// the browser keeps it.
const keyOf = ({ name }, { faces, low, high }) =>
  `up of ${[name, faces, ...low, ...high].join(" ")}`;

export function rememberUp(about, hierarchy, upright) {
  try {
    localStorage.setItem(keyOf(about, hierarchy), upright);
  } catch { /* it is guessed again */ }
}

// The axis that was chosen, or else the guess.
export function upOf(about, hierarchy) {
  let chosen = null;
  try {
    chosen = localStorage.getItem(keyOf(about, hierarchy));
  } catch { /* nothing is kept here */ }
  return chosen === "y" || chosen === "z" ? chosen : hierarchy.upright;
}
