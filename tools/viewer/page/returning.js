// Where its server went away a page looks from time to time whether it is back, which it is at the
// same address where it was started by the same words; and then goes on from where it was.
const AGAIN = 1000; // milliseconds

let waits = false;

// `link` gives what tells the view that is seen.
export function returnWhenBack(link) {
  if (waits) return;
  waits = true;
  const look = async () => {
    const answer = await fetch("alive", { cache: "no-store" }).catch(() => null);
    if (!answer?.ok) {
      setTimeout(look, AGAIN);
      return;
    }
    history.replaceState(null, "", `${location.search}#${link()}`);
    location.reload();
  };
  setTimeout(look, AGAIN);
}
