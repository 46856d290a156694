// What stays where a model makes way for a finer one of the same file: the camera, the settings,
// and what hands hold.
import { toldOf } from "../page/link.js";

export function keptOf({ camera, controls, frozen, steering }) {
  return { link: toldOf(camera), controls, frozen, isAtHome: steering.isAtHome };
}

// A viewer whose model is shown by the link that was kept goes on as the one before did. Who saw
// the whole sees the whole.
export function goOn(viewer, { controls, frozen, isAtHome }) {
  viewer.controls.goOnAs(controls);
  if (frozen !== null) viewer.change({ frozen });
  else if (isAtHome) viewer.steering.goHome(true);
}
