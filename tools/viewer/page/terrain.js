// Terrain in a window: what is known of its heights, and what is told and drawn of that.
import { RAMP, WATER, countedInSteps, heightText, heightsOf, ticksOf } from "./heights.js";
import { Stretch } from "./stretch.js";

const FACES_UP = 0.999; // of a height field's plan at least
const FLAT = 0.5;       // of its breadth a height field is high at most
const WET = 0.01;       // of the plan is level water at least
const part = (name) => document.getElementById(name);
const paint = ([red, green, blue]) => `rgb(${red} ${green} ${blue})`;
const sum = (numbers) => numbers.reduce((a, b) => a + b, 0);

export class Terrain {
  // `box` has the corners `low` and `high`; `grid` leads from there to the file.
  constructor(box, grid) { Object.assign(this, { box, grid, grounds: new Map() }); }

  // Hears what a mesh is as ground (ground.js), whose zero stands at `offset`; and tells whether
  // that is new.
  hear(name, grounds, offset = [0, 0, 0]) {
    if (this.grounds.has(name)) return false;
    this.grounds.set(name, { ...grounds, offset });
    return true;
  }

  of(upright) { return [...this.grounds.values()].map((told) => told[upright]); }

  // Whether the input is a height field: each face is seen from above.
  isField(upright) {
    const { low, high } = this.box, sizes = low.map((c, i) => high[i] - c);
    const tall = upright === "y" ? sizes[1] : sizes[2], all = this.of(upright);
    const broad = Math.max(sizes[0], upright === "y" ? sizes[2] : sizes[1]);
    const plan = sum(all.map((ground) => ground.plan));
    const facing = Math.abs(sum(all.map((ground) => ground.facing)));
    return plan > 0 && tall > 0 && tall < FLAT * broad && facing >= FACES_UP * plan;
  }

  // The height of water, in units of the mesh; null where there is none.
  water(upright) {
    const axis = upright === "y" ? 1 : 2, levels = new Map();
    for (const { offset, [upright]: { level, flat } } of this.grounds.values()) {
      const own = level + offset[axis];
      levels.set(own, (levels.get(own) ?? 0) + flat);
    }
    const [level, flat] = [...levels].reduce((a, b) => (b[1] > a[1] ? b : a), [0, 0]);
    const plan = sum(this.of(upright).map((ground) => ground.plan));
    return flat > 0 && flat >= WET * plan ? level : null;
  }

  heights({ upright }) { return heightsOf(this.box, this.grid, upright, this.water(upright)); }

  stretch({ upright, exaggeration }) {
    return new Stretch(upright, exaggeration, this.box.low[upright === "y" ? 1 : 2]);
  }

  // What the renderer draws by.
  look(set) { return { heights: countedInSteps(this.heights(set)) }; }

  // Tells what of heights is drawn, if anything is.
  say(set) {
    const isColoured = set.colour === "height", told = this.heights(set);
    part("heights").hidden = !isColoured && !set.contours && set.exaggeration === 1;
    part("heights-scale").hidden = !isColoured;
    if (isColoured) sayColours(told);
    const lines = set.contours ? [`Contours every ${heightText(told.step, told)}`] : [];
    if (set.exaggeration !== 1) lines.push(`Drawn ${set.exaggeration} times as high`);
    part("heights-said").replaceChildren(...lines.map((line) => named("p", line)));
  }
}

function named(kind, text) {
  const element = document.createElement(kind);
  element.textContent = text;
  return element;
}

function sayColours(told) {
  const bar = part("heights-bar"), last = RAMP.length - 1;
  const stops = RAMP.map((colour, i) => `${paint(colour)} ${(100 * i) / last}%`);
  bar.style.background = `linear-gradient(to top, ${stops.join(", ")})`;
  bar.style.borderBottom = told.water === null ? "" : `6px solid ${paint(WATER)}`;
  bar.replaceChildren(...ticksOf(told).map(([at, share, what]) => {
    const tick = named("span", `${heightText(at, told)} ${what}`.trim());
    tick.style.bottom = `${100 * share}%`;
    return tick;
  }));
}
