// A mesh to try the page with: a tube along a knot, with ridges that wind around it.
import { cross, plus, scaled, unit } from "../page/matrices.js";

const LONG = 800, ROUND = 48; // vertices along the tube and around it
const TURN = 2 * Math.PI;

// The middle of the tube, at an angle of the knot.
function middle(t) {
  const r = 2 + Math.cos(3 * t);
  return [r * Math.cos(2 * t), r * Math.sin(2 * t), 1.2 * Math.sin(3 * t)];
}

function vertices() {
  const lines = [];
  for (let i = 0; i < LONG; i++) {
    const t = (TURN * i) / LONG, here = middle(t);
    const ahead = unit(plus(middle(t + 1e-3), -1, here));
    const side = unit(cross(ahead, [0, 0, 1])), up = cross(side, ahead);
    for (let j = 0; j < ROUND; j++) {
      const a = (TURN * j) / ROUND + 6 * t;
      const size = 0.42 + 0.05 * Math.cos(6 * (a - 3 * t)) + 0.015 * Math.cos(60 * t);
      const out = plus(scaled(Math.cos(a), side), Math.sin(a), up);
      lines.push(`v ${plus(here, size, out).map((c) => c.toFixed(5)).join(" ")}\n`);
    }
  }
  return lines;
}

function faces() {
  const at = (i, j) => (i % LONG) * ROUND + (j % ROUND) + 1, lines = [];
  for (let i = 0; i < LONG; i++) {
    for (let j = 0; j < ROUND; j++) {
      const [a, b, c, d] = [at(i, j), at(i + 1, j), at(i + 1, j + 1), at(i, j + 1)];
      lines.push(`f ${a} ${b} ${c}\nf ${a} ${c} ${d}\n`);
    }
  }
  return lines;
}

export const sampleText = () => [...vertices(), ...faces()].join("");
