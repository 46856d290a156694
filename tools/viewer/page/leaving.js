// For nodes of the front that aren't drawn yet: the nodes that are, as they glide there, and until
// when.
import { Lists, Row } from "./slots.js";

export class Leaving {
  constructor(count) {
    this.goals = new Row(count);
    this.nodes = new Lists(count, count); // those that glide to each goal
    this.until = new Float64Array(count);
  }

  get size() { return this.goals.size; }

  has(goal) { return this.goals.has(goal); }

  // A node glides to a goal, and all that do then have until that time.
  add(goal, node, until) {
    if (!this.goals.has(goal)) this.goals.add(goal);
    this.nodes.add(goal, node);
    this.until[goal] = until;
  }

  // No node glides to a goal any more. Gives the first of those that did, or NOWHERE.
  drop(goal) {
    this.goals.remove(goal);
    return this.nodes.drop(goal);
  }

  // Marks the faces at nodes that glide to a goal. All of them are late.
  markAt(goal, late, marked) {
    const { first, next } = this.nodes;
    for (let node = first[goal]; node >= 0; node = next[node]) late.markAt(node, marked);
  }

  // Marks the goals to which glides are over, or all where it is null.
  markOver(now, landing) {
    const { goals, until } = this;
    for (let i = 0; i < goals.size; i++) {
      if (now === null || until[goals.at[i]] <= now) landing.add(goals.at[i]);
    }
  }
}
