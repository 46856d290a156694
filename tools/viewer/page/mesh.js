// The mesh that is drawn. It is the front's; and where the front became coarser it stays as it was
// for a while, as the nodes that go glide to where the node stands that took their place. So it is
// always the front or finer. It works in the page's worker, and tells the page which cells of its
// textures become others.
//
// A face is in a front where its corners' ancestors are three nodes there, and these are its
// corners. So the faces of two fronts together are those of the finer of both, wherever one looks,
// and a face that goes is flat once all nodes have come to where they go.
//
// What a change takes goes up with what it changes, and not with what is drawn: faces that go late
// are found by the nodes at their corners, and nothing is made anew for a node or a face.
import { Bends } from "./bends.js";
import { cellsOf, cornersAt } from "./cells.js";
import { drawnFirst } from "./first.js";
import { Front, check } from "./front.js";
import { NO_PARENT } from "./hierarchy.js";
import { Late } from "./late.js";
import { GLIDE, THERE, eased } from "./layout.js";
import { Leaving } from "./leaving.js";
import { putNormal } from "./normals.js";
import { Marked, Row, Slots } from "./slots.js";

export class KeptMesh {
  // `colours` has four bytes for each node, or is null; `spots` are those of a texture, or null.
  constructor(hierarchy, colours, spots = null) {
    const count = hierarchy.parents.length, { faces } = hierarchy;
    Object.assign(this, { hierarchy, spots, front: new Front(hierarchy) });
    this.colours = colours && new Uint32Array(colours.buffer, colours.byteOffset, count);
    this.corners = new Int32Array(3 * faces);   // the nodes at a drawn face's corners
    this.uses = new Int32Array(count);          // how many drawn faces have a node
    this.goals = new Int32Array(count);         // the front's node to which a node glides
    this.starts = new Float32Array(4 * count);  // where its glide began, and when
    this.touched = { nodes: new Marked(count), faces: new Marked(faces) };
    this.split = new Marked(count);   // drawn nodes that a change splits
    this.landing = new Marked(count); // nodes of the front that are drawn from now on
    this.coming = new Marked(faces);  // faces that a change brings
    this.near = new Marked(faces);    // late faces at nodes that go
    this.three = new Int32Array(3);   // the corners that a face gets
    this.normal = new Float64Array(3);
    this.clear();
  }

  // Nothing is drawn.
  clear() {
    const { parents: { length: count }, faces } = this.hierarchy;
    this.front.clear();
    this.nodes = new Slots(count);
    this.faces = new Row(faces);
    this.leaving = new Leaving(count);
    this.late = new Late(count, this.corners);
    this.bends = new Bends(count, this.corners, this.hierarchy);
    this.uses.fill(0);
    const { split, landing, coming, near, touched } = this;
    for (const marked of [split, landing, coming, near, touched.nodes, touched.faces]) {
      marked.clear();
    }
  }

  // Draws a frame, whatever is drawn now, and gives what becomes another as `take` does.
  show(frame, now) {
    const isNew = this.nodes.size === 0 && this.front.nodes.size === 0;
    return isNew ? drawnFirst(this, frame) : this.take(this.front.changeTo(frame), now);
  }

  // Does what a change says, and gives what becomes another in textures. With `now`, in seconds,
  // nodes glide from where they or their elders are seen then; where it is null, none does.
  take(change, now) {
    const { facesGone, nodesGone, nodesCome, facesPut } = change, { coming, split } = this;
    this.front.take(change);
    for (let i = 0; i < nodesGone.length; i++) this.leave(nodesGone[i], now);
    for (let i = 0; i < nodesCome.length; i++) this.begin(nodesCome[i], now);
    for (let i = 0; i < facesGone.length; i++) this.late.set(facesGone[i], true);
    for (let i = 0; i < facesPut.length; i++) {
      if (this.faces.has(facesPut[i])) this.turn(facesPut[i]);
      else coming.add(facesPut[i]);
    }
    this.landUnclear(coming.numbers);
    this.land(now);
    for (let i = 0; i < coming.size; i++) this.putFace(coming.at[i]);
    for (let i = 0; i < split.size; i++) this.removeNode(split.at[i]);
    coming.clear();
    split.clear();
    const changes = {
      nodesCome: nodesCome.length, nodesGone: nodesGone.length,
      facesCome: facesPut.length, facesGone: facesGone.length,
    };
    return { ...this.patch(), changes };
  }

  // Draws the front where glides to it are over.
  settle(now) {
    this.land(now);
    return this.patch();
  }

  // Tells from now on how hollow corners are.
  hollow(hollows) {
    this.bends.hollows = hollows;
    for (let slot = 0; slot < this.faces.size; slot++) this.touched.faces.add(slot);
    return this.patch();
  }

  // --- nodes

  // A node has left the front. What is drawn of it and below it glides to the node that took its
  // place, and back where that one is split again.
  leave(node, now) {
    if (!this.leaving.has(node)) {
      this.depart(node, now);
      return;
    }
    const { next } = this.leaving.nodes;
    for (let one = this.leaving.drop(node); one >= 0;) {
      const after = next[one];
      this.depart(one, now);
      one = after;
    }
  }

  depart(node, now) {
    const goal = this.front.above(node);
    if (goal === NO_PARENT) {
      this.split.add(node);
      return;
    }
    this.putStart(node, node, now);
    this.goals[node] = goal;
    this.touched.nodes.add(node);
    if (goal !== node) this.leaving.add(goal, node, now === null ? -Infinity : now + GLIDE);
  }

  // A node that comes starts where its elder, the ancestor that is drawn, is seen now. One that is
  // drawn already, or for which others are, has been told by `leave`.
  begin(node, now) {
    const { nodes, leaving, hierarchy: { parents } } = this;
    if (nodes.has(node) || leaving.has(node)) return;
    let elder = parents[node];
    while (elder !== NO_PARENT && !nodes.has(elder)) elder = parents[elder];
    if (elder === NO_PARENT) this.starts[4 * node + 3] = THERE;
    else this.putStart(node, elder, now);
    this.addNode(node);
  }

  // Lets a glide begin where another node is seen now.
  putStart(node, seen, now) {
    const { starts, goals, hierarchy: { places } } = this, at = 4 * node, from = 4 * seen;
    const part = now === null ? 1 : eased((now - starts[from + 3]) / GLIDE);
    for (let axis = 0; axis < 3; axis++) {
      const start = starts[from + axis], end = places[3 * goals[seen] + axis];
      starts[at + axis] = start + (end - start) * part;
    }
    this.spots?.begin(node, seen, goals[seen], part);
    starts[at + 3] = now ?? THERE;
  }

  addNode(node) {
    this.goals[node] = node;
    this.nodes.add(node);
    this.touched.nodes.add(node);
  }

  removeNode(node) {
    check(this.uses[node] === 0);
    this.nodes.remove(node);
  }

  // --- faces

  // The front has other corners for a drawn face: it gets those that are drawn.
  turn(face) {
    const { corners, front, nodes, three } = this, first = 3 * face;
    for (let i = 0; i < 3; i++) {
      const node = front.corners[first + i];
      three[i] = nodes.has(node) ? node : corners[first + i];
    }
    this.setCorners(face);
  }

  // Gives a drawn face the corners `three`.
  setCorners(face) {
    const { corners, front, three } = this, first = 3 * face;
    let moves = false, isLate = !front.faces.has(face);
    for (let i = 0; i < 3; i++) {
      if (three[i] !== corners[first + i]) moves = true;
      if (three[i] !== front.corners[first + i]) isLate = true;
    }
    if (moves) {
      this.late.set(face, false);
      this.shade(face, -1);
      corners[first] = three[0]; corners[first + 1] = three[1]; corners[first + 2] = three[2];
      this.shade(face, 1);
      this.touched.faces.add(this.faces.of[face]);
    }
    this.late.set(face, isLate);
  }

  putFace(face) {
    const { corners, front, nodes } = this;
    for (let at = 3 * face; at < 3 * face + 3; at++) {
      corners[at] = front.corners[at];
      check(nodes.has(corners[at]));
    }
    this.faces.add(face);
    this.shade(face, 1);
    this.touched.faces.add(this.faces.of[face]);
  }

  removeFace(face) {
    this.late.set(face, false);
    this.shade(face, -1);
    this.touched.faces.add(this.faces.of[face]);
    this.faces.remove(face);
  }

  // Counts a face for its nodes and for the normals there, or takes it off.
  shade(face, sign) {
    const { bends, corners, normal, uses, touched: { nodes }, hierarchy: { places } } = this;
    const at = 3 * face, a = corners[at], b = corners[at + 1], c = corners[at + 2];
    putNormal(places, 3 * a, 3 * b, 3 * c, normal);
    if (sign > 0) bends.add(face, normal);
    else bends.remove(face);
    uses[a] += sign; uses[b] += sign; uses[c] += sign;
    nodes.add(a); nodes.add(b); nodes.add(c);
  }

  // --- the ends of glides

  // Nodes of the front that have to be drawn at once: at which a face comes, or a face goes of
  // which another corner is split. What is told of a face doesn't say which of several drawn nodes
  // would be its corner then.
  landUnclear(come) {
    const { front, late, leaving, landing, near, split } = this;
    for (let i = 0; i < come.length; i++) {
      for (let at = 3 * come[i]; at < 3 * come[i] + 3; at++) {
        if (leaving.has(front.corners[at])) landing.add(front.corners[at]);
      }
    }
    for (let i = 0; i < split.size; i++) late.markAt(split.at[i], near);
    for (let i = 0; i < near.size; i++) {
      if (!front.faces.has(near.at[i])) landing.add(this.meeting(near.at[i]));
    }
    near.clear();
  }

  // Where two corners of a face that goes come together.
  meeting(face) {
    const { corners, goals } = this, at = 3 * face;
    const a = goals[corners[at]], b = goals[corners[at + 1]], c = goals[corners[at + 2]];
    const goal = a === b ? a : c;
    check((a === b || b === c || c === a) && this.leaving.has(goal));
    return goal;
  }

  // Draws the nodes of the front that land, also those whose glides are over, and no longer those
  // that glide to them.
  land(now) {
    const { landing, late, leaving, near } = this;
    leaving.markOver(now, landing);
    for (let i = 0; i < landing.size; i++) leaving.markAt(landing.at[i], late, near);
    for (let i = 0; i < near.size; i++) this.landFace(near.at[i]);
    for (let i = 0; i < landing.size; i++) this.landNode(landing.at[i]);
    near.clear();
    landing.clear();
  }

  landFace(face) {
    const { corners, goals, landing, three } = this, first = 3 * face;
    for (let i = 0; i < 3; i++) {
      const node = corners[first + i], goal = goals[node];
      three[i] = landing.has(goal) ? goal : node;
    }
    const isFlat = three[0] === three[1] || three[1] === three[2] || three[2] === three[0];
    if (isFlat) this.removeFace(face);
    else this.setCorners(face);
  }

  landNode(goal) {
    const { nodes } = this.leaving;
    for (let one = this.leaving.drop(goal); one >= 0; one = nodes.next[one]) this.removeNode(one);
    this.starts[4 * goal + 3] = THERE;
    this.addNode(goal);
  }

  // What becomes another in textures, and how large the front and what is drawn are.
  patch() {
    const { nodes, faces, touched, front, leaving } = this;
    const slots = touched.nodes.standing(nodes);
    const cells = cellsOf(this, touched.nodes.numbers, slots);
    this.bends.markAround(touched.nodes.numbers, faces.of, touched.faces);
    const corners = cornersAt(this, touched.faces.below(faces.size));
    touched.nodes.clear();
    touched.faces.clear();
    return {
      nodeCount: front.nodes.size, faceCount: front.faces.size,
      drawn: faces.size, glides: leaving.size > 0,
      nodes: cells, faces: corners,
    };
  }
}
