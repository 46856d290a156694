// The mesh of the program's front, kept by what changes (docs/FORMATS.md). A change has, as arrays
// of numbers, what is gone, which nodes come, and which faces come or have other corners, with
// three nodes for each; a frame has its nodes, its faces, and three nodes for each.
import { NO_PARENT } from "./hierarchy.js";
import { Marked, Row } from "./slots.js";

// A change that leads from another mesh than the one that is kept.
export class OutOfStep extends Error {}

export function check(fits) {
  if (!fits) throw new OutOfStep("the change isn't one of the mesh that is kept");
}

export class Front {
  constructor(hierarchy) {
    const count = hierarchy.parents.length, { faces } = hierarchy;
    this.hierarchy = hierarchy;
    this.corners = new Int32Array(3 * faces); // the nodes at a face's corners
    this.uses = new Int32Array(count);        // how many faces have a node
    this.clear();
  }

  // Nothing is shown.
  clear() {
    this.nodes = new Row(this.hierarchy.parents.length);
    this.faces = new Row(this.hierarchy.faces);
    this.uses.fill(0);
  }

  // Shows a frame where nothing is shown.
  begin({ nodes: own, faces: numbers, corners: three }) {
    const { corners, faces, nodes, uses } = this;
    nodes.fill(own);
    faces.fill(numbers);
    for (let i = 0, from = 0; i < numbers.length; i++) {
      check(faces.of[numbers[i]] === i);
      for (let at = 3 * numbers[i]; from < 3 * i + 3; at++, from++) {
        check(nodes.has(three[from]));
        corners[at] = three[from];
        uses[three[from]]++;
      }
    }
  }

  // Does what a change says.
  take({ nodeCount, faceCount, facesGone, nodesGone, nodesCome, facesPut, corners }) {
    const { nodes, faces, uses } = this;
    for (let i = 0; i < facesGone.length; i++) this.removeFace(facesGone[i]);
    for (let i = 0; i < nodesGone.length; i++) {
      check(nodes.has(nodesGone[i]));
      nodes.remove(nodesGone[i]);
    }
    for (let i = 0; i < nodesCome.length; i++) {
      check(!nodes.has(nodesCome[i]));
      nodes.add(nodesCome[i]);
    }
    for (let i = 0; i < facesPut.length; i++) this.putFace(facesPut[i], corners, 3 * i);
    check(nodes.size === nodeCount && faces.size === faceCount);
    for (let i = 0; i < nodesGone.length; i++) check(uses[nodesGone[i]] === 0);
  }

  removeFace(face) {
    const { corners, faces, uses } = this, at = 3 * face;
    check(faces.has(face));
    uses[corners[at]]--; uses[corners[at + 1]]--; uses[corners[at + 2]]--;
    faces.remove(face);
  }

  putFace(face, three, from) {
    const { corners, faces, nodes, uses } = this, at = 3 * face, isNew = !faces.has(face);
    for (let i = 0; i < 3; i++) {
      const node = three[from + i], before = corners[at + i];
      check(nodes.has(node));
      if (!isNew && node === before) continue;
      if (!isNew) uses[before]--;
      uses[node]++;
      corners[at + i] = node;
    }
    if (isNew) faces.add(face);
  }

  // The node of the front that is or has a node below it; NO_PARENT where there is none.
  above(node) {
    const { parents } = this.hierarchy;
    let elder = node;
    while (elder !== NO_PARENT && !this.nodes.has(elder)) elder = parents[elder];
    return elder;
  }

  // The change that leads to the mesh of a frame.
  changeTo({ nodes, faces, corners }) {
    const seenNodes = new Marked(this.nodes.of.length);
    const seenFaces = new Marked(this.faces.of.length);
    for (let i = 0; i < nodes.length; i++) seenNodes.add(nodes[i]);
    for (let i = 0; i < faces.length; i++) seenFaces.add(faces[i]);
    const others = faces.map((_, i) => i).filter((i) => !this.stands(faces[i], corners, 3 * i));
    const put = new Int32Array(3 * others.length);
    others.forEach((from, to) => put.set(corners.subarray(3 * from, 3 * from + 3), 3 * to));
    return {
      facesGone: this.faces.numbers.filter((face) => !seenFaces.has(face)),
      nodesGone: this.nodes.numbers.filter((node) => !seenNodes.has(node)),
      nodesCome: nodes.filter((node) => !this.nodes.has(node)), nodeCount: nodes.length,
      facesPut: others.map((i) => faces[i]), corners: put, faceCount: faces.length,
    };
  }

  // Whether a face is there with these corners.
  stands(face, three, from) {
    const { corners } = this, at = 3 * face;
    return this.faces.has(face) && corners[at] === three[from]
      && corners[at + 1] === three[from + 1] && corners[at + 2] === three[from + 2];
  }

  // The mesh as a frame has it, with three coordinates for each node.
  frame() {
    const threeOf = (numbers, three) => {
      const found = new Int32Array(3 * numbers.length);
      numbers.forEach((number, i) => found.set(three.subarray(3 * number, 3 * number + 3), 3 * i));
      return found;
    };
    const [nodes, faces] = [this.nodes, this.faces].map(({ numbers }) => numbers.slice().sort());
    const places = threeOf(nodes, this.hierarchy.places);
    return { nodes, places, faces, corners: threeOf(faces, this.corners) };
  }
}
