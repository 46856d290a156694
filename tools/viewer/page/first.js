// The first frame of a mesh. Where nothing is drawn yet nothing glides and no face is late, so that
// all is put where it stands, in the frame's own order, and none has to be looked for.
import { cellsOf, cornersAt } from "./cells.js";
import { THERE } from "./layout.js";
import { putNormal } from "./normals.js";

// The numbers below another, in order.
function allBelow(count) {
  const all = new Int32Array(count);
  for (let i = 0; i < count; i++) all[i] = i;
  return all;
}

function putNodes({ front, goals, nodes: slots, starts, uses }, nodes) {
  slots.fill(nodes);
  uses.set(front.uses);
  for (let i = 0; i < nodes.length; i++) {
    goals[nodes[i]] = nodes[i];
    starts[4 * nodes[i] + 3] = THERE;
  }
}

function putFaces({ bends, corners, front, faces: row, hierarchy: { places }, normal }, faces) {
  row.fill(faces);
  for (let i = 0; i < faces.length; i++) {
    const face = faces[i], at = 3 * face;
    const a = front.corners[at], b = front.corners[at + 1], c = front.corners[at + 2];
    corners[at] = a; corners[at + 1] = b; corners[at + 2] = c;
    putNormal(places, 3 * a, 3 * b, 3 * c, normal);
    bends.add(face, normal);
  }
}

// Draws a frame where nothing is drawn, and gives what becomes another in textures.
export function drawnFirst(mesh, frame) {
  const { nodes, faces } = frame, { length: nodeCount } = nodes, { length: faceCount } = faces;
  mesh.front.begin(frame);
  putNodes(mesh, nodes);
  putFaces(mesh, faces);
  const changes = { nodesCome: nodeCount, nodesGone: 0, facesCome: faceCount, facesGone: 0 };
  return {
    nodeCount, faceCount, drawn: faceCount, glides: false, changes,
    nodes: cellsOf(mesh, nodes, allBelow(nodeCount)),
    faces: cornersAt(mesh, allBelow(faceCount)),
  };
}
