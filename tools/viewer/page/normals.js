// Normals of faces, and for smooth shading of films those of nodes: a node's is the sum of those of
// its faces, each as long as its face is large.
const LONGEST = 32767;

// The normal of the face whose corners' places stand at a, b and c.
export function putNormal(places, a, b, c, normal) {
  const ax = places[a], ay = places[a + 1], az = places[a + 2];
  const px = places[b] - ax, py = places[b + 1] - ay, pz = places[b + 2] - az;
  const qx = places[c] - ax, qy = places[c + 1] - ay, qz = places[c + 2] - az;
  normal[0] = py * qz - pz * qy;
  normal[1] = pz * qx - px * qz;
  normal[2] = px * qy - py * qx;
}

function addNormal(sums, at, normal, sign) {
  sums[at] += sign * normal[0];
  sums[at + 1] += sign * normal[1];
  sums[at + 2] += sign * normal[2];
}

// A sum, brought to one length.
function putUnit(sums, at, normals, to) {
  const x = sums[at], y = sums[at + 1], z = sums[at + 2];
  const size = LONGEST / (Math.sqrt(x * x + y * y + z * z) || 1);
  normals[to] = x * size; normals[to + 1] = y * size; normals[to + 2] = z * size;
}

// The normals of all nodes of a mesh, whose places and corners have four numbers each.
export function putNormals({ places, nodeCount, corners, faceCount }, normals) {
  const sums = new Float64Array(4 * nodeCount), normal = new Float64Array(3);
  for (let i = 0; i < 4 * faceCount; i += 4) {
    const a = 4 * corners[i], b = 4 * corners[i + 1], c = 4 * corners[i + 2];
    putNormal(places, a, b, c, normal);
    for (const corner of [a, b, c]) addNormal(sums, corner, normal, 1);
  }
  for (let i = 0; i < 4 * nodeCount; i += 4) putUnit(sums, i, normals, i);
}
