// What stands in the cells of a drawn mesh's textures, four numbers each.

// Of nodes, by their numbers and where they stand: the places to which they glide, with their
// depths; where and when their glides began; and colours and where they are in pictures, where
// there are some.
export function cellsOf(mesh, numbers, slots) {
  const { goals, starts: from, colours, hierarchy: { places: own, depths } } = mesh;
  const size = 4 * numbers.length;
  const places = new Int16Array(size), starts = new Float32Array(size);
  for (let i = 0, at = 0; at < size; i++, at += 4) {
    const node = numbers[i], place = 3 * goals[node], start = 4 * node;
    places[at] = own[place]; places[at + 1] = own[place + 1]; places[at + 2] = own[place + 2];
    places[at + 3] = depths[node];
    starts[at] = from[start]; starts[at + 1] = from[start + 1];
    starts[at + 2] = from[start + 2]; starts[at + 3] = from[start + 3];
  }
  const cells = { slots, places, starts };
  if (colours !== null) cells.colours = coloursOf(colours, numbers);
  if (mesh.spots !== null) cells.spots = mesh.spots.cells(numbers, goals);
  return cells;
}

// Of four bytes each, which go as one number.
function coloursOf(all, nodes) {
  const colours = new Uint32Array(nodes.length);
  for (let i = 0; i < nodes.length; i++) colours[i] = all[nodes[i]];
  return new Uint8Array(colours.buffer);
}

// Of faces, by where they stand: their corners, by where the nodes stand, and the faces' numbers;
// and the normals of the corners.
export function cornersAt({ bends, corners: all, faces, nodes: { of } }, slots) {
  const corners = new Uint32Array(4 * slots.length);
  for (let i = 0, to = 0; i < slots.length; i++, to += 4) {
    const face = faces.at[slots[i]], from = 3 * face;
    corners[to] = of[all[from]];
    corners[to + 1] = of[all[from + 1]];
    corners[to + 2] = of[all[from + 2]];
    corners[to + 3] = face;
  }
  return { slots, corners, bends: bends.of(faces, slots) };
}
