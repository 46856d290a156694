// Vertical exaggeration: what is drawn is the mesh, stretched along the axis that is up, from its
// lowest height on. The mesh itself stays as it is, so the engine is asked for views of that.
const AXES = { y: 1, z: 2 };

export class Stretch {
  // `times` as high, above `lowest`.
  constructor(upright = "z", times = 1, lowest = 0) {
    Object.assign(this, { axis: AXES[upright], times, lowest });
  }

  // The same for a mesh whose zero stands at `offset`.
  from(offset) {
    return Object.assign(new Stretch(), this, { lowest: this.lowest - offset[this.axis] });
  }

  // Where a place of the mesh is drawn.
  drawn(place) { return this.changed(place, (c) => c + (this.times - 1) * (c - this.lowest)); }

  // The place of the mesh that is drawn there.
  own(place) { return this.changed(place, (c) => c - (1 - 1 / this.times) * (c - this.lowest)); }

  // A direction's in the mesh that is drawn as this one.
  ownWay(way) { return this.changed(way, (c) => c / this.times); }

  // A normal's in the mesh of a plane that is drawn with this one; and what has the same product
  // with a way of the mesh as this one has with the way that is drawn.
  ownNormal(normal) { return this.changed(normal, (c) => c * this.times); }

  changed(three, change) { return three.map((c, i) => (i === this.axis ? change(c) : c)); }
}
