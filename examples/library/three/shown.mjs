// A model in a scene of three.js, as fine as the camera sees it:
//
//     const shown = new ShownModel(vdpm.open(stream), new THREE.MeshNormalMaterial());
//     shown.mesh.scale.setScalar(1 / 30000);
//     scene.add(shown.mesh);
//     ...
//     shown.follow(camera, renderer.domElement.height);
//     renderer.render(scene, camera);
//
// `index.html` is a page with it. There are no normals, so the material's `flatShading` is set.
import { BufferAttribute, BufferGeometry, Mesh, Vector3 } from "three";

const LONGEST_WAY = 32767, MOST_PIXELS = 65535, MOST_OF_EYE = 16777215;

/** The sides of a camera's picture as planes of a view, in the numbers of the model.
 * @param {import("three").Matrix4} seen from the model to the picture
 * @param {number[]} eye */
function sidesOf(seen, eye) {
  const e = seen.elements, sides = [];
  for (const axis of [0, 1]) {
    for (const sign of [1, -1]) {
      const side = [0, 1, 2].map((i) => e[4 * i + 3] + sign * e[4 * i + axis]);
      const way = side.map((it) => Math.round((LONGEST_WAY * it) / Math.hypot(...side)));
      sides.push([...way, -way.reduce((sum, it, i) => sum + it * eye[i], 0)]);
    }
  }
  return sides;
}

export class ShownModel {
  /**
   * @param {import("./session.mjs").Session} session
   * @param {import("three").Material} material
   * @param {number} tolerance how far off the faces may look, in whole pixels
   */
  constructor(session, material, tolerance = 1) {
    material.flatShading = true;
    this.session = session;
    this.tolerance = tolerance;
    this.mesh = new Mesh(new BufferGeometry(), material);
    // (the buffers have room that isn't drawn, so what three finds of their extent isn't its own)
    this.mesh.frustumCulled = false;
    this.makeRoom(0, 0);
    this.write();
  }

  /**
   * Adapts the mesh to a perspective camera and the height of its picture in pixels, and tells how
   * many moves that took.
   * @param {import("three").PerspectiveCamera} camera
   * @param {number} height
   */
  follow(camera, height) {
    this.mesh.updateWorldMatrix(true, false);
    camera.updateMatrixWorld();
    const stands = this.mesh.worldToLocal(camera.getWorldPosition(new Vector3())).toArray();
    const eye = stands.map((it) => Math.round(Math.min(Math.max(it, -MOST_OF_EYE), MOST_OF_EYE)));
    const seen = camera.projectionMatrix.clone()
      .multiply(camera.matrixWorldInverse).multiply(this.mesh.matrixWorld);
    const focal = Math.round((height / 2) * camera.projectionMatrix.elements[5]);
    const { moves } = this.session.view({
      eye, focal: Math.min(Math.max(focal, 1), MOST_PIXELS), tolerance: this.tolerance,
      planes: sidesOf(seen, eye), byDeviation: true,
    });
    if (moves > 0) this.write();
    return moves;
  }

  /** Writes what is shown into the buffers, and has three draw and send no more of them. */
  write() {
    const { places, corners } = this.session.frame();
    if (places.length > this.places.array.length || corners.length > this.corners.array.length) {
      this.makeRoom(2 * places.length, 2 * corners.length);
    }
    for (const [attribute, numbers] of [[this.places, places], [this.corners, corners]]) {
      attribute.array.set(numbers);
      attribute.updateRange = { offset: 0, count: numbers.length };  // (before three r159)
      attribute.clearUpdateRanges?.();
      attribute.addUpdateRange?.(0, numbers.length);
      attribute.needsUpdate = true;
    }
    this.mesh.geometry.setDrawRange(0, corners.length);
  }

  /** @param {number} places @param {number} corners */
  makeRoom(places, corners) {
    const { geometry } = this.mesh;
    geometry.dispose();
    this.places = new BufferAttribute(new Float32Array(places), 3);
    this.corners = new BufferAttribute(new Uint32Array(corners), 1);
    geometry.setAttribute("position", this.places);
    geometry.setIndex(this.corners);
  }

  /** Gives all memory back. */
  close() {
    this.session.close();
    this.mesh.geometry.dispose();
  }
}
