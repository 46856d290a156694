// A picture that lies over a terrain. Where a place is in it is a sum of products each way, so it
// is right at each level of detail, while nodes glide, and in each tile.
const PLACE = 7; // of its texture, behind those of a mesh

export class Drape {
  constructor(gl) {
    Object.assign(this, { gl, texture: gl.createTexture(), rows: null });
    this.put(new ImageData(1, 1));
  }

  // Takes a picture, and for u and v four numbers each: by x, y and z, and what is added.
  show(picture, rows) {
    this.rows = rows;
    this.put(picture);
  }

  put(picture) {
    const { gl } = this, { TEXTURE_2D } = gl;
    gl.bindTexture(TEXTURE_2D, this.texture);
    gl.texImage2D(TEXTURE_2D, 0, gl.RGBA8, gl.RGBA, gl.UNSIGNED_BYTE, picture);
    gl.generateMipmap(TEXTURE_2D);
    gl.texParameteri(TEXTURE_2D, gl.TEXTURE_MIN_FILTER, gl.LINEAR_MIPMAP_LINEAR);
    gl.texParameteri(TEXTURE_2D, gl.TEXTURE_WRAP_S, gl.CLAMP_TO_EDGE);
    gl.texParameteri(TEXTURE_2D, gl.TEXTURE_WRAP_T, gl.CLAMP_TO_EDGE);
  }

  // For a mesh whose zero stands at `offset`.
  bind(at, [x, y, z]) {
    const { gl } = this, moved = ([a, b, c, d]) => [a, b, c, d + a * x + b * y + c * z];
    gl.activeTexture(gl.TEXTURE0 + PLACE);
    gl.bindTexture(gl.TEXTURE_2D, this.texture);
    gl.uniform1i(at.drape, PLACE);
    const [across, down] = this.rows ?? [[0, 0, 0, -1], [0, 0, 0, -1]];
    gl.uniform4fv(at.across, moved(across));
    gl.uniform4fv(at.down, moved(down));
  }
}
