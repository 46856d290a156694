// Textures that hold four numbers in each cell: cell i is in column i % WIDTH of row i / WIDTH.
import { WIDTH, rows } from "./layout.js";

export class Texture {
  // `Kind` is the typed array of its numbers.
  constructor(gl, Kind, inside, format, type) {
    Object.assign(this, { gl, Kind, inside, format, type, texture: gl.createTexture() });
    this.room = 0;    // rows
    this.data = null; // the same numbers here, where single cells are changed
    gl.bindTexture(gl.TEXTURE_2D, this.texture);
    gl.texParameteri(gl.TEXTURE_2D, gl.TEXTURE_MIN_FILTER, gl.NEAREST);
    gl.texParameteri(gl.TEXTURE_2D, gl.TEXTURE_MAG_FILTER, gl.NEAREST);
    this.grow(1);
  }

  grow(room, data = null) {
    const { gl } = this;
    this.room = room;
    gl.texImage2D(gl.TEXTURE_2D, 0, this.inside, WIDTH, room, 0, this.format, this.type, data);
  }

  // Replaces rows, from the first on.
  put(data, count) {
    this.gl.bindTexture(this.gl.TEXTURE_2D, this.texture);
    if (count > this.room) this.grow(Math.max(count, 2 * this.room));
    this.upload(data, 0, count);
  }

  // Puts `values`, four for each, into some cells, and then the rows that have changed.
  change(slots, values) {
    this.gl.bindTexture(this.gl.TEXTURE_2D, this.texture);
    let most = 0;
    for (let i = 0; i < slots.length; i++) most = Math.max(most, slots[i]);
    this.makeRoom(most + 1);
    const { data } = this, isChanged = new Uint8Array(this.room + 1);
    for (let i = 0, from = 0; i < slots.length; i++, from += 4) {
      const to = 4 * slots[i];
      data[to] = values[from]; data[to + 1] = values[from + 1];
      data[to + 2] = values[from + 2]; data[to + 3] = values[from + 3];
      isChanged[Math.floor(slots[i] / WIDTH)] = 1;
    }
    for (let first = isChanged.indexOf(1); first >= 0; first = isChanged.indexOf(1, first)) {
      const end = isChanged.indexOf(0, first);
      this.upload(data, first, end - first);
      first = end;
    }
  }

  makeRoom(count) {
    const needed = rows(count), { data, room } = this;
    if (data !== null && needed <= room) return;
    const grown = Math.max(needed, data === null ? room : 2 * room);
    this.data = new this.Kind(4 * WIDTH * grown);
    if (data !== null) this.data.set(data);
    this.grow(grown, this.data);
  }

  upload(data, first, count) {
    const { gl } = this;
    const from = 4 * WIDTH * first, part = data.subarray(from, from + 4 * WIDTH * count);
    gl.texSubImage2D(gl.TEXTURE_2D, 0, 0, first, WIDTH, count, this.format, this.type, part);
  }
}
