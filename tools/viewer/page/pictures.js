// The pictures of a texture: one for each page, as layers of one size, so that a mesh is drawn at
// once. A page without a picture is of one colour.
const PLACE = 8;        // of their texture, behind those of a mesh and the drape
const MOST_SIDE = 4096; // pixels of a side of a layer
const MOST = 64 << 20;  // pixels of all layers
const ANISOTROPY = 8;

export class Pictures {
  constructor(gl) {
    Object.assign(this, { gl, texture: null });
    this.make(1, 1, 1);
    this.put(0, new ImageData(1, 1));
  }

  // Takes an ImageBitmap or a colour, three parts from 0 to 1, for each page.
  async show(pages) {
    const { gl } = this, { width, height } = this.room(pages);
    this.make(width, height, pages.length);
    for (const [layer, page] of pages.entries()) {
      this.put(layer, await layerOf(page, width, height));
    }
    gl.generateMipmap(gl.TEXTURE_2D_ARRAY);
  }

  // How large layers are: as the largest picture, if there is room for so many.
  room(pages) {
    const { gl } = this, pictures = pages.filter((page) => page instanceof ImageBitmap);
    const most = Math.min(MOST_SIDE, gl.getParameter(gl.MAX_TEXTURE_SIZE));
    const side = (name) => Math.min(most, Math.max(1, ...pictures.map((one) => one[name])));
    let width = side("width"), height = side("height");
    while (width * height * pages.length > MOST) {
      width = Math.max(1, width >> 1);
      height = Math.max(1, height >> 1);
    }
    return { width, height };
  }

  make(width, height, layers) {
    const { gl } = this, { TEXTURE_2D_ARRAY: kind } = gl;
    gl.deleteTexture(this.texture);
    this.texture = gl.createTexture();
    gl.bindTexture(kind, this.texture);
    const levels = 1 + Math.floor(Math.log2(Math.max(width, height)));
    gl.texStorage3D(kind, levels, gl.SRGB8_ALPHA8, width, height, layers);
    gl.texParameteri(kind, gl.TEXTURE_MIN_FILTER, gl.LINEAR_MIPMAP_LINEAR);
    const finer = gl.getExtension("EXT_texture_filter_anisotropic");
    if (finer) gl.texParameteri(kind, finer.TEXTURE_MAX_ANISOTROPY_EXT, ANISOTROPY);
  }

  put(layer, picture) {
    const { gl } = this, { width, height } = picture;
    gl.bindTexture(gl.TEXTURE_2D_ARRAY, this.texture);
    const form = [gl.RGBA, gl.UNSIGNED_BYTE];
    gl.texSubImage3D(gl.TEXTURE_2D_ARRAY, 0, 0, 0, layer, width, height, 1, ...form, picture);
  }

  bind(at) {
    const { gl } = this;
    gl.activeTexture(gl.TEXTURE0 + PLACE);
    gl.bindTexture(gl.TEXTURE_2D_ARRAY, this.texture);
    gl.uniform1i(at.pictures, PLACE);
  }
}

async function layerOf(page, width, height) {
  if (page instanceof ImageBitmap) {
    const size = { resizeWidth: width, resizeHeight: height, resizeQuality: "high" };
    return createImageBitmap(page, size);
  }
  const colour = page.map((part) => Math.round(255 * Math.max(0, Math.min(1, part))));
  const layer = new ImageData(width, height), { data } = layer;
  for (let at = 0; at < data.length; at += 4) data.set([...colour, 255], at);
  return layer;
}
