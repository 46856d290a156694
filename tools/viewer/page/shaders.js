// The programs of the graphics processor. A mesh has no vertex buffers: vertex i is corner i % 3 of
// face i / 3, and both faces and places are looked up in textures, so a frame is put there as it
// came.
import { FIFTH, RAMP } from "./heights.js";
import { GLIDE, WIDTH } from "./layout.js";

export const MESH_VERTEX = `#version 300 es
  precision highp float; precision highp int;
  precision highp sampler2D; precision highp isampler2D; precision highp usampler2D;
  uniform isampler2D places, normals;
  uniform sampler2D starts, colours, spots;
  uniform usampler2D corners, bends;
  uniform bool bent;        // whether corners have normals of their own
  uniform mat4 toClip;
  uniform vec3 eye;
  uniform float now;        // in seconds; below 0 where nothing glides
  uniform float deepest;
  uniform uint picked;
  uniform vec4 across, down; // where a place is in the drape, by x, y, z and 1
  uniform vec3 up;           // the axis along which heights are
  uniform float lowest, times; // heights above the lowest are drawn so many times as large
  uniform vec4 rises;        // in steps between contours: a unit, the lowest height, .. (below)
  out vec2 spot;            // of the drape
  out vec2 mapped;          // of the face's picture, v from below
  flat out int page;        // the number of that
  out vec3 seen;            // the place less the eye
  out vec3 nearness;        // 1 at one corner and 0 at the others
  out vec3 normal;
  out vec3 own;             // the node's colour in the input
  out float rise;           // the height, in steps between contours
  out float hollow;         // from -1, where the mesh is hollow, to 1, where it is raised
  out float depth;
  flat out float isPicked;
  ivec2 cell(int i) { return ivec2(i % ${WIDTH}, i / ${WIDTH}); }
  // A direction, from where it is on the octahedron that is folded out (bends.js).
  vec3 direction(uint word) {
    vec2 p = vec2(word >> 16, word & 65535u) / 32767.5 - 1.0;
    float z = 1.0 - abs(p.x) - abs(p.y), folded = max(-z, 0.0);
    p += vec2(p.x >= 0.0 ? -folded : folded, p.y >= 0.0 ? -folded : folded);
    return normalize(vec3(p, z));
  }
  void main() {
    int face = gl_VertexID / 3, which = gl_VertexID - 3 * face;
    uvec4 found = texelFetch(corners, cell(face), 0);
    ivec2 node = cell(int(which == 0 ? found.x : which == 1 ? found.y : found.z));
    ivec4 stands = texelFetch(places, node, 0);
    vec3 place = vec3(stands.xyz);
    vec4 spread = texelFetch(spots, node, 0);
    mapped = spread.xy;
    page = 0;
    if (now >= 0.0) {
      vec4 start = texelFetch(starts, node, 0);
      float part = smoothstep(0.0, ${GLIDE.toFixed(2)}, now - start.w);
      place = mix(start.xyz, place, part);
      mapped = mix(spread.zw, mapped, part);
    }
    float tall = dot(up, place) - lowest;
    rise = tall * rises.x + rises.y;
    seen = place + (times - 1.0) * tall * up - eye;
    spot = vec2(dot(across, vec4(place, 1.0)), dot(down, vec4(place, 1.0)));
    nearness = vec3(which == 0, which == 1, which == 2);
    if (bent) {
      uvec4 three = texelFetch(bends, cell(face), 0);
      normal = direction(which == 0 ? three.x : which == 1 ? three.y : three.z);
      hollow = float((three.w >> (8 * which)) & 255u) / 127.0 - 128.0 / 127.0;
      page = int(three.w >> 24);
    } else {
      normal = vec3(texelFetch(normals, node, 0).xyz);
      hollow = 0.0;
    }
    own = texelFetch(colours, node, 0).rgb;
    depth = float(stands.w) / deepest;
    isPicked = found.w == picked ? 1.0 : 0.0;
    gl_Position = toClip * vec4(seen, 1.0);
  }`;

export const MESH_FRAGMENT = `#version 300 es
  precision highp float;
  uniform vec3 light, fill, above, paper, ink;
  uniform float side;       // 1 of a closed mesh, -1 of one inside out, 0 of one that isn't closed
  uniform int colour;       // by COLOURS of renderer.js
  uniform sampler2D drape;
  uniform highp sampler2DArray pictures; // whose colours come as light
  uniform bool smoothly, hollows, unlit;
  uniform float edges;
  uniform vec3 up;
  uniform float times;
  uniform vec4 rises;       // .. all heights together, and the level of water
  uniform bool contours;
  uniform vec3 heights[${RAMP.length + 1}]; // the colours of heights, and that of water
  in vec3 seen, nearness, normal, own;
  in vec2 spot, mapped;
  in float rise, depth, hollow;
  flat in int page;
  flat in float isPicked;
  out vec4 shown;

  vec3 between(vec3 low, vec3 middle, vec3 high, float t) {
    return t < 0.5 ? mix(low, middle, 2.0 * t) : mix(middle, high, 2.0 * t - 1.0);
  }
  // From dark violet over blue and green to yellow.
  vec3 ramp(float t) {
    vec3 violet = vec3(.20, .10, .45), blue = vec3(.16, .42, .66), teal = vec3(.13, .64, .60);
    vec3 low = between(violet, blue, teal, min(1.0, 2.0 * t));
    return between(low, vec3(.30, .74, .50), vec3(1.0, .88, .30), t);
  }
  vec3 byHeight() {
    if (rise <= rises.w) return heights[${RAMP.length}];
    float t = clamp((rise - rises.y) / rises.z, 0.0, 1.0) * ${RAMP.length - 1}.0;
    int below = min(int(t), ${RAMP.length - 2});
    return mix(heights[below], heights[below + 1], t - float(below));
  }
  // How much of the fragment a line takes that is so many pixels wide, where t is a whole number.
  // Where lines would run together they fade away.
  float line(float t, float wide) {
    float pixel = fwidth(t), away = abs(t - round(t)) / max(pixel, 1e-9);
    return clamp(0.5 + 0.5 * wide - away, 0.0, 1.0) * (1.0 - smoothstep(0.12, 0.35, pixel));
  }
  // How dark a contour is. Ground that is level, as far as numbers tell, is of one height and has
  // none; nor has water.
  float contour() {
    float steepness = fwidth(rise) / max(rises.x * length(fwidth(seen)), 1e-9);
    float isLine = max(0.5 * line(rise, 1.0), 0.75 * line(rise / ${FIFTH}.0, 2.0));
    return rise <= rises.w ? 0.0 : isLine * smoothstep(0.0003, 0.001, steepness);
  }
  // How near the fragment is to an edge. Where triangles are a few pixels large, edges fade away.
  float edge() {
    vec3 pixel = fwidth(nearness);
    vec3 away = smoothstep(pixel * 0.2, pixel * 1.2, nearness);
    float size = max(max(pixel.x, pixel.y), pixel.z);
    return (1.0 - min(min(away.x, away.y), away.z)) * (1.0 - smoothstep(0.05, 0.8, size));
  }
  // A colour by the key light, a weaker one from the other side, and what sky and ground reflect.
  vec3 lit(vec3 base, vec3 n, vec3 v) {
    vec3 around = mix(vec3(.085, .08, .08), vec3(.20, .22, .25), 0.5 + 0.5 * dot(n, above));
    vec3 falls = max(0.0, dot(n, light)) * vec3(1.02, .98, .92)
      + max(0.0, dot(n, fill)) * vec3(.13, .17, .22) + around;
    // Ground in the colours of heights or of a picture is dull, so that they can be read.
    float shine = (colour < 4 ? 0.07 : 0.0) * pow(max(0.0, dot(n, normalize(light + v))), 40.0);
    float rim = 0.10 * pow(1.0 - max(0.0, dot(n, v)), 4.0);
    return base * (falls + rim) + shine;
  }
  // How much a fragment is seen from behind, where the mesh isn't closed. At outlines a smooth
  // normal turns away before the surface does, so there it counts only from some way on.
  float behind(float facing) {
    if (side != 0.0 || gl_FrontFacing) return 0.0;
    return smoothly ? smoothstep(-0.1, -0.4, facing) : 1.0;
  }
  void main() {
    vec3 v = normalize(-seen), plain = normalize(cross(dFdx(seen), dFdy(seen)));
    vec3 stands = normal - (1.0 - 1.0 / times) * dot(up, normal) * up;
    vec3 n = smoothly ? normalize(stands) * (side < 0.0 ? -1.0 : 1.0) : plain;
    float facing = dot(n, v), back = behind(facing);
    // A normal that turns away from the eye is taken to lie across the way there.
    vec3 across = facing < 0.0 ? normalize(n - facing * v) : n;
    n = normalize(mix(across, smoothly ? -n : n, back));
    float wires = edge(), level = contours ? contour() : 0.0;
    vec3 laid = texture(drape, spot).rgb, stone = vec3(.60, .57, .53);
    bool isBare = colour == 0 || colour == 4 && spot != clamp(spot, 0.0, 1.0);
    vec3 told = colour == 1 ? ramp(depth) : colour == 4 ? laid : colour == 5 ? byHeight() : own;
    vec3 pictured = texture(pictures, vec3(mapped.x, 1.0 - mapped.y, page)).rgb;
    vec3 base = isBare ? stone : colour == 6 ? pictured : pow(told, vec3(2.2));
    // Less light comes into a hollow, and dust is worn off ridges.
    if (hollows) base *= 1.0 + (hollow < 0.0 ? 0.75 : 0.2) * hollow;
    if (colour == 2) {
      vec3 bare = paper * (0.85 + 0.2 * dot(n, light));
      shown = vec4(mix(bare, ink, max(wires * 0.9, level)), 1.0);
    } else {
      vec3 dull = mix(vec3(1.0), vec3(.72, .68, .67), back);
      // (a solid colour without light would be an outline alone)
      vec3 shaded = unlit && !isBare ? base : lit(base * dull, n, v);
      vec3 face = pow(shaded, vec3(1.0 / 2.2));
      shown = vec4(mix(face, face * 0.25, max(wires * edges, level)), 1.0);
    }
    shown.rgb = mix(shown.rgb, vec3(1.0, .42, .12), 0.75 * isPicked);
  }`;

export const LINES_VERTEX = `#version 300 es
  precision highp float;
  uniform mat4 toClip;
  uniform vec3 eye;
  in vec3 place;
  void main() {
    gl_Position = toClip * vec4(place - eye, 1.0);
    gl_PointSize = 9.0;
  }`;

export const LINES_FRAGMENT = `#version 300 es
  precision highp float;
  uniform vec4 paint;
  out vec4 shown;
  void main() { shown = vec4(paint.rgb * paint.a, paint.a); }`;

export const SKY_VERTEX = `#version 300 es
  out float height;
  void main() {
    vec2 p = vec2(gl_VertexID == 1 ? 3.0 : -1.0, gl_VertexID == 2 ? 3.0 : -1.0);
    height = 0.5 + 0.5 * p.y;
    gl_Position = vec4(p, 1.0, 1.0);
  }`;

export const SKY_FRAGMENT = `#version 300 es
  precision highp float;
  uniform vec3 low, high;
  in float height;
  out vec4 shown;
  void main() { shown = vec4(mix(low, high, height), 1.0); }`;
