// A model's file as it comes from the server that the page itself is from.
import { Fault } from "../page/fault.js";
import { TOO_LARGE, MOST_BYTES } from "./files.js";

const ROOM = 1 << 16; // bytes, at first
const BESIDE = "What to do: put the model beside the page, and its name into the address.";
const NO_SERVER = new Fault("A page that is opened from the disk can't fetch a model.",
  "What to do: drop the model on the page, or put both on a web server.");
const BROKEN = new Fault("The line broke off before all of the model was there.",
  "What to do: load the page again.");

// The URL of an address, which has to be one of the page's own server.
function ownUrl(address) {
  if (location.protocol === "file:") throw NO_SERVER;
  let url = null;
  try {
    url = new URL(address, location.href);
  } catch {
    throw new Fault(`${address} is no address.`, BESIDE);
  }
  if (url.origin === location.origin) return url;
  throw new Fault("The model is on another server, and the page asks none but its own.", BESIDE);
}

// The file that an address names, in words.
export function nameOf(address) {
  const last = address.replace(/[?#].*/, "").split("/").pop();
  try {
    return decodeURIComponent(last) || address;
  } catch {
    return last;
  }
}

async function answerOf(url, signal) {
  const answer = await fetch(url, { signal }).catch(() => {
    throw new Fault("The server doesn't answer.", BROKEN.cure);
  });
  if (answer.ok && answer.body) return answer;
  throw new Fault(`The server answers ${answer.status} to ${url.pathname}.`, BESIDE);
}

// How many bytes come; null where the server doesn't tell, or packs them for the way.
function lengthOf(headers) {
  const length = headers.get("content-length");
  return length === null || headers.has("content-encoding") ? null : Number(length);
}

export class Fetching {
  // `told` is called with how many bytes are there, and of how many, or null.
  constructor(told) {
    Object.assign(this, { told, room: new Uint8Array(ROOM), size: 0, length: null });
    Object.assign(this, { isWhole: false, reached: () => {}, leaving: new AbortController() });
  }

  // Asks for the file; what comes of it is then read by itself.
  async begin(address) {
    const answer = await answerOf(ownUrl(address), this.leaving.signal);
    this.length = lengthOf(answer.headers);
    if (this.length > MOST_BYTES) throw TOO_LARGE;
    this.whole = this.read(answer.body.getReader());
    this.whole.catch(() => {}); // whoever waits is told
  }

  async read(reader) {
    for (;;) {
      const { done, value } = await reader.read().catch(() => { throw BROKEN; });
      if (done) break;
      this.put(value);
    }
    this.isWhole = true;
  }

  put(piece) {
    const size = this.size + piece.length;
    if (size > MOST_BYTES) throw TOO_LARGE;
    if (size > this.room.length) {
      const { bytes } = this;
      this.room = new Uint8Array(Math.max(2 * this.room.length, size));
      this.room.set(bytes);
    }
    this.room.set(piece, this.size);
    this.size = size;
    this.told(size, this.length);
    this.reached();
  }

  get bytes() { return this.room.subarray(0, this.size); }

  // Waits until so many bytes are there, or all. Gives whether more may come.
  async isCutAt(size) {
    const enough = new Promise((go) => {
      this.reached = () => { if (this.size >= size) go(); };
    });
    this.reached();
    await Promise.race([this.whole, enough]);
    if (this.size === this.length) await this.whole;
    return !this.isWhole;
  }

  end() { this.leaving.abort(); }
}
