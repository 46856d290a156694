// The line to the server: what comes answers what was sent, in order.
import { arraysOf } from "./arrays.js";
import { Fault } from "./fault.js";

const HEAD = 20; // bytes before the replies: two times, two numbers of marked fronts, and a size

const GONE = "The server doesn't answer any more, so ./viewer has ended. "
  + "Start it again as before, and this page goes on from here.";
const gone = () => new Fault(GONE, "", true);

export class Connection {
  // `lost` is called where the server goes away, whether something was asked or not.
  constructor(lost = () => {}) {
    this.lost = lost;
    this.waiting = [];
    this.cameAt = 0;
    this.socket = new WebSocket(new URL("talk", location.href.replace(/^http/, "ws")));
    this.socket.binaryType = "arraybuffer";
    this.socket.onmessage = ({ data }) => this.come(data);
    this.socket.onclose = () => this.giveUp();
    this.open = new Promise((resolve, reject) => {
      this.socket.onopen = resolve;
      this.socket.onerror = () => reject(gone());
    });
  }

  giveUp() {
    const fault = gone();
    for (const { reject } of this.waiting.splice(0)) reject(fault);
    this.lost({ reason: fault.message, isLost: true });
  }

  async about() { return (await fetched("about")).json(); }

  async stream() { return (await fetched("stream")).arrayBuffer(); }

  async colours() { return new Uint8Array(await (await fetched("colours")).arrayBuffer()); }

  async spots() { return new Int32Array(await (await fetched("spots")).arrayBuffer()); }

  async pages() { return new Uint8Array(await (await fetched("pages")).arrayBuffer()); }

  // One of the pictures, by what is told of it, as its file has it.
  async picture({ colour, hasPicture }, number) {
    if (!hasPicture) return { colour, kind: "", bytes: null };
    const answer = await fetched(`picture/${number}`);
    const bytes = new Uint8Array(await answer.arrayBuffer());
    return { colour, kind: answer.headers.get("Content-Type"), bytes };
  }

  async flight() { return (await fetched("flight")).text(); }

  async start(budget) { await fetched("start", { method: "POST", body: String(budget) }); }

  // The bytes of the replies, the arrays that came with them or null, how many bytes all had, the
  // milliseconds of each part of the way, and the numbers of the fronts that were marked before the
  // script and after it.
  ask(script) {
    return new Promise((resolve, reject) => {
      if (this.socket.readyState !== WebSocket.OPEN) throw gone();
      this.waiting.push({ resolve, reject, begun: performance.now() });
      this.socket.send(script);
    });
  }

  come(data) {
    const { resolve, reject, begun } = this.waiting.shift();
    const came = performance.now();
    // The time until the answer before came belongs to that one.
    const milliseconds = came - Math.max(begun, this.cameAt);
    this.cameAt = came;
    if (typeof data === "string") {
      const { reason, cure } = JSON.parse(data);
      reject(new Fault(reason, cure));
    } else {
      const [view, text] = new Float32Array(data, 0, 2);
      const [before, after, size] = new Uint32Array(data, 8, 3);
      const times = { view, text, transfer: milliseconds - view - text };
      const replies = new Uint8Array(data, HEAD, size), arrays = arraysOf(data, HEAD + size);
      resolve({ replies, arrays, bytes: data.byteLength - HEAD, times, before, after });
    }
  }
}

// What stands at an address of the server.
export async function fetched(path, asked = {}) {
  const answer = await fetch(path, asked).catch(() => { throw gone(); });
  if (!answer.ok) throw new Fault(await answer.text());
  return answer;
}
