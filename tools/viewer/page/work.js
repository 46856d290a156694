// The page's end of its worker: each task is answered, in any order.
export class Work {
  // `news` is called with what the worker tells by itself.
  constructor(worker, news = () => {}) {
    Object.assign(this, { worker, news });
    this.waiting = new Map();
    this.number = 0;
    this.worker.onmessage = ({ data }) => this.come(data);
    this.worker.onerror = ({ message }) => this.fail(message || "the page's worker can't start");
  }

  // What the task gives; where it doesn't, a promise that fails with { reason, cure, isLost,
  // isShort }, the last where more of a file's bytes are wanted.
  // `handedOver` are buffers that the page has no longer then.
  ask(task, handedOver = []) {
    return new Promise((resolve, reject) => {
      const number = this.number++;
      this.waiting.set(number, { resolve, reject });
      this.worker.postMessage({ ...task, number }, handedOver);
    });
  }

  // Ends the worker, whatever it does.
  end() { this.worker.terminate(); }

  come({ number, answer, fault, news }) {
    if (news) {
      this.news(news);
      return;
    }
    const { resolve, reject } = this.waiting.get(number);
    this.waiting.delete(number);
    if (fault) reject(fault);
    else resolve(answer);
  }

  fail(reason) {
    for (const { reject } of this.waiting.values()) reject({ reason, cure: "" });
    this.waiting.clear();
  }
}
