// Where nodes and faces stand in textures, and which of them have changed.
export const NOWHERE = -1;

// Numbers that stand where they are until they go, and leave holes for those that come.
export class Slots {
  constructor(count) {
    this.of = new Int32Array(count).fill(NOWHERE);
    this.holes = new Int32Array(count);
    this.end = 0;       // of the slots that were taken once
    this.holeCount = 0;
  }

  get size() { return this.end - this.holeCount; }

  has(number) { return this.of[number] >= 0; }

  add(number) {
    this.of[number] = this.holeCount > 0 ? this.holes[--this.holeCount] : this.end++;
  }

  remove(number) {
    this.holes[this.holeCount++] = this.of[number];
    this.of[number] = NOWHERE;
  }

  // Adds numbers where there are none.
  fill(numbers) {
    for (let i = 0; i < numbers.length; i++) this.of[numbers[i]] = i;
    this.end = numbers.length;
  }
}

// Numbers that stand close together: the last one takes the place of one that goes.
export class Row {
  constructor(count) {
    this.of = new Int32Array(count).fill(NOWHERE);
    this.at = new Int32Array(count);
    this.size = 0;
  }

  has(number) { return this.of[number] >= 0; }

  add(number) {
    this.of[number] = this.size;
    this.at[this.size++] = number;
  }

  remove(number) {
    const slot = this.of[number], last = this.at[--this.size];
    this.of[number] = NOWHERE;
    if (last === number) return;
    this.of[last] = slot;
    this.at[slot] = last;
  }

  // Adds numbers where there are none.
  fill(numbers) {
    for (let i = 0; i < numbers.length; i++) this.of[numbers[i]] = i;
    this.at.set(numbers);
    this.size = numbers.length;
  }

  get numbers() { return this.at.subarray(0, this.size); }

  [Symbol.iterator]() { return this.numbers[Symbol.iterator](); }
}

// Numbers, each once, in the order in which they came first.
export class Marked {
  constructor(count) {
    this.rounds = new Uint32Array(count);
    this.round = 1;
    this.at = new Int32Array(count);
    this.size = 0;
  }

  has(number) { return this.rounds[number] === this.round; }

  add(number) {
    if (this.rounds[number] === this.round) return;
    this.rounds[number] = this.round;
    this.at[this.size++] = number;
  }

  get numbers() { return this.at.subarray(0, this.size); }

  // Drops the numbers that slots haven't, and gives where the others stand.
  standing({ of }) {
    const { at, size } = this, slots = new Int32Array(size);
    this.size = 0;
    for (let i = 0; i < size; i++) {
      const number = at[i];
      if (of[number] < 0) continue;
      slots[this.size] = of[number];
      at[this.size++] = number;
    }
    return slots.slice(0, this.size);
  }

  // The numbers below another.
  below(end) {
    const { at, size } = this, found = new Int32Array(size);
    let count = 0;
    for (let i = 0; i < size; i++) if (at[i] < end) found[count++] = at[i];
    return found.slice(0, count);
  }

  clear() {
    this.round++;
    this.size = 0;
  }
}

// A list of numbers for each owner. A number is in one list at most.
export class Lists {
  constructor(owners, numbers) {
    this.first = new Int32Array(owners).fill(NOWHERE);
    this.next = new Int32Array(numbers);
    this.before = new Int32Array(numbers);
  }

  add(owner, number) {
    const { first, next, before } = this, second = first[owner];
    next[number] = second;
    before[number] = NOWHERE;
    if (second >= 0) before[second] = number;
    first[owner] = number;
  }

  remove(owner, number) {
    const { first, next, before } = this, after = next[number], earlier = before[number];
    if (earlier >= 0) next[earlier] = after;
    else first[owner] = after;
    if (after >= 0) before[after] = earlier;
  }

  // Empties a list; its numbers are still found from the first on, which is given.
  drop(owner) {
    const first = this.first[owner];
    this.first[owner] = NOWHERE;
    return first;
  }
}
