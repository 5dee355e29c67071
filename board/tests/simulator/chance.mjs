// Numbers drawn by a seed, and a queue of what comes when.

/** Draws by mulberry32: the same seed, the same numbers. */
export class Chance {
  /** @param {number} seed */
  constructor(seed) {
    this.state = seed | 0;
  }

  /** From 0 to 1. */
  draw() {
    this.state = (this.state + 0x6d2b79f5) | 0;
    let mixed = Math.imul(this.state ^ (this.state >>> 15), this.state | 1);
    mixed ^= mixed + Math.imul(mixed ^ (mixed >>> 7), mixed | 61);
    return ((mixed ^ (mixed >>> 14)) >>> 0) / 4294967296;
  }

  /** Whether one of so many cases is this. */
  is(share) {
    return this.draw() < share;
  }

  between(from, to) {
    return from + this.draw() * (to - from);
  }

  below(count) {
    return Math.floor(this.draw() * count);
  }

  of(list) {
    return list[this.below(list.length)];
  }
}

/** What is to happen, the next one first; at one moment in the order in which it was put in. */
export class Agenda {
  constructor() {
    this.heap = [];
    this.count = 0;
  }

  /** When what is next is to happen. */
  get next() {
    return this.heap.length ? this.heap[0].at : Infinity;
  }

  put(at, what) {
    const { heap } = this;
    const entry = { at, order: this.count += 1, what };
    let place = heap.push(entry) - 1;
    while (place > 0) {
      const parent = (place - 1) >> 1;
      if (!isBefore(entry, heap[parent])) break;
      heap[place] = heap[parent];
      place = parent;
    }
    heap[place] = entry;
  }

  take() {
    const { heap } = this;
    const first = heap[0];
    const entry = heap.pop();
    if (heap.length === 0) return first;
    let place = 0;
    for (;;) {
      let child = 2 * place + 1;
      if (child >= heap.length) break;
      if (child + 1 < heap.length && isBefore(heap[child + 1], heap[child])) child += 1;
      if (!isBefore(heap[child], entry)) break;
      heap[place] = heap[child];
      place = child;
    }
    heap[place] = entry;
    return first;
  }
}

const isBefore = (one, other) => one.at < other.at || one.at === other.at && one.order < other.order;
