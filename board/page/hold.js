// The rows of a table in the order of their keys, and when they may change their places: not under a finger, and so that what one reads stays
// where it is. A long table is in chunks, each a table of its own with the same columns, so that the browser lays out those alone that are in sight.
import { $, el } from './dom.js';

const CLICK = 1000;
const MOST = 5000; // a pointer that went up elsewhere, as in the list of a select, isn't told
let free = 0;
let timer = 0;
const waiting = new Set();

/** Who draws by itself does it in its turn: what is shown is the day as the machine has it then. */
export const turn = { take: (task) => anchored(task) };

/** Holds rows until so many milliseconds from now. */
function hold(milliseconds) {
  free = performance.now() + milliseconds;
  clearTimeout(timer);
  timer = setTimeout(release, milliseconds + 1);
}

let down = 0;
addEventListener('pointerdown', () => {
  down = performance.now();
  hold(MOST);
}, true);
for (const name of ['pointerup', 'pointercancel']) {
  addEventListener(name, () => hold(Math.max(0, down + CLICK - performance.now())), true);
}

const isHeld = () => performance.now() < free;

function release() {
  const tasks = [...waiting];
  waiting.clear();
  if (tasks.length) turn.take(() => tasks.forEach((task) => task()));
}

/** Does it now, or as soon as no pointer is down and a click is a second old; whether it is done. */
export function whenFree(task) {
  if (isHeld()) waiting.add(task);
  else task();
  return !waiting.has(task);
}

let isScrolled = false; // kept here, since the browser lays the page out for whoever asks it
addEventListener('scroll', () => { isScrolled = scrollY > 0; }, { passive: true });
let moved = null; // the rows that have moved, while places are changed

/** The rows in sight, with their places. */
function rowsInSight() {
  const main = document.querySelector('main').getBoundingClientRect();
  const rows = new Map();
  for (let y = Math.max(60, main.top + 4); y < innerHeight; y += 24) {
    const row = document.elementFromPoint(main.left + 40, y)?.closest('tr[data-flight]');
    if (row && !rows.has(row)) rows.set(row, row.getBoundingClientRect().top);
  }
  return [...rows];
}

/** Writes rows and changes places while the first row in sight that doesn't move stays where it is. What is seen is measured before. */
export function anchored(change) {
  if (moved || !isScrolled) {
    change();
    return;
  }
  const rows = rowsInSight();
  moved = new Set();
  try {
    change();
  } finally {
    const [row, top] = rows.find(([one]) => one.isConnected && !one.hidden && !moved.has(one)) ?? [null];
    moved = null;
    const by = row ? row.getBoundingClientRect().top - top : 0;
    if (Math.abs(by) >= 1) scrollBy({ top: by, behavior: 'instant' });
  }
}

/** Puts a node before another one; what has the focus keeps it. */
function put(parent, node, before) {
  if (parent.moveBefore && node.isConnected && parent.isConnected) {
    parent.moveBefore(node, before);
    return;
  }
  const focused = node.contains(document.activeElement) ? document.activeElement : null;
  parent.insertBefore(node, before);
  focused?.focus({ preventScroll: true });
}

export class Sorted {
  /** body: where the rows are, in a table in a .chunk of its own; most: how many rows a chunk has, or 0: all. */
  constructor(body, most = 0) {
    this.most = most;
    this.label = body.parentNode.getAttribute('aria-label');
    this.chunks = [{ body, items: [] }];
    this.empty = [];
    this.named = 1; // how many chunks have their names
  }

  get items() {
    return this.chunks.flatMap((chunk) => chunk.items);
  }

  get length() {
    return this.chunks.reduce((sum, chunk) => sum + chunk.items.length, 0);
  }

  /** The number of the chunk in which a key is, or would be. */
  chunkOf(key) {
    let [low, high] = [0, this.chunks.length - 1];
    while (low < high) {
      const middle = (low + high + 1) >> 1;
      if (this.chunks[middle].items[0].key <= key) low = middle;
      else high = middle - 1;
    }
    return low;
  }

  /** Takes an item {key, row} in, or moves it to its new key. */
  set(item, key) {
    if (item.list === this && item.key === key) return;
    let number = item.list === this ? this.chunkOf(item.key) : -1;
    if (this.fits(number, key)) {
      const { items } = this.chunks[number];
      items.splice(placeOf(items, item.key), 1);
    } else {
      item.list?.forget(item);
      number = this.chunkOf(key);
    }
    Object.assign(item, { key, list: this });
    const { body, items } = this.chunks[number];
    const at = placeOf(items, key);
    items.splice(at, 0, item);
    const before = items[at + 1]?.row ?? null;
    if (item.row.parentNode !== body || item.row.nextSibling !== before) {
      moved?.add(item.row);
      put(body, item.row, before);
    }
    const isEnd = number === this.chunks.length - 1 && at === items.length - 1;
    if (this.most && items.length > this.most) this.split(number, isEnd ? at : items.length >> 1);
  }

  /** Whether a key is between those of the chunks beside a chunk. */
  fits(number, key) {
    const { [number - 1]: before, [number]: chunk, [number + 1]: after } = this.chunks;
    return chunk !== undefined && !(before?.items.at(-1).key > key) && !(after?.items[0].key < key);
  }

  /** Makes the items of a chunk from a place on another chunk. */
  split(number, from) {
    const { body, items } = this.chunks[number];
    const chunk = { body: another(body), items: items.splice(from) };
    for (const item of chunk.items) put(chunk.body, item.row, null);
    this.chunks.splice(number + 1, 0, chunk);
  }

  forget(item) {
    const number = this.chunkOf(item.key);
    const { items } = this.chunks[number];
    items.splice(placeOf(items, item.key), 1);
    item.list = null;
    if (!items.length && this.chunks.length > 1) this.empty.push(...this.chunks.splice(number, 1));
  }

  /** Removes the chunks that have no row any more. Each other one is a table of its own, and so has a name of its own. */
  tidy() {
    const { length } = this.chunks;
    if (!this.empty.length && this.named === length) return;
    for (const { body } of this.empty.splice(0)) body.closest('.chunk').remove();
    this.named = length;
    for (const [at, { body }] of this.chunks.entries()) {
      body.parentNode.setAttribute('aria-label', length === 1 ? this.label : `${this.label}, part ${at + 1} of ${length}`);
    }
  }

  remove(item) {
    if (item.list !== this) return;
    this.forget(item);
    item.row.remove();
    this.tidy();
  }
}

/**
 * Puts items in their places: [item, list, key] each. Those that go further down begin with the last, the others with the first, so that
 * rows which stay beside each other aren't moved.
 */
export function arrange(places) {
  const isDown = ([item, list, key]) => item.list === list && item.key < key;
  const byKey = ([, , one], [, , other]) => (one < other ? -1 : 1);
  const down = places.filter(isDown).sort(byKey).reverse();
  const lists = new Set(places.flatMap(([item, list]) => [item.list ?? list, list]));
  for (const [item, list, key] of [...down, ...places.filter((place) => !isDown(place)).sort(byKey)]) list.set(item, key);
  for (const list of lists) list.tidy();
}

function placeOf(items, key) {
  let [low, high] = [0, items.length];
  while (low < high) {
    const middle = (low + high) >> 1;
    if (items[middle].key < key) low = middle + 1;
    else high = middle;
  }
  return low;
}

/** The body of another table with the same columns, behind the one of a body. */
function another(body) {
  const table = body.parentNode;
  const chunk = table.closest('.chunk');
  chunk.classList.add('many');
  const [copy, rows] = [table.cloneNode(false), el('tbody')];
  copy.append($('colgroup', table).cloneNode(true), $('thead', table).cloneNode(true), rows);
  const next = el('div', { class: 'chunk many' }, copy);
  chunk.after(next);
  if (moved) {
    for (const one of [chunk, next]) {
      one.classList.add('seen'); // until its height is known
      setTimeout(() => one.classList.remove('seen'), 1000);
    }
  }
  return rows;
}
