// The one table of columns: what each member of a flight's Row is called, how it is printed, and in which tables it is, in what order.
// Heads, rows and the flight's facts are made from it, so that a word of the page is written once.
import { isLate } from './day.js';
import { $, el, named } from './dom.js';
import { hm } from './times.js';

/** A flight's statuses in the order of the groups: the page's word, and the kinds of records that are still taken of it (null: all but AIR). */
export const STATUSES = {
  BLOCKED: { word: 'blocked', takes: null },
  PLANNED: { word: 'planned', takes: null },
  OFFBLOCK: { word: 'off-block', takes: ['AIR'] },
  AIRBORNE: { word: 'airborne', takes: [] },
  CANCELLED: { word: 'cancelled', takes: [] },
};

/** The page's word for a status; one that it doesn't know is said as it is. */
export const statusWord = (status) => STATUSES[status]?.word ?? String(status);

/** The program's status of a word of the page. */
export const statusOf = (word) => Object.keys(STATUSES).find((status) => STATUSES[status].word === word) ?? word;

/** Whether a record of this kind is still taken of a flight. */
export function takesKind(status, kind) {
  const takes = STATUSES[status]?.takes ?? null;
  return takes ? takes.includes(kind) : kind !== 'AIR';
}

/** What isn't known is a dash: never 0, never nothing. */
export const known = (value) => (value == null || value === '' ? '–' : String(value));

const plain = (value) => known(value);

/**
 * The columns by name. `label`: its head; `print(value, date)`: its text, null where the table makes it of more than the member;
 * `isNumber`: it stands right; `isMarked`: a change of it is marked where the start-up stays.
 */
export const COLUMNS = {
  tsat: { label: 'TSAT', print: hm },
  flight: { label: 'Flight', print: null },
  status: { label: 'Status', print: null },
  rule: { label: 'Rule', print: plain },
  runway: { label: 'Rwy', print: plain, isMarked: true },
  stand: { label: 'Stand', print: plain, isMarked: true },
  tobt: { label: 'TOBT', print: hm, isMarked: true },
  exot: { label: 'EXOT', print: plain, isNumber: true, isMarked: true },
  ctot: { label: 'CTOT', print: hm, isMarked: true },
  ttot: { label: 'TTOT', print: hm, isMarked: true },
  delay: { label: 'Delay', print: plain, isNumber: true, isMarked: true },
  why: { label: 'Waits for, moved by', print: null },
  priority: { label: 'Priority', print: plain },
  group: { label: 'Wake category', print: plain },
};

/** The columns of each table, in their order. */
export const TABLES = {
  next: ['tsat', 'flight', 'runway', 'stand', 'tobt', 'exot', 'ctot', 'ttot', 'delay', 'why'],
  all: ['tsat', 'flight', 'status', 'runway', 'stand', 'tobt', 'exot', 'ctot', 'ttot', 'delay'],
  blocked: ['flight', 'rule', 'runway', 'tobt', 'ctot'],
  facts: ['tobt', 'exot', 'ctot', 'tsat', 'ttot', 'delay'],
};

/** The columns whose change is marked. */
export const MARKED = Object.keys(COLUMNS).filter((name) => COLUMNS[name].isMarked);

/** Why a flight waits: the page's word for each reason of the program, and the letter of its colour. */
export const REASONS = { ICE: 'de-icing', CTOT: 'CTOT', CLOSURE: 'closure', SPACING: 'spacing', RATE: 'rate', NOW: 'now' };
export const LETTERS = { ICE: 'I', NOW: 'N', CTOT: 'C', CLOSURE: 'X', SPACING: 'S', RATE: 'R' };

/** A member in words, as `priority 5`, `no stand`. */
export function inWords(name, value, label = COLUMNS[name].label.toLowerCase()) {
  return value == null || value === '' ? `no ${label}` : `${label} ${value}`;
}

/** What is in a cell of each table where it isn't a text alone; the text goes where `text` is. */
const PARTS = {
  flight: () => [el('a')],
  delay: () => [el('b', { class: 'late' }, 'late'), ' ', el('span', { class: 'text' })],
};

/** A class of each column, by which the style sheet gives it its width and hides it where there is no room. */
const classOf = (name) => `c-${name}${COLUMNS[name].isNumber ? ' n' : ''}`;

/** A table of one kind, with a name of its own. `parts`: what its cells have beside, by column. */
export class Table {
  constructor(kind, label, parts = {}) {
    this.names = TABLES[kind];
    this.body = el('tbody');
    this.root = el('table', { 'aria-label': label }, el('colgroup', {}, ...this.names.map((name) => el('col', { class: `c-${name}` }))),
      el('thead', {}, el('tr', {}, ...this.names.map((name) => el('th', { scope: 'col', class: classOf(name) }, COLUMNS[name].label)))), this.body);
    this.model = el('tr', {}, ...this.names.map((name) => el(name === 'flight' ? 'th' : 'td', { scope: name === 'flight' && 'row', class: classOf(name), 'data-label': COLUMNS[name].label },
      ...(parts[name] ?? PARTS[name] ?? (() => []))())));
  }

  /** A flight's row: its cells and where their texts go, by column. */
  make(name) {
    const row = this.model.cloneNode(true);
    row.dataset.flight = name;
    const cells = Object.fromEntries(this.names.map((column, at) => [column, row.children[at]]));
    const texts = Object.fromEntries(this.names.map((column) => [column, cells[column].firstElementChild ? $('.text', cells[column]) ?? cells[column] : cells[column]]));
    named($('a', cells.flight), name);
    return { name, row, cells, texts, late: cells.delay && $('.late', cells.delay), key: '', list: null, has: {} };
  }
}

/** Puts a text into a place of an item, if it isn't there already. What is there is kept beside it: to read it from the page takes longer. */
export function tell(item, name, text) {
  if (item.has[name] === text) return;
  item.has[name] = text;
  item.texts[name].textContent = text;
}

/** Gives an item's row, or a part of it, a class, or takes it. */
export function flag(item, name, isOn, node = item.row) {
  if ((item.has[`.${name}`] ?? false) === isOn) return;
  item.has[`.${name}`] = isOn;
  node.classList.toggle(name, isOn);
}

/** Puts into a flight's cells what its Row says, and marks the columns that changed. */
export function write(item, row, date, marked = []) {
  const marks = marked.join();
  const areOthers = marks !== (item.has.marks ?? '');
  item.has.marks = marks;
  for (const name in item.cells) {
    if (COLUMNS[name].print) tell(item, name, COLUMNS[name].print(row[name], date));
    if (areOthers) item.cells[name].classList.toggle('mv', marked.includes(name));
  }
  if (item.cells.ctot) flag(item, 'held', row.ctot !== null, item.cells.ctot);
  if (item.late && item.late.hidden === isLate(row)) item.late.hidden = !isLate(row);
}

/** A flight's facts: a term and its value each; where the texts go, by column. */
export function facts(root) {
  const item = { cells: {}, texts: {}, late: null, has: {} };
  root.replaceChildren(...TABLES.facts.map((name) => {
    const cell = el('dd', { class: `c-${name}` }, ...(PARTS[name]?.() ?? []));
    item.cells[name] = cell;
    item.texts[name] = $('.text', cell) ?? cell;
    item.late ??= $('.late', cell);
    return el('div', {}, el('dt', {}, COLUMNS[name].label), cell);
  }));
  return item;
}
