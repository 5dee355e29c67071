// The start-ups ahead: which flights, in which order and what each waits for is the program's `next`.
import { isLate } from './day.js';
import { $, el, named, say } from './dom.js';
import { Sorted, arrange, whenFree } from './hold.js';
import { LETTERS, REASONS, Table, flag, tell, write } from './columns.js';
import { later, minutesFrom } from './times.js';

const AHEAD = 30;
const MOST_OUT = 3;
const TIMES = ['tobt', 'ctot', 'ttot']; // a date before them needs a wider column
const CHUNK = 60;
const PARTS = {
  runway: () => [el('b', { class: 'rw text' })],
  tsat: () => [el('div', { class: 'big' }, el('b', { class: 'text' }), ' ', el('span', { class: 'in' }))],
  why: () => [el('div', { class: 'why' }, el('span', {}, el('b', { class: 'cause' }), ' ', el('a')), ' ', el('b', { class: 'tag' }), ' ', el('small'))],
};

export class Next {
  constructor(day, moves, filter) {
    Object.assign(this, { day, moves, filter, items: new Map(), tags: new Map(), named: new Map(), position: -1, isKnown: false, said: '' });
    this.table = new Table('next', 'Next start-ups, by TSAT', PARTS);
    $('#next .chunk').replaceChildren(this.table.root);
    this.list = new Sorted(this.table.body, CHUNK);
  }

  /** The program's answer, of a moment that the events may not have reached yet. */
  take(flights, position) {
    Object.assign(this, { isKnown: true, position, named: new Map(flights.map((one) => [one.flight, one])) });
    for (const name of [...this.items.keys()]) if (!this.named.has(name)) this.drop(name);
    for (const name of this.named.keys()) this.admit(name);
    this.show([...this.items.keys()]);
  }

  /** Takes in a flight of the answer. */
  admit(name) {
    if (!this.named.has(name) || this.day.rows.get(name)?.status !== 'PLANNED') return;
    const item = this.items.get(name) ?? this.make(name);
    item.cause = this.named.get(name).cause;
  }

  make(name) {
    const item = this.table.make(name);
    const { tsat, why } = item.cells;
    Object.assign(item, { cause: null, by: $('a', why) });
    Object.assign(item.texts, { in: $('.in', tsat), waits: $('.cause', why), tag: $('.tag', why), since: $('small', why) });
    this.items.set(name, item);
    return item;
  }

  /** The warnings' tags, by flight. */
  tag(tags) {
    const names = [...this.items.keys()].filter((name) => tagOf(tags, name) !== tagOf(this.tags, name));
    this.tags = tags;
    this.show(names);
  }

  drop(name) {
    const item = this.items.get(name);
    this.items.delete(name);
    this.list.remove(item);
  }

  /** What records changed; all is written if NOW did. Where they are newer than the answer, the cause isn't known until the program is asked again. */
  changed(names, isNow) {
    const isNewer = this.day.position > this.position;
    for (const name of names) {
      if (!isNewer) this.admit(name);
      else if (this.items.has(name)) this.items.get(name).cause = null;
    }
    this.show(isNow ? [...this.items.keys()] : names);
  }

  /** Writes these flights' rows, and puts them in their places. */
  show(names) {
    const moving = [];
    for (const name of names) {
      const item = this.items.get(name);
      if (!item) continue;
      const row = this.day.rows.get(name);
      if (row?.status !== 'PLANNED' || !row.tsat || !this.filter.takes(row)) {
        if (row?.status === 'PLANNED' && row.tsat) this.list.remove(item);
        else this.drop(name);
        continue;
      }
      this.write(item, row);
      if (item.list !== this.list || item.key !== keyOf(row)) moving.push(item);
    }
    if (!whenFree(() => this.place(moving))) this.head();
  }

  place(moving) {
    const rows = moving.filter((item) => this.items.get(item.name) === item).map((item) => this.day.rows.get(item.name));
    arrange(rows.filter((row) => row?.tsat && this.filter.takes(row)).map((row) => [this.items.get(row.flight), this.list, keyOf(row)]));
    const { date } = this.day;
    $('#next').classList.toggle('dated', this.list.items.some(({ name }) => TIMES.some((time) => this.day.rows.get(name)?.[time]?.startsWith(date) === false)));
    this.divide();
    this.head();
  }

  write(item, row) {
    const mark = this.moves.mark(item.name);
    write(item, row, this.day.date, this.moves.columns(item.name));
    tell(item, 'in', mark || this.ahead(row));
    flag(item, 'mv', Boolean(mark), item.texts.in);
    flag(item, 'moved', mark !== null);
    flag(item, 'late', isLate(row));
    this.because(item, row);
    const tag = tagOf(this.tags, item.name);
    if (tag !== item.has.tag) item.texts.tag.hidden = !tag;
    tell(item, 'tag', tag);
    tell(item, 'since', this.moves.sinceText(item.name));
    flag(item, 'since', item.has.since !== '');
  }

  /** The cause, in its colour, and the flight in whose way it is. */
  because(item, row) {
    const letter = LETTERS[item.cause] ?? '';
    const by = item.cause === 'SPACING' ? inFront(this.day.rows, row) : '';
    tell(item, 'waits', item.cause === null ? (row.delay ? '…' : '–') : REASONS[item.cause] ?? item.cause ?? '–');
    if (item.has.by === `${letter}${by}`) return;
    item.has.by = `${letter}${by}`;
    item.texts.waits.className = letter ? `cause k${letter}` : 'cause';
    item.by.hidden = !by;
    named(item.by, by);
  }

  /** `in 13`, or `now` from the TSAT on. */
  ahead(row) {
    const minutes = minutesFrom(this.day.now, row.tsat);
    return minutes > 0 ? `in ${minutes}` : 'now';
  }

  /** All rows again, as NOW, the filter or what was seen changed. */
  again() {
    this.show([...this.items.keys()]);
  }

  /** The end of the next 30 minutes; times are in order as texts. */
  get soon() {
    return this.day.now && later(this.day.now, AHEAD);
  }

  /** A line between the flights of the next 30 minutes and the others. */
  divide() {
    const { soon } = this;
    let was = true;
    for (const item of this.list.items) {
      const is = this.day.rows.get(item.name)?.tsat < soon;
      flag(item, 'beyond', was && !is);
      was = is;
    }
  }

  head() {
    const shown = this.list.length;
    say($('#next h2 b'), this.isKnown ? shown : '…');
    $('#seen').hidden = !this.moves.seen;
    $('#next .empty').hidden = !this.isKnown || shown > 0;
    say($('#next .empty'), `No start-up${this.filter.isOn ? ' that the filter shows' : ''} in the next 60 minutes.`);
    if (this.moves.seen) this.since(this.moves.seen.at);
  }

  /** How many of the next 30 minutes moved since one looked, and which moved out of them. */
  since(at) {
    const { soon } = this;
    const count = [...this.items.keys()].filter((name) => {
      const row = this.day.rows.get(name);
      return row?.tsat && row.tsat < soon && this.moves.since(name) !== null && this.filter.takes(row);
    }).length;
    const out = this.moves.out((tsat) => tsat < soon).filter((name) => this.filter.takes(this.day.rows.get(name)));
    const said = `${count} ${at} ${out}`;
    if (said === this.said) return;
    this.said = said;
    const names = out.slice(0, MOST_OUT).flatMap((name) => [' ', el('a', { href: `#${name}` }, name)]);
    $('#since').replaceChildren(`Next ${AHEAD} min: ${count || 'none'} moved since ${at}`, ...(out.length ? [`, ${out.length} moved out:`, ...names] : []),
      out.length > MOST_OUT ? ` +${out.length - MOST_OUT}` : '');
  }
}

/**
 * The flight behind which a flight keeps its spacing: the one that takes off last before it on its runway. No other one can be in its way in the
 * last minute for which it waits, and not in its own.
 */
function inFront(rows, { ttot, runway }) {
  let last = null;
  for (const row of rows.values()) if (row.runway === runway && row.ttot && row.ttot < ttot && !(last?.ttot > row.ttot)) last = row;
  return last?.flight ?? '';
}

const tagOf = (tags, name) => (tags.get(name) ?? []).join(', ');
const keyOf = (row) => `${row.tsat} ${row.flight}`;
