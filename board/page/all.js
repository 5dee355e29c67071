// All flights, in a table for each status; one row a flight, made once.
import { STATUSES, Table, flag, statusWord, tell, write } from './columns.js';
import { $, $$, el, say } from './dom.js';
import { Sorted, arrange, whenFree } from './hold.js';

export const SLICE = 8; // ms of a task, after which others have their turn
const CHUNK = 100;
const MANY = 300;
const LONGEST_DELAY = 9999;
const LONG = 100; // ms after which a pause ends anyway
/** Others have their turn. */
export const breath = () => new Promise((go) => {
  const isSoon = globalThis.scheduler?.yield?.().then(go);
  setTimeout(go, isSoon ? LONG : 0);
});

export class All {
  constructor(day, moves, filter) {
    Object.assign(this, { day, moves, filter, items: new Map() });
    this.isKnown = false; // until the first plan has come
    this.sort = filter.values.sort;
    $('#b-csv').addEventListener('click', async () => (await import('./csv.js')).save(day, this.shown()));
    this.groups = new Map(Object.entries(STATUSES).map(([status, { word }]) => [status, groupOf(status, word)]));
  }

  /** The flights that have no row yet. */
  lacking(names) {
    return [...names].filter((name) => this.day.rows.has(name) && !this.items.has(name));
  }

  /** Makes their rows in slices that leave time for others. Nothing of them is shown yet: those of a first plan are in tables that aren't either. */
  async make(names) {
    const rows = names.map((name) => this.day.rows.get(name)).sort((one, other) => (this.keyOf(one) < this.keyOf(other) ? -1 : 1));
    let began = performance.now();
    for (const { flight } of rows) {
      const row = this.day.rows.get(flight);
      if (row) this.write(this.itemOf(flight), row);
      if (row && !this.isKnown) this.listOf(row).set(this.itemOf(flight), this.keyOf(row));
      if (document.hidden || performance.now() - began < SLICE) continue;
      await breath();
      began = performance.now();
    }
  }

  listOf(row) {
    return this.groups.get(row.status).list;
  }

  itemOf(name) {
    const item = this.items.get(name) ?? this.groups.get('PLANNED').table.make(name);
    this.items.set(name, item);
    return item;
  }

  /** Writes these flights' rows, and puts those that moved in their places. */
  changed(names) {
    const moving = [];
    for (const name of names) {
      const row = this.day.rows.get(name);
      const item = row ? this.itemOf(name) : this.items.get(name);
      if (!row) {
        this.items.delete(name);
        item?.list?.remove(item);
        continue;
      }
      this.write(item, row);
      if (item.list !== this.listOf(row) || item.key !== this.keyOf(row)) moving.push(item);
    }
    whenFree(() => this.place(moving));
  }

  place(moving) {
    const rows = moving.filter((item) => this.items.get(item.name) === item).map((item) => this.day.rows.get(item.name)).filter(Boolean);
    arrange(rows.map((row) => [this.items.get(row.flight), this.listOf(row), this.keyOf(row)]));
    if (!this.isKnown) this.begin();
    this.counts();
  }

  /** The first plan is shown. */
  begin() {
    this.isKnown = true;
    const groups = [...this.groups.values()].map(({ group }) => group);
    for (const { list } of this.groups.values()) list.tidy();
    if (this.items.size > MANY) {
      for (const status of ['AIRBORNE', 'CANCELLED']) this.groups.get(status).group.open = false;
      for (const chunk of groups.flatMap((group) => $$('.chunk', group))) chunk.classList.add('many');
    }
    $('#all').append(...groups);
  }

  write(item, row) {
    const mark = this.moves.mark(item.name);
    const status = row.status === 'BLOCKED' ? `${statusWord(row.status)} ${row.rule}` : statusWord(row.status);
    write(item, row, this.day.date, this.moves.columns(item.name));
    tell(item, 'status', mark ? (row.rule ? `${row.rule} ${mark.slice(2)}` : mark) : status);
    flag(item, 'moved', mark !== null);
    item.row.hidden = !this.filter.takes(row);
  }

  /** All rows again, as the filter changed. */
  again() {
    for (const item of this.items.values()) {
      const row = this.day.rows.get(item.name);
      if (row) item.row.hidden = !this.filter.takes(row);
    }
    if (this.sort === this.filter.values.sort) this.counts();
    else this.ordered();
  }

  /** All rows in another order. */
  ordered() {
    this.sort = this.filter.values.sort;
    whenFree(() => this.place([...this.items.values()]));
  }

  /** The Rows that are shown, in their order. */
  shown() {
    return [...this.groups.values()].flatMap(({ list }) => list.items).map((item) => this.day.rows.get(item.name)).filter((row) => row && this.filter.takes(row));
  }

  /** By TSAT; or the longest delay first. */
  keyOf(row) {
    const key = `${row.tsat ?? '~'} ${row.flight}`;
    return this.sort === 'delay' ? `${String(LONGEST_DELAY - (row.delay ?? -1)).padStart(5, '0')} ${key}` : key;
  }

  counts() {
    if (!this.isKnown) return;
    let [shown, all] = [0, 0];
    for (const [status, { group, list, count }] of this.groups) {
      const here = this.filter.isOn ? list.items.filter((item) => !item.row.hidden).length : list.length;
      say(count, here);
      group.hidden = here === 0;
      group.dataset.count = String(here);
      shown += here;
      all += list.length;
      group.classList.toggle('is-blocked', status === 'BLOCKED');
    }
    say($('#all h2 b'), all);
    say($('#count'), `${shown} of ${all} flights`);
    this.filter.head(shown, all, this.day.rows);
  }
}

/** The group of a status: its table, its rows in order, and where their number is said; hidden until there are any. */
function groupOf(status, word) {
  const title = `${word[0].toUpperCase()}${word.slice(1)}`;
  const table = new Table('all', `All flights, ${word}`);
  const count = el('b');
  const group = el('details', { open: true, 'data-status': status, hidden: true }, el('summary', {}, `${title} `, count),
    el('div', { class: 'chunk' }, table.root));
  return { group, table, count, list: new Sorted(table.body, CHUNK) };
}
