// The flights without a start-up time, with their rule, the first CTOT first; and what the delay of the others is made of.
import { $, el, say } from './dom.js';
import { Sorted, whenFree } from './hold.js';
import { Table, flag, write } from './columns.js';

const CAUSES = ['delay', 'ice', 'ctot', 'closure', 'spacing', 'rate', 'now'];
const PARTS = { flight: () => [el('a'), el('small')], rule: () => [el('b', { class: 'rule text' }), ' ', el('a', { class: 'helps' })] };

/** Makes a link one that opens a flight's panel and asks what could help it. */
function helps(link, name) {
  link.href = `#${name}`;
  link.dataset.helps = name;
  for (const attribute of ['aria-label', 'title']) link.setAttribute(attribute, `What could help ${name}?`);
}

export class Blocked {
  constructor(day, moves, filter) {
    Object.assign(this, { day, moves, filter, items: new Map() });
    this.table = new Table('blocked', 'Blocked flights, first CTOT first', PARTS);
    $('#blocked').append(this.table.root);
    this.list = new Sorted(this.table.body);
  }

  changed(names) {
    for (const name of names) this.write(name);
    whenFree(() => {
      for (const name of names) this.place(name);
      this.head();
    });
  }

  /** Writes a flight's row, if it has one; it may have to leave, but not yet. */
  write(name) {
    const row = this.day.rows.get(name);
    const item = row && (this.items.get(name) ?? (this.takes(row) && this.make(name)));
    if (!item) return;
    const mark = this.moves.mark(name);
    write(item, row, this.day.date);
    say(item.since, this.moves.sinceText(name) || (mark ?? ''));
    flag(item, 'moved', mark !== null);
  }

  takes(row) {
    return row?.status === 'BLOCKED' && this.filter.takes(row);
  }

  place(name) {
    const item = this.items.get(name);
    const row = this.day.rows.get(name);
    if (item && this.takes(row)) {
      this.list.set(item, `${row.ctot ?? '~'} ${name}`);
    } else if (item) {
      this.items.delete(name);
      this.list.remove(item);
    }
  }

  make(name) {
    const item = this.table.make(name);
    item.since = $('small', item.cells.flight);
    helps($('a', item.cells.rule), name);
    this.items.set(name, item);
    return item;
  }

  again() {
    this.changed([...this.day.rows.keys()]);
  }

  head() {
    say($('#blocked h2 b'), this.list.length);
    $('#blocked').classList.toggle('some', this.list.length > 0);
  }
}

/** What the delay is made of, by the program's `causes`; asked for only while it is shown. */
export class Causes {
  constructor(onOpen) {
    this.details = $('#causes');
    this.select = $('#causes select');
    for (const [node, name] of [[this.details, 'toggle'], [this.select, 'change']]) node.addEventListener(name, onOpen);
  }

  get isWanted() {
    return this.details.open;
  }

  take(list) {
    say($('#causes thead th'), this.select.value === 'runway' ? 'Runway' : 'Operator');
    $('#causes tbody').replaceChildren(...list.map((one) => el('tr', { class: one.group === 'TOTAL' && 'diff' },
      el('th', { scope: 'row' }, one.group), ...CAUSES.map((name) => el('td', { class: 'n' }, String(one[name]))))));
  }
}
