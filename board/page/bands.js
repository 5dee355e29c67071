// Each runway's hours from NOW on, drawn from the program's `load`: a column a cell, a block a place.
import { $, el, say } from './dom.js';
import { showRunways } from './state.js';
import { hm, later, minutesFrom, nextDay } from './times.js';

const MOST_CELLS = 15;
const MOST_BLOCKS = 6;
const HOURS = 2.5;
const CELL = 4; // rem: the widest name fits

export class Bands {
  constructor(day) {
    Object.assign(this, { day, runways: [], plans: null, base: null, bands: new Map(), buttonOf: null });
  }

  take(runways) {
    this.runways = runways;
    this.show();
  }

  /** The loads of scenarios, as rows of their own: {name, runways, isChosen} each; null: none. `base`: the loads that they are compared with, or null: the day's. */
  beside(plans, base = null) {
    Object.assign(this, { plans, base });
    this.show();
  }

  /** What is drawn of a runway beside its own cells: each scenario's, and those that they are compared with. */
  othersOf({ runway: name }, cells) {
    const like = (runways) => {
      const found = runways.find((one) => one.runway === name);
      return cells.map(({ from }) => (found ? cellOf(found, from) : { from, placed: null, cap: null, closed: 0, flights: [] }));
    };
    return { plans: this.plans?.map((plan) => ({ ...plan, runways: null, isKnown: plan.runways.length > 0, cells: like(plan.runways) })) ?? [], base: this.base ? like(this.base) : cells };
  }

  show() {
    const root = $('#runways');
    const withFlights = this.runways.length <= 4;
    const drawn = [];
    for (const runway of this.runways) {
      const now = runway.now ?? this.day.now; // a load without NOW of its own is drawn from the day's
      if (!now) continue;
      const cells = cellsOf(runway, now, this.day.date);
      drawn.push({ runway, cells });
      const others = this.othersOf(runway, cells);
      const text = JSON.stringify([this.day.date, cells, now, others, withFlights]);
      const band = this.bands.get(runway.runway) ?? this.make(runway.runway);
      if (band.text === text) continue;
      band.text = text;
      this.draw(band, runway, cells, others, withFlights);
    }
    for (const [name, band] of this.bands) {
      if (!this.runways.some((one) => one.runway === name)) {
        band.root.remove();
        this.bands.delete(name);
      }
    }
    $('.empty', root).hidden = this.runways.length > 0;
    showRunways(drawn, this.day.date);
  }

  make(name) {
    const [state, cells] = [el('b'), el('small')];
    const head = el('h3', { id: `rw-${name}` }, name, ' ', state, ' ', cells);
    const table = el('table', { 'aria-label': `Runway ${name}, load of each cell` });
    const scroll = el('div', { class: 'scroll', tabindex: 0, role: 'region', 'aria-label': `Runway ${name}, hours from NOW` }, table);
    const band = { root: el('section', { class: 'band', 'aria-labelledby': `rw-${name}` }, head, scroll), head, state, cells, table, text: '', button: null };
    this.bands.set(name, band);
    this.offer(name, band);
    $('#runways').append(band.root);
    return band;
  }

  /** A button in each head: buttonOf(runway, root) makes it, or null where there is none. */
  offerAll(buttonOf) {
    this.buttonOf = buttonOf;
    for (const [name, band] of this.bands) this.offer(name, band);
  }

  offer(name, band) {
    const button = this.buttonOf?.(name, band.root) ?? null;
    if (Boolean(button) === Boolean(band.button)) return;
    if (button) band.head.append(' ', button);
    else band.button.remove();
    band.button = button;
  }

  draw(band, runway, cells, { plans, base }, withFlights) {
    const { date } = this.day;
    say(band.state, stateOf(cells, runway, date));
    say(band.cells, `cells of ${runway.cell} min`);
    band.table.style.minWidth = `calc(${3.25 + cells.length * CELL}rem * var(--wide, 1))`;
    const heads = cells.map((cell) => el('th', { scope: 'col', class: cell.from.slice(14, 16) === '00' && 'hour' }, hm(cell.from, date)));
    const bodies = [el('tbody', {}, ...rowsOf('load', cells, runway, withFlights))];
    for (const plan of plans) {
      const name = plans.length > 1 && el('tr', { class: 'name' }, el('th', { scope: 'rowgroup', colspan: cells.length + 1 }, el('b', {}, plan.name)));
      bodies.push(el('tbody', { class: plan.isChosen && plans.length > 1 ? 'wi chosen' : 'wi' }, name, ...rowsOf('what-if', plan.cells, runway, withFlights, plan.isKnown ? base : null)));
    }
    band.table.replaceChildren(el('thead', {}, el('tr', {}, el('th', { scope: 'col' }, 'TTOT'), ...heads)), ...bodies);
  }
}

/** A runway's cell by its beginning. The program tells those from the first to the last that has something to tell. */
function cellOf({ cells }, from) {
  return cells.find((cell) => cell.from === from) ?? { from, placed: 0, cap: null, closed: 0, flights: [] };
}

/** The cells of the axis, from the one that has NOW on, up to the end of the two days. */
function cellsOf(runway, now, date) {
  const midnight = `${now.slice(0, 10)}T00:00Z`;
  const first = Math.floor(minutesFrom(midnight, now) / runway.cell) * runway.cell;
  const count = Math.max(1, Math.min(MOST_CELLS, HOURS * 60 / runway.cell));
  const end = nextDay(nextDay(date));
  return Array.from({ length: count }, (_, at) => later(midnight, first + at * runway.cell))
    .filter((from) => from < end).map((from) => cellOf(runway, from));
}

/** In words, whether it is open. */
function stateOf(cells, { cell: length }, date) {
  const isShut = (cell) => cell.closed >= length;
  const part = cells[0].closed && !isShut(cells[0]) ? `closed ${cells[0].closed} of these ${length} min` : '';
  const rest = part ? cells.slice(1) : cells;
  if (rest.length > 0 && isShut(rest[0])) {
    const open = rest.find((cell) => !isShut(cell));
    const again = open && rest.find((cell) => cell.from > open.from && cell.closed);
    if (!open) return part ? `${part}, then for these hours` : 'closed for these hours';
    return `${part || 'closed'}, opens at ${open.closed ? 'or after ' : ''}${hm(open.from, date)}`
      + `${again ? `, closes again at ${again.closed < length ? 'or after ' : ''}${hm(again.from, date)}` : ''}`;
  }
  if (part) return part;
  const next = cells.find((cell) => cell.closed);
  return next ? `open, closes at ${next.closed < length ? 'or after ' : ''}${hm(next.from, date)}` : 'open';
}

/** `before`: the cells that these are compared with, or null. */
function rowsOf(title, cells, { cell: length }, withFlights, before = null) {
  const loads = cells.map((cell, at) => {
    const isShut = cell.closed >= length;
    const isOver = cell.cap !== null && cell.placed > cell.cap;
    const name = [at === 0 && 'at', cell.closed && 'shut', isOver && 'over', cell.cap !== null && cell.placed === cell.cap && 'full'];
    const shut = isShut && !cell.placed;
    return el('td', { class: name.filter(Boolean).join(' ') || null }, el('span', { class: 'st', 'aria-hidden': 'true' }, ...blocks(cell, shut)),
      el('span', { class: 'num' }, shut ? 'closed' : cell.placed === null ? '–' : cell.cap === null ? '0' : `${cell.placed}/${cell.cap}${isOver ? '!' : ''}`),
      cell.closed && !shut ? el('span', { class: 'vh' }, `, ${cell.closed} min closed`) : null);
  });
  const rows = [el('tr', { class: 'load' }, el('th', { scope: 'row' }, title), ...loads)];
  if (withFlights) {
    rows.push(el('tr', { class: 'names' }, el('th', { scope: 'row' }, 'flights'), ...cells.map((cell, at) => el('td', {}, ...namesIn(cell.flights, before?.[at].flights ?? cell.flights)))));
  }
  return rows;
}

/** The flights in a cell: one that isn't among those of before is marked, and of those that aren't here any more the names are struck out. */
function namesIn(flights, before) {
  const here = flights.map((name) => (before.includes(name) ? name : `${name}*`));
  const gone = before.filter((name) => !flights.includes(name)).map((name) => el('s', {}, el('span', { class: 'vh' }, 'was '), name));
  return [...here, ...gone].flatMap((one, at) => [at > 0 && el('br'), one]);
}

function blocks({ placed, cap }, isShut) {
  if (isShut || cap === null || Math.max(placed, cap) > MOST_BLOCKS) return [];
  return Array.from({ length: Math.max(placed, cap) }, (_, at) => el(at >= cap ? 's' : at < placed ? 'b' : 'i')).reverse();
}
