// What to do about each warning: one row a flight, with why, since when, what to do, and a button. It is loaded when it is first opened.
import { takesKind } from './columns.js';
import { $, el, say, styled } from './dom.js';
import { counted } from './effect.js';
import { isHelpable } from './flight.js';
import { turn, whenFree } from './hold.js';
import { Problem, objects } from './net.js';
import { hm, hms } from './times.js';
import { ACT, current, explained, urgency } from './warnings.js';

styled(new URL('act.css', import.meta.url).href);

const MOST_ASKED = 8; // blocked flights whose first free take-off is asked for
const AGAIN = 5000; // ms between two questions of one flight

/** The rules that leave a flight no minute of its CTOT window. */
const WINDOW = ['CTOT', 'CLOSURE', 'SPACING', 'RATE'];

/** Whether a flight is blocked at its CTOT. */
export const isAtCtot = (one) => one.kind === 'BLOCKED' && one.ctot && WINDOW.includes(one.rule);

/** When a flight would take off first if no CTOT bound it and all others came before it: the program's own what-if. Raises Problem. */
async function firstFree(name) {
  const body = `SCENARIO,FREE\nCTOT,${name},-\nPRIO,${name},9\n`;
  const { list: [{ row }], position } = await objects(`/v1/why/${name}.json?scenario=FREE`, { method: 'POST', body });
  return { row, position };
}

export class Act {
  /** runways(): their names; warnings: the strip's; propose(flight, kind, ...values): puts a record into the flight's form. */
  constructor({ day, moves, desk, runways, warnings, propose }) {
    Object.assign(this, { day, moves, desk, runways, warnings, propose, isOpen: false, said: '', free: new Map(), isAsking: false });
    this.list = $('#act');
    current.addEventListener('told', () => this.changed());
  }

  open() {
    this.isOpen = true;
    this.said = '';
    this.draw();
  }

  close() {
    this.isOpen = false;
  }

  changed() {
    if (this.isOpen) turn.take(() => whenFree(() => this.draw()));
  }

  draw() {
    if (!this.isOpen) return;
    const groups = this.warnings.gathered.toSorted((one, other) => urgency(one[0].kind) - urgency(other[0].kind));
    const rows = groups.map((group) => this.rowOf(group));
    const said = JSON.stringify(rows);
    if (said === this.said) return;
    this.said = said;
    const focused = document.activeElement?.closest?.('#act') && document.activeElement.dataset.of;
    this.list.replaceChildren(...rows.map((row) => this.itemOf(row)));
    if (focused) $(`#act [data-of="${CSS.escape(focused)}"]`)?.focus({ preventScroll: true });
    say($('#h-act small'), groups.length ? `${counted(groups.length, 'row')}, the most urgent first` : 'There is no warning.');
    this.ask(groups.map(([one]) => one).filter(isAtCtot).slice(0, MOST_ASKED).map((one) => one.flight));
  }

  /** What a row says, and which records its buttons put into a form. */
  rowOf(group) {
    const { date } = this.day;
    const [first] = group;
    const { flight } = first;
    const row = this.day.rows.get(flight);
    const all = explained(group, { date, row, runways: this.runways(), may: (kind) => this.desk.maySend(`${kind},${flight}`) });
    const status = row?.status;
    const kinds = status ? this.desk.kindsOf(flight).map((one) => one.kind).filter((kind) => takesKind(status, kind)) : [];
    const free = isAtCtot(first) ? this.free.get(flight) : null;
    return { flight, isHelpable: isHelpable(row), kinds: group.map((one) => one.kind), since: this.since(group), words: all.map(({ means, act }) => `${means} ${act}`),
      free: isAtCtot(first) && freeWords(free, date), buttons: all.flatMap(({ answers }) => answers).filter(({ kind }) => kinds.includes(kind))
        .filter(({ kind }, at, list) => list.findIndex((one) => one.kind === kind) === at) };
  }

  /** Since when: as this page saw it come; and the record that moved the flight last. */
  since(group) {
    const since = Math.min(...group.map((one) => this.warnings.since(one) ?? -Infinity));
    const why = group[0].flight ? this.moves.why(group[0].flight) : '';
    return `${Number.isFinite(since) ? `since ${hms(since).slice(0, 5)}` : 'since before this page was opened'}${why && `; moved last by ${why}`}`;
  }

  itemOf({ flight, isHelpable: isAsked, kinds, since, words, free, buttons }) {
    return el('li', {}, el('b', { class: ACT.includes(kinds[0]) && 'act' }, kinds.join(', ')), ' ', flight && el('a', { href: `#${flight}`, 'data-of': flight }, flight), ' ', el('small', {}, since),
      ...words.map((text) => el('p', {}, text)), free && el('p', { class: 'free' }, free),
      isAsked && el('p', {}, el('a', { href: `#${flight}`, 'data-helps': flight, 'data-of': `${flight} helps` }, 'What could help?', el('span', { class: 'vh' }, ` ${flight}`))),
      ...buttons.map(({ kind, values }) => {
        const button = el('button', { type: 'button', class: 'quiet', 'data-of': `${flight} ${kind}` }, `Put ${[kind, ...values].join(' ')} into the form`, el('span', { class: 'vh' }, ` of ${flight}`));
        button.addEventListener('click', () => this.propose(flight, kind, ...values));
        return button;
      }));
  }

  /** Asks for the first free take-offs, one after another, as the day is now. */
  async ask(names) {
    if (this.isAsking) return;
    this.isAsking = true;
    try {
      for (const name of names) {
        const had = this.free.get(name);
        if (!this.isOpen || had && (had.position >= this.day.position || performance.now() - had.at < AGAIN)) continue;
        this.free.set(name, { at: performance.now(), ...await asked(name) });
        turn.take(() => this.draw());
      }
    } finally {
      this.isAsking = false;
    }
  }
}

/** The first free take-off, or why it isn't known. */
export async function asked(name) {
  try {
    return await firstFree(name);
  } catch (problem) {
    if (!(problem instanceof Problem)) throw problem;
    return { row: null, position: -1, detail: problem.message };
  }
}

/** The first free take-off in words. */
export function freeWords(free, date) {
  if (!free) return 'The first free take-off: …';
  if (!free.row) return `The first free take-off isn’t known: ${free.detail}.`;
  if (!free.row.ttot) return `It has no free take-off, even without its CTOT: ${free.row.rule}.`;
  return `The first free take-off is ${hm(free.row.ttot, date)}, with the start-up ${hm(free.row.tsat, date)}: ask the Network Manager for a CTOT of about that time.`;
}
