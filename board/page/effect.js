// What records would do, by the program's own what-if of them, in words; and what of them would be refused. It is loaded with the first form.
import { statusWord } from './columns.js';
import { el } from './dom.js';
import { Problem, objects } from './net.js';
import { hm } from './times.js';

const NAME = 'THIS';
const NAMED = 3; // flights that move, by name
const PAUSE = 400; // ms after the last key
const AGAIN = 3000; // ms between two questions while the day moves on
const shown = new Set();

/** The day has moved on: what is told of an earlier record is old. */
export function movedOn() {
  for (const effect of [...shown]) {
    if (effect.root.isConnected) effect.movedOn();
    else shown.delete(effect);
  }
}

/** A difference, with its sign. */
export const signed = (value) => (value > 0 ? `+${value}` : value < 0 ? `−${-value}` : '0');

/** So many of a word. */
export const counted = (count, word) => `${count} ${word}${count === 1 ? '' : 's'}`;

/**
 * What of a scenario file is refused, by its line, in the program's words, and whether the day refuses it; and of which record the day was.
 * @param {string} body
 * @returns {Promise<{found: {line: number, sentence: string, isOfDay: boolean}[], position: number}>} raises Problem
 */
async function checked(body) {
  const { list, position } = await objects('/v1/check', { method: 'POST', body: body.replace(/\n?$/, '\n'), accept: 'application/json' });
  const hint = /^line (\d+): update \d+ of \S+ is refused: [A-Z]+: (.*)$/;
  const found = list.filter((one) => one.path === 'scenarios.csv').map(({ line, sentence, hint: said = '' }) => {
    const [, at, words] = hint.exec(said) ?? [];
    return line ? { line, sentence, isOfDay: false } : { line: Number(at ?? 0), sentence: words ?? said, isOfDay: at !== undefined };
  });
  return { found, position };
}

/**
 * What of a scenario file is refused, by its line, in the program's words.
 * @param {string} body
 * @returns {Promise<{line: number, sentence: string}[]>} raises Problem
 */
export const findings = async (body) => (await checked(body)).found;

/** What moves, in words; of a flight that the records are of, what becomes of it first. */
function words({ list, flight, row, date }) {
  const moved = list.filter((one) => 'flight' in one);
  const mine = moved.find((one) => one.flight === flight);
  const others = moved.filter((one) => one !== mine);
  const out = others.filter(({ before, after }) => before?.tsat && after.status === 'BLOCKED');
  const [lost, shut] = [out.filter(({ after }) => after.ctot), out.filter(({ after }) => !after.ctot)];
  const freed = others.filter(({ before, after }) => before && !before.tsat && after.tsat);
  const rest = others.filter((one) => !out.includes(one) && !freed.includes(one));
  const first = [flight && own(mine, row, date), (rest.length > 0 || !out.length && !freed.length) && moves(rest, flight)];
  const [base, then] = [list.find((one) => one.scenario === null), list.find((one) => one.scenario === NAME)];
  return [first.filter(Boolean).join(', '), lost.length && `${counted(lost.length, 'flight')} ${lost.length === 1 ? 'loses its' : 'lose their'} CTOT: ${names(lost)}`,
    shut.length && `${counted(shut.length, 'flight')} ${shut.length === 1 ? 'is' : 'are'} blocked: ${names(shut)}`,
    freed.length && `${counted(freed.length, 'flight')} no longer blocked: ${names(freed)}`, ...inAll(base, then)].filter(Boolean).join('; ');
}

/** Some of them by name. */
const names = (list) => `${list.slice(0, NAMED).map((one) => one.flight).join(', ')}${list.length > NAMED ? ' …' : ''}`;

/** Which flights move, beside the one that the records are of. */
function moves(list, flight) {
  if (list.length < 2) return list.length ? `moves ${names(list)}` : `moves no ${flight ? 'other ' : ''}flight`;
  return `moves ${list.length} ${flight ? 'others' : 'flights'}: ${names(list)}`;
}

/** What becomes of the totals, where they change. */
function inAll(base, then) {
  const late = then.late - base.late;
  return [then.delay !== base.delay && `${signed(then.delay - base.delay)} min of delay in all`, late !== 0 && `${Math.abs(late)} ${late > 0 ? 'more' : 'fewer'} late`,
    then.max !== base.max && `max delay ${then.max} min (was ${base.max})`];
}

/** What becomes of the flight itself. */
function own(mine, row, date) {
  const after = mine?.after ?? row;
  const said = (one) => (one.status === 'PLANNED' ? hm(one.tsat, date) : one.status === 'BLOCKED' ? `blocked by ${one.rule}` : statusWord(one.status));
  if (!after) return '';
  const is = `${after.status === 'PLANNED' ? 'start-up ' : ''}${said(after)}`;
  if (!mine) return `${is} as now`;
  return mine.before && said(mine.before) !== said(after) ? `${is} (was ${said(mine.before)})` : is;
}

/** A line that says what records would do, as long as they are the ones that would be sent. */
export class Effect {
  /** @param {object} day @param {string} [id] of the line, for what it describes */
  constructor(day, id = null) {
    Object.assign(this, { day, lines: null, position: Infinity, timer: 0, number: 0, asked: -AGAIN, isKnown: false });
    this.said = el('span');
    this.old = el('small', { hidden: true });
    this.root = el('p', { class: 'effect', id, hidden: true }, this.said, ' ', this.old);
  }

  /** Says nothing. */
  clear() {
    this.lines = null;
    this.root.hidden = true;
    clearTimeout(this.timer);
    this.number += 1;
  }

  /** These lines are what would be sent, each of a flight or of none. */
  of(lines, flight = null, pause = PAUSE) {
    if (this.lines && this.lines.join('\n') === lines.join('\n')) return;
    this.clear();
    Object.assign(this, { lines, flight, isKnown: false });
    this.say('Its effect: …');
    this.timer = setTimeout(() => this.ask(), pause);
  }

  say(text) {
    shown.add(this);
    this.root.hidden = false;
    this.said.textContent = text;
    this.old.hidden = true;
  }

  movedOn() {
    if (!this.lines || !(this.day.position > this.position)) return;
    this.old.hidden = false;
    this.old.textContent = `That was of record ${this.position}, and the day has moved on: it is asked again.`;
    clearTimeout(this.timer);
    this.timer = setTimeout(() => this.ask(), Math.max(0, this.asked + AGAIN - performance.now()));
  }

  async ask() {
    const number = this.number += 1;
    const { lines, flight, day } = this;
    const body = `SCENARIO,${NAME}\n${lines.join('\n')}\n`;
    this.asked = performance.now();
    try {
      const { text, position } = await told(body, (list) => words({ list, flight, row: day.rows.get(flight), date: day.date }));
      if (number !== this.number) return;
      this.position = position;
      this.isKnown = true;
      this.say(text);
      this.movedOn();
    } catch (problem) {
      if (!(problem instanceof Problem)) throw problem;
      if (number === this.number) this.say(`Its effect isn’t known: ${problem.message}.`);
    }
  }
}

/** What a body would do, in words, or why it would be refused; and of which record the day was, if it is the day that says so. Raises Problem. */
async function told(body, inWords) {
  const { found: [first], position: of } = await checked(body);
  if (first) return { text: `It would be refused: ${first.sentence}.`, position: first.isOfDay ? of : Infinity };
  const { list, position } = await objects(`/v1/compare/${NAME}`, { method: 'POST', body, accept: 'application/json' });
  return { text: `Its effect: ${inWords(list)}.`, position };
}
