// What could help the flight of the panel: each single record that the program has tried and that helps, as a sentence, with its take-off and what
// it costs the others. It is asked once, as somebody wants it, and fills the desk's form; it sends nothing. It is loaded when it is first asked.
import { $, el, say, styled } from './dom.js';
import { counted, signed } from './effect.js';
import { recordText } from './moves.js';
import { hm } from './times.js';

styled(new URL('act.css', import.meta.url).href);

const WHO = { AO: 'the aircraft operator', GH: 'the ground handler', AP: 'the airport', ATC: 'the tower', NM: 'the Network Manager' };

/** Each kind of record that is tried, as a sentence: of the flight's Row, of what the record says, and of how a time is read. */
const SENTENCES = {
  RWY: (row, [, runway]) => `Runway ${runway}${row?.runway ? ` instead of ${row.runway}` : ''}`,
  PRIO: (row, [, priority]) => `Priority ${priority}${row ? ` instead of ${row.priority}` : ''}`,
  CTOT: (row, [, time], at) => (time === '-' ? 'No CTOT any more' : `CTOT ${at(time)}`),
  OPEN: (row, [runway, from, to], at) => `Open ${runway} from ${at(from)} to ${at(to)}`,
  RATE: (row, [runway, from, to], at) => `One more take-off on ${runway} from ${at(from)} to ${at(to)}`,
};

/** A record without its role. */
const lineOf = ({ record }) => record.slice(record.indexOf(',') + 1);

/** What a record does, as a supervisor says it. */
export function sentenceOf(one, row, date) {
  const [kind, ...values] = lineOf(one).split(',');
  return SENTENCES[kind]?.(row, values, (time) => hm(time, date)) ?? recordText(lineOf(one));
}

/** What the flight has of it. */
export const gainOf = (one, date) => `Take-off ${hm(one.ttot, date)}, ${one.gain === null ? 'no longer blocked' : `${one.gain} min earlier`}.`;

/** What it costs the others: what is counted of all flights, beside what is counted now. */
export function costOf(one, now) {
  const beside = (name) => (one[name] === now[name] ? `${name} as now` : `${name} ${signed(one[name] - now[name])}`);
  return `In all: ${beside('delay')}${one.delay === now.delay ? '' : ' min'}, ${beside('late')}, ${beside('blocked')}; ${counted(one.moved, 'flight')} ${one.moved === 1 ? 'moves' : 'move'}.`;
}

/** How many of the records help. */
export function headOf({ tried, help, refused }) {
  const also = refused ? `, ${refused} of which would be refused` : '';
  return help ? `${help} of ${counted(tried, 'record')} that were tried help${help === 1 ? 's' : ', the best first'}${also}.`
    : `Nothing that was tried helps: ${counted(tried, 'record')} tried${also}.`;
}

export class Options {
  /** fill(line): puts a record into a form; onAsk(flight). */
  constructor({ day, desk, fill, onAsk }) {
    Object.assign(this, { day, desk, fill, onAsk, flight: null, row: null, position: Infinity, from: null, list: [] });
    this.root = $('#f-options');
    [this.button, this.head, this.old, this.records] = ['#b-options', '#o-head', '#o-old', 'ul'].map((place) => $(place, this.root));
    this.old.append(el('span'), ' ', el('button', { type: 'button', class: 'quiet' }, 'Ask again'));
    $('button', this.old).addEventListener('click', () => this.ask(this.flight));
  }

  /** Asks about a flight, once. */
  ask(flight) {
    if (this.isAsked || !flight) return;
    this.clear();
    Object.assign(this, { flight, isAsked: true, from: document.activeElement });
    this.button.setAttribute('aria-disabled', 'true');
    this.tell('Each record that could help is tried …');
    this.onAsk(flight);
  }

  /** Says nothing. */
  clear() {
    Object.assign(this, { flight: null, isAsked: false, position: Infinity, list: [] });
    this.button.removeAttribute('aria-disabled');
    for (const one of [this.head, this.old, this.records]) one.hidden = true;
    this.records.replaceChildren();
  }

  tell(text) {
    say(this.head, text);
    this.head.hidden = false;
  }

  /** The program's answer, of a position. Who hasn't gone on meanwhile is led to it. */
  take([now, ...list], position) {
    if (now.flight !== this.flight) return;
    Object.assign(this, { now, list, position, row: this.day.rows.get(now.flight) });
    this.answered(headOf(now));
    this.draw();
    this.movedOn();
  }

  failed(detail) {
    if (!this.isAsked) return;
    this.answered(`No answer: ${detail.replace(/^cdmseq: /, '').replace(/[.]?$/, '.')}`);
  }

  answered(text) {
    this.isAsked = false;
    this.button.removeAttribute('aria-disabled');
    this.tell(text);
    if ([this.from, document.body].includes(document.activeElement)) this.head.focus();
  }

  draw() {
    const { date } = this.day;
    const focused = this.records.contains(document.activeElement) ? document.activeElement.dataset.of : null;
    this.records.hidden = !this.list.length;
    this.records.replaceChildren(...this.list.map((one, at) => el('li', {}, el('b', {}, sentenceOf(one, this.row, date)),
      el('p', {}, gainOf(one, date)), el('p', {}, costOf(one, this.now)), ...this.offer(one, at))));
    if (focused) $(`[data-of="${focused}"]`, this.records)?.focus({ preventScroll: true });
  }

  /** A button that puts the record into the form; where this desk may not send it, who may. */
  offer(one, at) {
    const why = this.whyNot(one);
    const line = lineOf(one);
    const button = el('button', { type: 'button', class: 'quiet', 'data-of': at, 'aria-disabled': why ? 'true' : null, 'aria-describedby': why ? `o-${at}` : null },
      `Put ${line.split(',', 1)[0]} into the form`);
    button.addEventListener('click', () => {
      if (!this.whyNot(one)) this.fill(line);
    });
    return why ? [button, el('small', { id: `o-${at}` }, why)] : [button];
  }

  /** Why the desk may not send a record, or ''. */
  whyNot(one) {
    if (this.desk.maySend(lineOf(one))) return '';
    return this.desk.who?.role === one.role ? 'this desk may not send this' : `only ${WHO[one.role] ?? one.role} may send this`;
  }

  /** Another desk speaks. */
  changed() {
    if (this.list.length) this.draw();
  }

  /** The day has moved on: what was tried before is old. */
  movedOn() {
    const isOld = this.day.position > this.position;
    this.old.hidden = !isOld;
    if (isOld) say($('span', this.old), `That was of record ${this.position}, and the day has moved on.`);
  }
}
