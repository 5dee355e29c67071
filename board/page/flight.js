// One flight: what it is, why it waits, what to send, and its records.
import { LETTERS, facts, inWords, statusWord, takesKind, write } from './columns.js';
import { $, $$, el, say } from './dom.js';
import { Problem, needed, objects } from './net.js';
import { showRecords } from './records.js';
import { hm, later, minutesFrom } from './times.js';
import { ACT, current, explained } from './warnings.js';

const LATER = 10;
const DRAWN = 180;
const BEHIND = 30; // minutes that are drawn behind a window that has ended
const LISTED = 12;
/** Whether a flight is planned, and blocked or delayed: then something could help it. */
export const isHelpable = (row) => row?.status === 'BLOCKED' || row?.status === 'PLANNED' && row.delay > 0;

/** Why a flight that isn't planned any more doesn't wait, and what may still be sent of it. */
const ENDED = {
  OFFBLOCK: 'It left its stand, and keeps its times. Of its records AIR alone is still taken.',
  AIRBORNE: 'It is airborne. No record of it is taken any more.',
  CANCELLED: 'It is cancelled. No record of it is taken any more.',
};

export class FlightPanel {
  constructor(day, desk, runways, onSend) {
    Object.assign(this, { day, desk, runways, onSend, name: null, form: null, answered: '' });
    this.root = $('#p-flight');
    this.facts = facts($('.facts', this.root));
    current.addEventListener('told', () => this.warned());
    $('#f-link').addEventListener('click', () => this.copyLink());
  }

  /** Shows a flight, or the same one of another day: then a form that is used stays. */
  open(name) {
    const form = name === this.name && this.form?.isUsed ? this.form : null;
    Object.assign(this, { name, form, answered: '', why: '', isWhole: false });
    say($('h2 span', this.root), name);
    $('.x-close', this.root).setAttribute('aria-label', `Close ${name}`);
    for (const id of ['waits', 'f-later', 'f-records']) $(`#${id}`).replaceChildren();
    if (!form) $('#f-form').replaceChildren();
    say($('#why-note'), '…');
    say($('#f-link'), 'Copy link');
    $('#f-address').hidden = true;
    $('#f-ctot').hidden = true;
    $('#wait').replaceChildren();
    say($('#wait-ends'), '');
    this.changed();
  }

  close() {
    this.name = null;
  }

  /** Its address goes to the clipboard; where the browser has none, it stands there to be taken. */
  async copyLink() {
    const address = `${location.origin}${location.pathname}#${this.name}`;
    const field = $('#f-address');
    try {
      await navigator.clipboard.writeText(address);
      say($('#f-link'), 'Copied');
    } catch {
      field.value = address;
      field.hidden = false;
      field.select();
    }
  }

  get row() {
    return this.day.rows.get(this.name);
  }

  /** What its Row says. */
  changed() {
    const { row } = this;
    const { date } = this.day;
    $('#f-unknown').hidden = Boolean(row) || !this.day.date;
    $('#f-known').hidden = !row;
    $('#f-options').hidden = !isHelpable(row);
    if (!row) {
      say($('h2 small', this.root), '');
      return;
    }
    say($('h2 small', this.root), [statusWord(row.status), row.rule, inWords('runway', row.runway, 'runway'), inWords('stand', row.stand),
      inWords('priority', row.priority), inWords('group', row.group)].filter(Boolean).join(', '));
    write(this.facts, row, date);
    this.warned();
    if (this.answered !== JSON.stringify([row.tobt, row.status])) this.makeForm();
    else if (this.form && this.laterOf !== date) this.askLater();
  }

  /** What its warnings mean, what to do, and a button for each record that answers them and that the desk may send. */
  warned() {
    const { row } = this;
    const of = { date: this.day.date, row, runways: this.runways(), may: (kind) => this.desk.maySend(`${kind},${this.name}`) };
    const list = this.name && row ? explained(current.list.filter((one) => one.flight === this.name), of) : [];
    const text = JSON.stringify([this.name, list, this.kinds().map((kind) => kind.kind)]);
    if (text === this.told) return;
    this.told = text;
    $('#f-warnings').hidden = !list.length;
    $('#f-warnings').replaceChildren(...list.map(({ kind, means, act, answers }) => el('li', {}, el('b', { class: ACT.includes(kind) && 'act' }, kind), ` ${means} ${act} `,
      ...answers.filter((one) => this.kinds().some((other) => other.kind === one.kind)).map(({ kind: record, values }) => {
        const button = el('button', { type: 'button', class: 'quiet' }, `Put ${[record, ...values].join(' ')} into the form`);
        button.addEventListener('click', () => this.form?.propose(record, ...values));
        return button;
      }))));
  }

  /** The kinds of records that are taken of this flight, and that the desk may send. */
  kinds() {
    const { row } = this;
    return row ? this.desk.kindsOf(this.name).filter((kind) => takesKind(row.status, kind.kind)) : [];
  }

  /** The records that the desk may make of this flight, and what comes of being late. */
  makeForm() {
    const { row } = this;
    const kinds = this.kinds();
    this.answered = row && JSON.stringify([row.tobt, row.status]);
    $('#f-send').hidden = !kinds.length;
    this.warned();
    if (!kinds.length) {
      this.form = null;
      $('#f-form').replaceChildren();
      return;
    }
    say($('#f-send small'), `as ${this.desk.words}`);
    if (this.form?.isUsed) {
      this.form.offer(kinds, row);
    } else {
      this.form = new this.desk.Form(kinds, { flight: this.name, row, day: this.day, runways: this.runways, onSend: this.onSend,
        toScenario: this.desk.toScenario, label: `One record for ${this.name}` });
      $('#f-form').replaceChildren(this.form.root);
    }
    this.askLater();
  }

  /** What the plan would be, were it ten minutes later: the program's answer to a what-if. */
  async askLater() {
    const { name, row } = this;
    const root = $('#f-later');
    this.laterOf = this.day.date;
    root.replaceChildren();
    if (!row.tobt || !['PLANNED', 'BLOCKED'].includes(row.status) || !this.kinds().some((kind) => kind.kind === 'TOBT')) return;
    const time = later(row.tobt, LATER);
    try {
      const body = `SCENARIO,LATER\nTOBT,${name},${time}\n`;
      const { list: [{ row: then }] } = await objects(`/v1/why/${name}.json?scenario=LATER`, { method: 'POST', body });
      if (this.name !== name) return;
      const at = hm(time, this.day.date);
      const button = el('button', { type: 'button' }, `Put TOBT ${at} into the form`);
      button.addEventListener('click', () => this.form.propose('TOBT', at));
      root.replaceChildren(`${LATER} minutes late: send TOBT ${at}. It would then `, el('b', {}, then.tsat ? `start up at ${hm(then.tsat, this.day.date)}` : `be blocked by ${then.rule}`),
        then.tsat ? `, delay ${then.delay}. ` : '. ', button);
    } catch (problem) {
      if (!(problem instanceof Problem)) throw problem;
    }
  }

  /** The program's `why`. */
  takeWhy([why]) {
    const told = JSON.stringify([this.day.date, why.row, why.waits, this.isWhole]);
    if (told === this.why) return;
    this.why = told;
    const { row, waits } = why;
    const { date } = this.day;
    const isLast = (wait) => row.status === 'BLOCKED' && wait.reason === 'CTOT' && wait === waits.at(-1); // its window has ended
    const times = (wait) => (isLast(wait) ? `from ${hm(wait.from, date)} on` : wait.from === wait.to ? hm(wait.from, date)
      : `${hm(wait.from, date)}–${hm(wait.to, date)}`).replaceAll(' ', '\u00a0');
    const [first] = waits;
    this.askWindow(row);
    say($('#why-note'), !waits.length ? { PLANNED: 'It doesn’t wait.', BLOCKED: `It is blocked by ${row.rule}: it lacks what that rule asks for.` }[row.status] ?? ENDED[row.status]
      : row.status === 'BLOCKED' ? blockedWords(row, waits, date) : `${row.delay} min, take-off ${hm(first.from, date)} to ${hm(row.ttot, date)}`);
    const listed = this.isWhole ? waits : waits.slice(0, LISTED);
    $('#waits').replaceChildren(...listed.map((wait) => el('li', { tabindex: this.isWhole && -1 }, el('b', { class: `k${LETTERS[wait.reason]}`, 'aria-hidden': 'true' }, LETTERS[wait.reason]),
      el('span', {}, times(wait)), el('span', {}, el('b', {}, wait.reason), wait.cap === null ? '' : ` ${wait.flights.length}/${wait.cap}`,
        wait.reason === 'SPACING' ? ' to' : '', ...wait.flights.flatMap((name) => [' ', el('a', { href: `#${name}` }, name)])),
      el('span', {}, isLast(wait) ? 'to the end' : `${minutesFrom(wait.from, wait.to) + 1} min`))), waits.length > listed.length ? this.rest(why, waits.length - LISTED) : '');
    this.draw(waits, row);
  }

  /** The window of its CTOT, and, of a flight that is blocked at it, when it could take off first. */
  async askWindow(row) {
    const root = $('#f-ctot');
    const { name, why } = this;
    const { date } = this.day;
    if (this.ctotOf !== JSON.stringify([name, date, row.ctot])) root.hidden = true;
    if (!row.ctot || !row.runway || !row.tobt || !['PLANNED', 'BLOCKED'].includes(row.status)) return;
    try {
      const [{ windowOf }, act] = await Promise.all([needed('ctot'), needed('act')]);
      const found = await windowOf(row, date);
      const free = act.isAtCtot({ ...row, kind: row.status }) ? await act.asked(name) : null;
      if (this.name !== name || this.why !== why) return;
      this.ctotOf = JSON.stringify([name, date, row.ctot]);
      say(root, [found && `CTOT ${hm(row.ctot, date)}, window ${hm(found.from, date)} to ${hm(found.to, date)}.`, free && act.freeWords(free, date)].filter(Boolean).join(' '));
      root.hidden = !root.textContent;
    } catch (problem) {
      if (!(problem instanceof Problem)) throw problem;
    }
  }

  /** How many more waits there are, to which time; a press lists them. */
  rest(why, count) {
    const button = el('button', { type: 'button', class: 'quiet' }, `${count} more, to ${hm(why.waits.at(-1).to, this.day.date)}`);
    button.addEventListener('click', () => {
      this.isWhole = true;
      this.takeWhy([why]);
      $(`#waits li:nth-child(${LISTED + 1})`).focus({ preventScroll: true });
    });
    return el('li', { class: 'rest' }, button);
  }

  /** The waiting minutes as a bar: of a blocked flight to half an hour behind its window, of any at most three hours. */
  draw(waits, row) {
    const bar = $('#wait');
    bar.replaceChildren();
    bar.toggleAttribute('hidden', !waits.length);
    say($('#wait-ends'), '');
    if (!waits.length) return;
    const last = waits.at(-1);
    const end = row.status === 'BLOCKED' && last.reason === 'CTOT' && waits.length > 1
      ? minutesFrom(waits[0].from, last.from) + BEHIND : minutesFrom(waits[0].from, last.to) + 1;
    const whole = Math.min(DRAWN, end);
    const shape = (tag, attributes, text = '') => {
      const node = document.createElementNS('http://www.w3.org/2000/svg', tag);
      for (const [name, value] of Object.entries(attributes)) node.setAttribute(name, value);
      node.textContent = text;
      bar.append(node);
    };
    for (const wait of waits) {
      const from = minutesFrom(waits[0].from, wait.from);
      const to = Math.min(whole, minutesFrom(waits[0].from, wait.to) + 1);
      if (from >= whole) break;
      const [x, width] = [from * 400 / whole, (to - from) * 400 / whole];
      shape('rect', { class: `k${LETTERS[wait.reason]}`, x: (x + 0.5).toFixed(1), y: 1, width: Math.max(1, width - 1).toFixed(1), height: 26 });
      if (width > 14) shape('text', { x: (x + width / 2).toFixed(1), y: 19 }, LETTERS[wait.reason]);
    }
    say($('#wait-ends'), `${hm(waits[0].from, this.day.date)} TOBT + EXOT · ${row.ttot ? `${hm(row.ttot, this.day.date)} TTOT` : `${whole} minutes are drawn`}`);
  }

  failed(problem) {
    say($('#why-note'), problem.message);
  }

  takeRecords(list) {
    say($('#f-count'), `${list.length}, newest first`);
    showRecords($('#f-records'), list, this.name);
  }
}

/** Of a blocked flight: up to when no minute is free, which is the end of its CTOT window if it has one. */
function blockedWords(row, waits, date) {
  const [first, last] = [waits[0], waits.at(-1)];
  const from = hm(first.from, date);
  if (last.reason !== 'CTOT') return `Blocked by ${row.rule}: no minute from ${from} to ${hm(last.to, date)} is free.`;
  if (waits.length === 1) return `Blocked by ${row.rule}: it can take off from ${from} on, and then its CTOT window has ended.`;
  return `Blocked by ${row.rule}: no minute from ${from} to ${hm(later(last.from, -1), date)}, the end of its CTOT window, is free.`;
}
