// My flights, of a desk that sends for its own alone: on a phone a card each, with its TOBT to be put on or back; and a notice when a TSAT moves.
import { LETTERS, REASONS, statusWord, takesKind } from './columns.js';
import { isLate } from './day.js';
import { $, el, named, say } from './dom.js';
import { notice } from './head.js';
import { whenFree } from './hold.js';
import { enableIn } from './press.js';
import { Sender } from './sender.js';
import { hm, later, minutesFrom, typed } from './times.js';
import { current } from './warnings.js';

const STEPS = [-5, 5, 10, 15];
const MOST_CARDS = 40;
const NOTICED = 60000; // ms for which the window's name says what moved
const ASKED = 'cdm-notify';
const WHOLE = /^\d{4}-\d\d-\d\dT\d\d:\d\dZ$/;
let count = 0;

/** Whether notices of the system are wished, and allowed. */
function areWished() {
  try {
    return 'Notification' in window && Notification.permission === 'granted' && localStorage.getItem(ASKED) === 'on';
  } catch {
    return false;
  }
}

/** A notice of the system; a press on it opens the flight. */
function tellSystem(text, name) {
  try {
    new Notification(text, { tag: name }).addEventListener('click', () => { location.hash = `#${name}`; });
  } catch { /* some phones have none for a page: the window's name says it */ }
}

/** A flight's card: its TOBT as a form, with its effect before it is sent, and what takes it back. */
class Card extends Sender {
  /** day, onSend, kinds: as of any sender. */
  constructor(name, { day, onSend, kinds }) {
    const id = `m${count += 1}`;
    const field = el('input', { id, name: 'tobt', inputmode: 'numeric', size: 6, maxlength: 8, autocomplete: 'off' });
    const steps = STEPS.map((by) => el('button', { type: 'button', 'aria-label': `TOBT ${by > 0 ? `${by} minutes later` : `${-by} minutes earlier`}` }, by > 0 ? `+${by}` : `−${-by}`));
    super({ day, onSend, word: 'Send TOBT', label: `TOBT of ${name}`, kinds, inputs: [el('label', { for: id }, 'TOBT '), field, ...steps] });
    Object.assign(this, { name, field, link: el('a'), where: el('small'), tsat: el('b', { class: 'tsat' }), ahead: el('span'), why: el('p') });
    this.item = el('li', { 'data-flight': name }, el('h3', {}, this.link, ' ', this.where), el('p', { class: 'start' }, this.tsat, ' ', this.ahead), this.why, this.root);
    named(this.link, name);
    steps.forEach((button, at) => button.addEventListener('click', () => this.step(STEPS[at])));
  }

  get tobt() {
    return typed(this.field.value, this.day.date);
  }

  get isFilled() {
    return WHOLE.test(this.tobt);
  }

  text() {
    return `TOBT,${this.name},${this.tobt}`;
  }

  /** Its TOBT so many minutes later, as a proposal: from what stands in the field, else from NOW. */
  step(by) {
    this.field.value = hm(later(this.isFilled ? this.tobt : this.day.now, by), this.day.date);
    this.isTouched = true;
    this.preview();
  }

  /** Its button is the main one once something is put in. */
  preview() {
    super.preview();
    this.root.classList.toggle('is-touched', this.isTouched);
  }

  changedText(reply) {
    const row = reply.changes?.find((one) => one.flight === this.name) ?? this.day.rows.get(this.name);
    return row?.tsat ? `Start-up ${hm(row.tsat, this.day.date)}.` : row ? `${statusWord(row.status)} ${row.rule ?? ''}.` : '';
  }

  /** What the flight's Row says; what is being put in stays. */
  write(row, { mark, cause, warned, since, takes }) {
    const { date, now } = this.day;
    const minutes = row.tsat ? minutesFrom(now, row.tsat) : null;
    say(this.where, [row.runway ?? 'no runway', row.stand && `stand ${row.stand}`].filter(Boolean).join(', '));
    say(this.tsat, row.tsat ? hm(row.tsat, date) : statusWord(row.status));
    say(this.ahead, mark || (row.status !== 'PLANNED' ? [row.tsat && statusWord(row.status), row.rule].filter(Boolean).join(' ') : minutes > 0 ? `in ${minutes}` : 'now'));
    this.item.classList.toggle('moved', mark !== null);
    const words = [row.delay && !isLate(row) ? `delay ${row.delay}` : '', row.ctot && `CTOT ${hm(row.ctot, date)}`, since].filter(Boolean).join(' · ');
    this.why.replaceChildren(...warned.flatMap((kind) => [el('b', { class: `tag ${kind}` }, kind), ' ']), ...(cause ? [el('b', { class: `cause k${LETTERS[cause] ?? ''}` }, REASONS[cause] ?? cause), ' '] : []),
      ...(isLate(row) ? [el('b', { class: 'late' }, 'late'), ' ', el('b', { class: 'held' }, row.delay), words && ' · '] : []), words);
    this.root.hidden = !takes;
    if (!this.isTouched && document.activeElement !== this.field) this.field.value = row.tobt ? hm(row.tobt, date) : '';
    this.preview();
  }
}

export class Mine {
  /** day, moves, desk; causeOf(name): what the program says it waits for; send(form, line, key); title(): says the window's name anew. */
  constructor({ day, moves, desk, causeOf, send, title }) {
    Object.assign(this, { day, moves, desk, causeOf, send, title, cards: new Map(), order: '', timer: 0 });
    this.list = $('#mine ul');
    this.list.addEventListener('focusout', () => setTimeout(() => this.show()));
    $('#b-notify').addEventListener('click', () => this.wish());
    addEventListener('layout', () => this.show());
    document.addEventListener('visibilitychange', () => { if (!document.hidden) this.clear(); });
    current.addEventListener('told', () => this.show());
    say($('#b-notify'), areWished() ? 'No notices' : 'Notify me');
  }

  /** Whether a flight is this desk's. */
  isMine(name) {
    return (this.desk.who?.flights ?? []).some((one) => name.startsWith(one));
  }

  /** Cards are made only where they are seen. */
  get isOn() {
    return Boolean(this.desk.who?.flights) && document.documentElement.classList.contains('l-hand');
  }

  /** Its flights that haven't taken off, by start-up; those without one behind them, and those that have left their stand last. */
  rows() {
    const key = (row) => `${row.status === 'OFFBLOCK' ? '~~' : row.tsat ?? '~'} ${row.flight}`;
    return [...this.day.rows.values()].filter((row) => this.isMine(row.flight) && !['AIRBORNE', 'CANCELLED'].includes(row.status))
      .sort((one, other) => (key(one) < key(other) ? -1 : 1));
  }

  show() {
    $('#b-notify').hidden = !this.desk.who?.flights;
    $('#mine').hidden = !this.isOn;
    $('#tabs [data-to=h-m]').hidden = !this.isOn;
    if (!this.isOn) return;
    const rows = this.rows();
    const shown = rows.slice(0, MOST_CARDS);
    say($('#h-m b'), rows.length);
    say($('#mine .empty'), rows.length > shown.length ? `${rows.length - shown.length} more are in All flights.` : rows.length ? '' : 'None of its flights is at its stand.');
    for (const row of shown) this.write(row);
    whenFree(() => this.place(shown.map((row) => row.flight)));
  }

  /** Puts the cards in their order, but not while somebody types in one. */
  place(names) {
    const order = names.join();
    if (order === this.order || document.activeElement?.matches('#mine input')) return;
    this.order = order;
    for (const [name, { item }] of this.cards) if (!names.includes(name)) item.remove();
    let before = null;
    for (const name of [...names].reverse()) {
      const { item } = this.cards.get(name);
      const put = this.list.moveBefore && item.isConnected ? 'moveBefore' : 'insertBefore'; // the one keeps the focus
      if (item.nextSibling !== before || !item.isConnected) this.list[put](item, before);
      enableIn(item);
      before = item;
    }
  }

  make(name) {
    const card = new Card(name, { day: this.day, onSend: this.send, kinds: () => this.kindsOf(name) });
    this.cards.set(name, card);
    return card;
  }

  /** The kinds of records that the desk may send of a flight. */
  kindsOf(name) {
    return this.desk.kindsOf(name).map((one) => one.kind);
  }

  write(row) {
    const { flight } = row;
    const card = this.cards.get(flight) ?? this.make(flight);
    card.write(row, { mark: this.moves.mark(flight), cause: this.causeOf(flight), since: this.moves.sinceText(flight),
      warned: current.list.filter((one) => one.flight === flight).map((one) => one.kind), takes: takesKind(row.status, 'TOBT') && this.kindsOf(flight).includes('TOBT') });
  }

  /** What a record changed; its own moves aren't news to a desk. */
  moved(changed, reply = null) {
    if (reply && reply.desk === this.desk.who?.desk) return;
    const list = [...changed].filter(([name, [before, after]]) => this.isMine(name) && before?.status === 'PLANNED' && after?.status === 'PLANNED' && before.tsat !== after.tsat);
    if (!list.length) return;
    const words = list.map(([name, [before, after]]) => `${name} ${hm(after.tsat, this.day.date)}, was ${hm(before.tsat, this.day.date)}`);
    notice.text = `${words[0]}${words.length > 1 ? ` +${words.length - 1}` : ''} · `;
    this.title();
    clearTimeout(this.timer);
    this.timer = setTimeout(() => this.clear(), NOTICED);
    if (areWished()) words.forEach((text, at) => tellSystem(`TSAT ${text}`, list[at][0]));
  }

  clear() {
    notice.text = '';
    this.title();
  }

  /** Notices of the system, asked for by a press, and turned off by another one. */
  async wish() {
    const isOn = areWished();
    try {
      if (!isOn) await Notification.requestPermission();
      localStorage.setItem(ASKED, isOn ? 'off' : 'on');
    } catch { /* the window's name says it */ }
    say($('#b-notify'), areWished() ? 'No notices' : isOn ? 'Notify me' : 'Not allowed by the browser');
  }
}
