// NOW, the totals, and how the connection is, in words; light or dark.
import { $, el, say } from './dom.js';
import { clock, needed, objects, Problem } from './net.js';
import { recordText } from './moves.js';
import { dayText, hm, hms } from './times.js';

const NO_CLOCK = 120000;
const PAUSE = 10000;
const THEME = 'cdm-theme';
const SHORT = /(?<=[BO]T )(\d\d)(\d\d)(\d\d)/g; // a time of the program's text: its date, hour and minute
/** What the words mean with which the program tells of a change of day. */
const TOLD = { LEFT: 'it has left its stand, and the next day won’t know it; send AIR as soon as it is airborne', EARLIER: 'this time becomes 00:00',
  REFUSED: 'the next day’s airport file doesn’t take this record', GONE: 'so many flights stay behind', STAY: 'so many flights go on' };
const root = document.documentElement;
/** What the window's name says first: what has just moved. */
export const notice = { text: '' };
const SENT = { taken: 'Accepted', refused: 'Refused', 'not taken': 'Not taken', 'not known': 'It isn’t known whether this was taken', 'not sent': 'Not sent' };

/** What there is of them, in words. */
const meaning = (lines) => Object.keys(TOLD).filter((word) => lines.some((line) => line.startsWith(word))).map((word) => `${word}: ${TOLD[word]}.`).join(' ');

export class Head {
  constructor(day) {
    this.day = day;
    this.clockAt = null; // when the last CLOCK was taken, by the server's clock
    this.isHeard = false; // whether that is known
    this.status = $('#conn [role=status]');
    this.alert = $('#conn [role=alert]');
    this.last = ''; // the last record, in words
    this.position = 0; // of it
    this.own = Infinity; // of a record that was sent from here, until it is said
    this.count = 0; // records since the last warnings
    this.written = -PAUSE;
    this.timer = 0;
    setInterval(() => this.clockText(), 1000);
    $('#date').addEventListener('click', (event) => {
      event.preventDefault();
      this.ahead();
    });
  }

  /** What is to be known before the day changes, and the plan of the day before. */
  async ahead() {
    const box = $('#day');
    const close = el('button', { type: 'button', popovertarget: box.id, popovertargetaction: 'hide', class: 'quiet' }, 'Close');
    box.showPopover();
    try {
      const [{ told, before, next }] = (await objects('/v1/day.json')).list;
      box.replaceChildren(close, el('b', {}, `Before ${dayText(next)}`), el('pre', {}, told.join('\n').replace(SHORT, '$1 $2:$3')), el('p', { class: 'hint' }, meaning(told)), before ? this.past(box, before) : '');
    } catch (problem) {
      if (!(problem instanceof Problem)) throw problem;
      box.replaceChildren(close, `No answer: ${problem.message}.`);
    }
    box.focus();
  }

  /** A link to the plan of the day before, which is shown in the same box. */
  past(box, before) {
    const link = el('a', { href: `/v1/plan?day=${before}` }, `Plan of ${dayText(before)}`);
    link.addEventListener('click', async (event) => {
      if (event.ctrlKey || event.metaKey || event.shiftKey) return;
      event.preventDefault();
      (await needed('past')).showPast(box, before);
    });
    return link;
  }

  now() {
    const { date, now } = this.day;
    say($('#date'), dayText(date));
    say($('.now time'), hm(now, date));
    $('.now time').setAttribute('datetime', now);
    this.title();
    this.clockText();
  }

  /** The window's name, with NOW while something of the day may be seen. */
  title() {
    const isOut = root.classList.contains('is-out');
    if (isOut) $('#day').hidePopover();
    document.title = `${isOut ? '' : notice.text}${this.day.date && !isOut ? `${hm(this.day.now, this.day.date)} ` : ''}Start-up board`;
  }

  /** A CLOCK was taken at this moment of the server's clock; null: none is known, since the page was opened. */
  clockTaken(at) {
    this.isHeard = at !== null;
    this.clockAt = at === null ? clock.now() : Date.parse(at);
    this.clockText();
  }

  /** Where no CLOCK came for two minutes, that is said; the page never counts on by itself. */
  clockText() {
    if (this.clockAt === null) return;
    const isOld = clock.now() - this.clockAt >= NO_CLOCK;
    $('#no-clock').hidden = !isOld;
    say($('#no-clock'), `${this.isHeard ? 'no CLOCK since' : 'no CLOCK seen since'} ${hms(this.clockAt).slice(0, 5)}`);
  }

  totals({ placed, late, blocked, delay, max }) {
    for (const [name, value] of Object.entries({ placed, late, blocked, delay, max })) {
      const node = $(`#n-${name}`);
      say(node, value ?? '–');
      node.parentNode.classList.toggle('some', value > 0);
    }
  }

  /** What is said of the connection: at once, or at most every ten seconds. */
  tell(parts, isUrgent = false) {
    this.parts = parts;
    const pause = this.written + PAUSE - performance.now();
    if (!isUrgent && pause > 0) {
      this.timer ||= setTimeout(() => this.write(), pause);
      return;
    }
    this.write();
  }

  write() {
    clearTimeout(this.timer);
    this.timer = 0;
    this.written = performance.now();
    this.alert.replaceChildren();
    this.status.replaceChildren(...this.parts);
  }

  /** The last one of so many records, and how many start-ups it moved. */
  record({ position, at, desk, line }, moved, count) {
    this.position = position;
    this.count += count;
    this.last = `Record ${position} at ${hms(at)}: ${desk} sent ${recordText(line)}. ${moved === 1 ? '1 start-up' : `${moved} start-ups`} moved.`;
    this.sayLast();
  }

  /** A record that was sent from here is taken: it is said at once, as soon as what it did is known. */
  taken(position) {
    this.own = position;
    if (this.own <= this.position) this.sayLast();
  }

  sayLast() {
    const isOwn = this.own <= this.position;
    if (isOwn) this.own = Infinity;
    this.tell([el('b', {}, 'Connected'), ` ${this.last}`], isOwn);
  }

  /** A lost connection is an alert: a screen reader says it at once, whatever it is saying. */
  lost(since, why) {
    root.classList.add('is-lost');
    clearTimeout(this.timer);
    this.timer = 0;
    this.status.replaceChildren();
    this.alert.replaceChildren(el('b', {}, 'CONNECTION LOST'), ` since ${hms(since)} UTC: ${why}. Shown: record ${this.day.position}. Nothing can be `
      + 'sent; trying again.');
  }

  connected(words = '') {
    root.classList.remove('is-lost');
    this.tell([el('b', {}, 'Connected'), words && ` ${words}`].filter(Boolean), true);
  }

  /** Warnings of a position have come. One that is new is said at once, behind the last record: it came of that, if there was no other. */
  warnings(fresh, position) {
    const word = this.count === 1 && position === this.position ? 'It made a new warning' : 'New warning';
    this.count = 0;
    if (fresh && !root.classList.contains('is-lost')) this.tell([el('b', {}, 'Connected'), ` ${this.last} ${word}: ${recordText(fresh)}.`], true);
  }

  stale(since) {
    $('#stale').hidden = !since;
    $('#stale').replaceChildren(since ? el('span', { role: 'alert' }, `The log isn’t reached since ${hms(since)} UTC: what is shown may be old, and nothing can be sent.`) : '');
  }
}

/** How the page stands to its server, in words: each state of the machine, and what was sent from a form that is gone. */
export class Connection {
  constructor(head) {
    this.head = head;
  }

  /** Another state, and since when what is shown is old. */
  state(order) {
    root.classList.toggle('is-out', order.state === 'out');
    root.classList.toggle('is-lost', order.state === 'lost');
    this.head.title();
    if (order.state === 'lost') this.head.lost(order.since, order.detail);
    else if (order.state === 'out') this.out(order);
    else if (order.state === 'reading') this.reading(order);
    else if (order.state !== 'new') this.live(order);
  }

  /** Nobody is signed in, and what was sent last isn't there any more. */
  out({ was, unsent }) {
    const why = was ? ` ${was.desk}’s sign-in has ended, or its token isn’t taken any more.${unsent ? ` ${SENT[unsent.word]}: ${recordText(unsent.line)}.` : ''}` : '';
    this.tell('Signed out.', `${why} Sign in with a desk and its token.`);
  }

  reading({ since, position }) {
    if (since !== null) this.tell('Reading the day anew:', ` what is shown is of record ${position}, and old since ${hms(since)} UTC.`);
  }

  /** Which record is the last isn't known while the server doesn't reach its log. */
  live({ state, was, lostSince, position, at }) {
    const last = position ? `Record ${position}${at ? ` at ${hms(at)}` : ''} is the last.` : 'There is no record yet.';
    if (was) this.tell('Signed out', ` as ${was.desk}: ${was.detail}. This page reads only.`);
    else this.head.connected(lostSince !== null ? `again at ${hms(clock.now())} UTC, lost since ${hms(lostSince)}.` : state === 'live' ? last : '');
  }

  tell(word, words) {
    this.head.tell([el('b', {}, word), words], true);
  }

  /** A fault of the page itself: what it was to show is asked for again. */
  fault({ part, detail }) {
    this.tell('A fault of this page', ` (${part}: ${detail}). It goes on; if this stays, load the page again.`);
  }

  /** What became of a record whose form isn't there any more. */
  sent({ word, line, reply, detail }) {
    const why = reply ? `, record ${reply.position}` : detail && `: ${detail}`;
    this.tell(`${SENT[word]}:`, ` ${recordText(line)}${why}.`);
  }
}

/** Light or dark: the system's, until somebody darkens the room by hand. */
export function startTheme() {
  try {
    const kept = localStorage.getItem(THEME);
    if (kept === 'light' || kept === 'dark') root.dataset.theme = kept;
  } catch { /* the system's */ }
  const button = $('#b-theme');
  const system = matchMedia('(prefers-color-scheme: dark)');
  const isDark = () => (root.dataset.theme ?? (system.matches ? 'dark' : 'light')) === 'dark';
  const press = () => button.setAttribute('aria-pressed', String(isDark()));
  system.addEventListener('change', press);
  press();
  button.addEventListener('click', () => {
    root.dataset.theme = isDark() ? 'light' : 'dark';
    press();
    try {
      localStorage.setItem(THEME, root.dataset.theme);
    } catch { /* for this page alone */ }
  });
}
