// The program's warnings, in its order: red ones are to be acted on now, the others to be looked at.
import { $, el } from './dom.js';
import { turn, whenFree } from './hold.js';
import { clock } from './net.js';
import { hm, isTime } from './times.js';

const MOST = 8;
const FEW = 3; // so many are said one by one
const NEW = 60000;
const LABEL = /\b([A-Z]{4}) (?=\d)/g; // it stays with its time
const AGING = NEW / 4; // how often it is looked which are still new
/** Red, to be acted on now: flights that are at their stand, and have no minute though somebody expects one of them. */
export const ACT = ['BLOCKED'];

/** Of flights that have left their stand. */
const LEFT = ['OVERDUE', 'MISSED', 'SHUT'];

/** The order of what there is to do: what is to be acted on now, then flights that have left their stand, then the rest. */
export const urgency = (kind) => (ACT.includes(kind) ? 0 : LEFT.includes(kind) ? 1 : 2);

/** Kinds of records as words: `TAXI, RWY or STAND`. */
const anyOf = (kinds) => kinds.join(', ').replace(/, (?=[^,]*$)/, ' or ');

/** What a blocked flight lacks, by its rule: for who may send it, and for who has to ask. */
const LACKS = {
  TOBT: (may) => (may('TOBT') ? 'Send its TOBT.' : 'Ask its operator for its TOBT.'),
  RUNWAY: (may) => (may('RWY') ? 'Send its runway (RWY).' : 'Ask the tower for its runway.'),
  EXOT: (may) => {
    const kinds = ['TAXI', 'RWY', 'STAND'].filter(may);
    return kinds.length ? `Send ${anyOf(kinds)}.` : 'Ask the tower for the taxi time (TAXI) or another runway, or the airport for another stand.';
  },
};

/** What a blocking rule means: what the flight lacks, or why each minute is none for it. */
const MEANS = { TOBT: 'it has no TOBT', RUNWAY: 'it has no runway', EXOT: 'its stand has no taxi time to its runway',
  HORIZON: 'it would take off after the end of the next day', CTOT: 'its CTOT window ends before it can take off',
  CLOSURE: 'its runway is closed in every minute that it could take', SPACING: 'every minute that it could take is too near to another take-off',
  RATE: 'every minute that it could take is in a full cell' };

/** What frees a flight that has no minute in its CTOT window. */
const FREES = {
  CTOT: (may) => (may('TOBT') ? 'Send an earlier TOBT.' : 'Ask its operator for an earlier TOBT.'),
  CLOSURE: (may) => (may('OPEN') ? 'Open the runway (OPEN), or send another one (RWY).' : 'Ask the tower to open the runway, or for another one.'),
  RATE: (may) => `${may('PRIO') ? 'PRIO puts it' : 'Ask the tower to put it (PRIO)'} ahead of those that have its minutes.`,
};

/** The kinds of records that can free a blocked flight, by its rule. Of one whose CTOT window ends before it is ready no priority does, and no runway by itself. */
const CAN_FREE = { TOBT: ['TOBT'], RUNWAY: ['RWY'], EXOT: ['RWY', 'STAND'], HORIZON: ['TOBT'], CTOT: ['TOBT', 'CTOT'], CLOSURE: ['TOBT', 'RWY', 'CTOT'] };
const ALL_THAT_FREE = ['TOBT', 'RWY', 'CTOT', 'PRIO'];

/** What to do about a blocked flight. */
function freeing(one, at, may) {
  if (LACKS[one.rule]) return LACKS[one.rule](may);
  if (!one.ctot) return `${FREES.CTOT(may).replace(/[.]$/, '')}, or ${may('OPEN') ? 'open the runway (OPEN)' : 'the tower to open the runway'}.`;
  return `${(FREES[one.rule] ?? FREES.RATE)(may)} Or ${may('CTOT') ? 'send' : 'ask the Network Manager for'} a later CTOT than ${at(one.ctot)}.`;
}

/**
 * Each kind: its facts in the strip, and for the flight's panel what it means, what to do, the kinds of records that answer it, and the time
 * that one of them begins with.
 */
const KINDS = {
  BLOCKED: { facts: (one) => one.rule ?? '', answers: (one) => CAN_FREE[one.rule] ?? ALL_THAT_FREE,
    means: ({ rule }) => `It has no start-up time, by ${rule}${MEANS[rule] ? `: ${MEANS[rule]}` : ''}.`,
    act: freeing },
  OVERDUE: { facts: (one, at) => `TTOT ${at(one.ttot)}`, answers: ['AIR'], time: (one) => one.ttot,
    means: (one, at) => `It left its stand, its TTOT ${at(one.ttot)} is more than 5 minutes ago, and no AIR has come.`,
    act: (one, at, may) => (may('AIR') ? 'If it has taken off, send AIR with its take-off time; if it hasn’t, ask where it is.' : 'Ask the tower where it is. Once it has taken off, the tower sends AIR.') },
  MISSED: { facts: (one, at) => `CTOT ${at(one.ctot)}`, answers: ['AIR'],
    means: (one, at) => `It left its stand, and takes off after the window of its CTOT ${at(one.ctot)}.`,
    act: (one, at, may) => `Tell the Network Manager. If it took off within its window, ${may('AIR') ? 'send' : 'the tower sends'} AIR with that time; no CTOT is taken any more.` },
  EDGE: { facts: (one, at) => `CTOT ${at(one.ctot)} TTOT ${at(one.ttot)}`, answers: ['PRIO', 'CTOT'],
    means: (one, at) => `Its TTOT ${at(one.ttot)} is among the last 3 minutes of the window of its CTOT ${at(one.ctot)}.`,
    act: (one, at, may) => `See that it isn’t late. ${may('PRIO') ? 'PRIO puts' : 'The tower can put'} it further ahead${may('PRIO') ? '' : ' (PRIO)'}; a later CTOT${may('CTOT') ? '' : ' from the Network Manager'} gives it room.` },
  PAST: { facts: (one, at) => `TSAT ${at(one.time)}`, answers: ['OFF', 'TOBT'],
    means: () => 'It could have started up before now, and hasn’t left its stand: its TSAT is moved on with each CLOCK.',
    act: (one, at, may) => `${may('OFF') ? 'If it has left, send OFF with its off-block time' : 'Ask whether it has left'}; if it isn’t ready, ${may('TOBT') ? 'send' : 'ask its operator for'} the TOBT at which it will be.` },
  AHEAD: { facts: (one, at) => at(one.time), answers: ['AIR'],
    means: (one, at) => `It is said to have left at ${at(one.time)}, more than 2 minutes after NOW.`,
    act: 'See whether CLOCK has stopped. A wrong OFF or AIR can’t be taken back.' },
  FULL: { facts: (one, at) => `${one.runway} ${at(one.time)} ${one.placed}/${one.cap}`, answers: [],
    means: (one, at) => `In the cell of runway ${one.runway} from ${at(one.time)} on ${one.placed} take off, and its capacity is ${one.cap}.`,
    act: (one, at, may) => `Those have left already, or the capacity was lowered behind them. Nothing is to be done, or ${may('RATE') ? 'send' : 'the tower sends'} RATE with the capacity that holds.` },
  SHUT: { facts: (one, at) => `${one.runway} TTOT ${at(one.ttot)}`, answers: ['AIR'],
    means: (one, at) => `It left its stand, and runway ${one.runway} is closed at its TTOT ${at(one.ttot)}, or now if that is past.`,
    act: (one, at, may) => (may('OPEN') ? 'Hold it, or open the runway (OPEN). If it has taken off, send AIR with its take-off time.' : 'Ask the tower to hold it, or to open the runway (OPEN).') },
};
/** A kind that this page doesn't know is drawn with what it says of itself. */
const OTHER = { facts: ({ kind, flight, ...more }, at) => Object.values(more).filter((value) => value != null).map((value) => (isTime(value) ? at(value) : value)).join(' '),
  answers: [],
  means: (one) => `The program warns of ${one.kind}.`, act: 'The program’s manual says what it means.' };

const kindOf = (kind) => (Object.hasOwn(KINDS, kind) ? KINDS[kind] : OTHER);
const keyOf = (one) => `${one.kind} ${one.flight ?? `${one.runway} ${one.time}`}`;

/** The warnings that are shown, for the flight's panel; `told` says when they are others. */
export const current = Object.assign(new EventTarget(), { list: [] });

/** What a record that answers a warning begins with, as one types it: a time that is known, another runway, a smaller priority number; null: it can't help. */
function begun(kind, time, { date, row, runways }) {
  if (kind === 'RWY') {
    const other = runways.find((name) => name !== row?.runway);
    return other ? [other] : null;
  }
  if (kind === 'PRIO') return row?.priority > 0 ? [String(row.priority - 1)] : null;
  return time ? [hm(time, date)] : [];
}

/**
 * What warnings of a flight mean, what to do, and which records answer them, with the values that are known. of: the date, the flight's row, the
 * airport's runways, and may(kind): whether the desk may send such a record of it.
 */
export function explained(list, of) {
  const at = (time) => hm(time, of.date);
  return list.map((one) => {
    const { means, act, answers, time = () => null } = kindOf(one.kind);
    const kinds = (typeof answers === 'function' ? answers(one) : answers).filter(of.may);
    return { kind: one.kind, means: means(one, at), act: typeof act === 'string' ? act : act(one, at, of.may),
      answers: kinds.map((kind) => ({ kind, values: begun(kind, time(one), of) })).filter(({ values }) => values) };
  });
}

export class Warnings {
  constructor(day, filter) {
    Object.assign(this, { day, filter, first: null, list: [], aging: 0, tags: new Map(), whole: new Set() });
    this.draw = () => this.write();
  }

  /** The program's answer. It is drawn at once, as the rest of the page is, but not under a finger. Answers which are new, in words, or ''. */
  take(list) {
    const now = performance.now();
    const isFirst = this.first === null;
    const before = this.first ?? new Map();
    const keys = list.map(keyOf);
    this.first = new Map(keys.map((key) => [key, before.get(key) ?? (isFirst ? -NEW : now)]));
    const fresh = isFirst ? [] : keys.filter((key) => !before.has(key));
    this.list = list;
    this.tags = new Map();
    for (const one of list) {
      if (one.kind === 'EDGE' || one.kind === 'PAST') this.tags.set(one.flight, [...(this.tags.get(one.flight) ?? []), one.kind]);
    }
    whenFree(this.draw);
    current.list = list;
    current.dispatchEvent(new Event('told'));
    return fresh.length < 2 ? fresh.join('') : `${fresh[0]} and ${fresh.length - 1} more`;
  }

  /** Each flight's warnings together, the most urgent one first; one of a runway's cell stands by itself. */
  get gathered() {
    const groups = new Map();
    for (const one of this.list) {
      const key = one.flight ?? keyOf(one);
      groups.set(key, [...(groups.get(key) ?? []), one]);
    }
    return [...groups.values()].map((all) => all.toSorted((one, other) => urgency(one.kind) - urgency(other.kind)));
  }

  write() {
    clearTimeout(this.aging);
    const kinds = [...new Set([...Object.keys(KINDS), ...this.list.map((one) => one.kind)])];
    const groups = this.gathered;
    const items = kinds.flatMap((kind) => this.itemsOf(kind, groups.filter(([one]) => one.kind === kind)));
    const none = kinds.filter((kind) => !this.list.some((one) => one.kind === kind));
    if (none.length) items.push(el('li', { class: 'w none' }, `${none.join(', ')}: none`));
    // What has the focus keeps it, by its flight.
    const focused = document.activeElement?.closest?.('#warnings li');
    const href = document.activeElement?.getAttribute?.('href');
    $('#warnings ul').replaceChildren(...items);
    if (focused) $(`#warnings ul a[href="${CSS.escape(href ?? '')}"]`)?.focus({ preventScroll: true });
    $('#warnings h2 b').textContent = String(this.list.length);
    // A flight may have several.
    const named = this.list.map((one) => one.flight).filter(Boolean);
    const { size } = new Set(named);
    $('#warnings h2 small').textContent = size < named.length ? `${size} flight${size > 1 ? 's' : ''}` : '';
    if (this.list.some((one) => this.isNew(one))) this.aging = setTimeout(() => turn.take(() => whenFree(this.draw)), AGING);
  }

  /** Since when this page has a warning, by the server's clock; null: since before it was opened. */
  since(one) {
    const at = this.first.get(keyOf(one));
    return at === -NEW ? null : clock.now() - (performance.now() - at);
  }

  isNew(one) {
    return performance.now() - this.first.get(keyOf(one)) < NEW;
  }

  /** The strip's items of the flights whose first warning is of a kind: one each, or one for all. A flight is in one item alone. */
  itemsOf(kind, mine) {
    if (!mine.length) return [];
    const at = (time) => hm(time, this.day.date);
    const said = (one) => (one.kind === 'BLOCKED' ? '' : ` ${kindOf(one.kind).facts(one, at).replaceAll(LABEL, '$1\u00a0')}`);
    const fresh = (ones) => (ones.some((one) => this.isNew(one)) ? el('em', {}, 'new') : null);
    const name = `w ${Object.hasOwn(KINDS, kind) ? kind : 'other'}`;
    const all = kind === 'BLOCKED' ? this.blocked() : 0;
    if (all <= mine.length && (mine.length === 1 || kind !== 'BLOCKED' && mine.length <= FEW)) {
      return mine.map(([one, ...more]) => el('li', { class: name }, el('b', {}, kind), ' ', fresh([one, ...more]), ' ', link(one), said(one),
        ...more.flatMap((other) => ['; ', el('b', {}, other.kind), said(other)])));
    }
    const rest = this.whole.has(kind) ? 0 : mine.length - MOST;
    const shown = rest > 0 ? mine.slice(0, MOST) : mine;
    const isMixed = shown.some((group) => group.length > 1);
    const named = ([one, ...more], at) => (one.flight ? [el('span', {}, link(one), more.length > 0 && el('small', {}, ` ${more.map((other) => other.kind).join(', ')}`)), isMixed && at < shown.length - 1 ? '; ' : ' '] : [`${said(one).trim()}, `]);
    return [el('li', { class: name }, el('b', {}, kind), ' ', el('b', { class: 'n' }, all > mine.length ? `${mine.length} of ${all}` : String(mine.length)),
      ' ', fresh(mine.flat()), ' ', ...shown.flatMap(named),
      rest > 0 && this.more(kind, rest), all > mine.length && el('small', {}, 'with a TOBT or CTOT'))];
  }

  /** How many are blocked in all: the program warns of those alone that have a TOBT or a CTOT. */
  blocked() {
    return [...this.day.rows.values()].filter((row) => row.status === 'BLOCKED').length;
  }

  /** The others: of those that are blocked the tables show all, of another kind its warning names all. */
  more(kind, rest) {
    const button = el('button', { type: 'button' }, `+${rest}`, el('span', { class: 'vh' }, ` more ${kind}`));
    button.addEventListener('click', () => {
      if (kind === 'BLOCKED') {
        this.filter.set({ status: 'blocked' });
        return;
      }
      this.whole.add(kind);
      this.write();
      $(`#warnings .${CSS.escape(Object.hasOwn(KINDS, kind) ? kind : 'other')} a`)?.focus({ preventScroll: true });
    });
    return button;
  }
}

const link = (one) => (one.flight ? el('a', { href: `#${one.flight}` }, one.flight) : null);
