// A model of what a page talks to: a log, which is a chain of days, two servers of it of which one may be behind, and what they answer.

export const FLIGHTS = ['AB1', 'AB2', 'AB3', 'AB4'];
const KEPT = 12; // records of which a server still has what they changed
const DESKS = ['ATC', 'AO'];
/** What a view has, and whose answer that is. */
const VIEWED = [['totals', '/v1/compare'], ['next', '/v1/next.json'], ['warnings', '/v1/warnings.json'], ['load', '/v1/load.json']];

/** A log of records; what was lost of it is kept for the judge. */
export class Log {
  constructor(id, date) {
    Object.assign(this, { id, eras: [{ from: 0, states: [firstState(date)] }], records: [] });
  }

  /** The records' own days, by position: of each flight the position that changed it last, and of the last CLOCK. */
  get states() {
    return this.eras.at(-1).states;
  }

  add(record) {
    const position = this.records.length + 1;
    const before = this.states.at(-1);
    if (record.isClock) record.line = `CLOCK,${nowOf({ clock: `${this.eras.length}.${position}` })}`;
    if (record.isChange) record.line = `DAY,${nextDay(before.date)}`;
    record.position = position;
    this.records.push(record);
    this.states.push(record.isChange ? nextState(before, record, this.eras.length) : record.isAccepted ? stateOf(before, record, this.eras.length) : before);
    return record;
  }

  /** Loses its last records. */
  lose(count) {
    const length = this.records.length - count;
    this.eras.push({ from: length, states: this.states.slice(0, length + 1) });
    this.records.length = length;
  }
}

const firstState = (date) => ({ stamps: FLIGHTS.map((name, at) => (at < 3 ? '0' : null)), clock: '0', last: 0, stamp: '0', date });

/** The day behind a record. Each has a number of its own, so that two that are equal are one. */
function stateOf(before, record, era) {
  const stamp = `${era}.${record.position}`;
  const stamps = before.stamps.map((old, at) => (record.flights.includes(at) ? stamp : old));
  return { stamps, clock: record.isClock ? stamp : before.clock, last: record.position, stamp, date: before.date };
}

/** The day that a change of day begins: some flights stay behind, and of those that go on a few are another Row. */
function nextState(before, record, era) {
  const stamp = `${era}.${record.position}`;
  const stamps = before.stamps.map((old, at) => (old === null || record.gone.includes(at) ? null : record.flights.includes(at) ? stamp : old));
  return { stamps, clock: before.clock, last: record.position, stamp, date: nextDay(before.date) };
}

/** The date behind another one; each is reckoned once. */
const nextDays = new Map();
const nextDay = (date) => nextDays.get(date) ?? nextDays.set(date, new Date(Date.parse(date) + 86400000).toISOString().slice(0, 10)).get(date);

// All texts are made as such: nothing in them needs an escape, and so many are made that `JSON.stringify` would take a tenth of the time.

const rowText = (log, name, stamp) => `{"flight":"${name}","status":"PLANNED","tsat":"${log}/${stamp}","delay":0,"rule":null}`;

/** The Rows of a day, as a plan has them. */
const rowsText = (log, { stamps }) => {
  let text = '';
  for (const [at, stamp] of stamps.entries()) if (stamp !== null) text += `${text && ','}${rowText(log, FLIGHTS[at], stamp)}`;
  return `[${text}]`;
};

/** The delay of the totals of a day says which one it is. */
export const delayOf = (log, { stamp }) => `${log}/${stamp}`;

const totalsText = (log, state) => `"placed":${state.last},"late":0,"blocked":0,"delay":"${delayOf(log, state)}","max":0}`;

/** A moment of a clock as a word, the later one behind the earlier one. */
export const wordOf = (at) => String(Math.floor(at));

export const nowOf = (state) => `2025-03-10T${state.clock}`;

/** One server: it has handed on some of the log's records, and may not reach the log. */
export class Server {
  constructor(log) {
    Object.assign(this, { log, has: log.records.length, era: log.eras.length, records: [...log.records], isUp: true, staleSince: null, doubtful: -1, starts: 0, lag: 0 });
    this.states = [...log.states];
    this.first = this.firstBefore = this.has; // behind which it has what records changed, of its day and of the one before
    this.turning = null; // while a change of day takes its time
  }

  /** The next record of the log, if it reaches it. */
  get next() {
    return this.staleSince === null ? this.log.records[this.has] : undefined;
  }

  /** Takes over the next record of the log. Where that is a change of day, all that it had of what records changed is of the day before. */
  advance() {
    const record = this.log.records[this.has];
    this.records.push(record);
    this.states.push(this.log.states[this.has + 1]);
    this.has += 1;
    if (!record.isChange) return;
    Object.assign(this, { firstBefore: this.first, first: this.has });
    this.starts += 1;
  }

  /** Begins anew with what the log has: another past, or another log. */
  restart(log = this.log) {
    this.doubtful = log === this.log ? Math.max(this.doubtful, this.has) : -1;
    Object.assign(this, { log, has: log.records.length, records: [...log.records], states: [...log.states], era: log.eras.length, turning: null });
    this.first = this.firstBefore = this.has;
    this.starts += 1;
  }

  get state() {
    return this.states[this.has];
  }

  /** Whether it has what a record changed. */
  isKept({ position, isChange }) {
    return !isChange && this.has - position < KEPT && position > (position < this.first ? this.firstBefore : this.first);
  }

  /** The reply to a record; what it changed, if that is kept. */
  reply(record, isWhole) {
    const { position, desk, line, at } = record;
    const begin = `{"position":${position},"desk":"${desk}","role":"${desk}","line":"${line}","at":"${at}",`;
    if (!record.isAccepted) return `${begin}"reply":"REFUSED","word":"RANGE"}`;
    const { stamps } = this.states[position];
    const changes = isWhole ? `[${record.flights.map((flight) => rowText(this.log.id, FLIGHTS[flight], stamps[flight])).join()}]` : 'null';
    return `${begin}"reply":"ACCEPTED","accepted":${position},"changes":${changes}}`;
  }

  /** The text of a reply; it is made once, with what the record changed and without. */
  replyText(record, isWhole = this.isKept(record)) {
    return record.texts[Number(isWhole)] ??= this.reply(record, isWhole);
  }

  event(position, name, data) {
    return `id: ${this.log.id}-${position}\nevent: ${name}\ndata: ${data}\n\n`;
  }

  /** When the record at a position was taken. */
  lastAt(position) {
    return position > 0 ? this.records[position - 1].at : '';
  }

  momentEvent(name, position) {
    return this.event(position, name, `{"position":${position},"at":"${this.lastAt(position)}"}`);
  }

  /** The events behind a position, as a desk gets them. */
  events(since, desk, isFirst = false) {
    if (since < 0 || since > this.has || this.has - since > KEPT || since < this.first) return this.momentEvent('reset', this.has);
    let text = isFirst ? this.momentEvent('from', since) : `:\nid: ${this.log.id}-${since}\n\n`;
    for (let at = since; at < this.has; at += 1) {
      const record = this.records[at];
      if (record.isBig) text += this.momentEvent('reset', record.position);
      else if (record.isAccepted) text += this.event(record.position, 'reply', this.replyText(record, true));
      else if (record.desk === desk) text += this.event(record.position, 'refused', this.replyText(record));
    }
    return text;
  }

  /** The events with which a stream begins that says where it was. */
  begin(since, desk) {
    const found = /^(.+)-(\d+)$/.exec(since);
    const isKnown = found && found[1] === this.log.id && Number(found[2]) > this.doubtful;
    return this.events(isKnown ? Number(found[2]) : since ? -1 : this.has, desk, true);
  }

  view(without) {
    const members = VIEWED.filter(([name]) => name !== without).map(([name, path]) => `,"${name}":${name === 'totals' ? this.text(path) : `[${this.text(path)}]`}`);
    return `event: view\ndata: {"position":${this.has}${members.join('')}}\n\n`;
  }

  /** Each day's answer is made once. */
  text(path) {
    const { state } = this;
    state.texts ??= new Map();
    const text = state.texts.get(path) ?? this.answer(path);
    state.texts.set(path, text);
    return text;
  }

  /** The text of records behind a position, all of one day; null where that isn't of the log. */
  found(since, date, most) {
    const { records, states } = this;
    const first = date === undefined ? since : states.findIndex((state) => state.date === date) - 1;
    if (first < -1) return null;
    const list = records.slice(Math.max(first, since), Math.max(first, since) + most);
    const end = list.findIndex((record, at) => at > 0 && record.isChange);
    const found = date !== undefined ? list.filter((record) => states[record.position].date === date) : end < 0 ? list : list.slice(0, end);
    return found.map((record) => `${this.replyText(record).slice(0, -1)},"date":"${states[record.position].date}"}`).join('\n');
  }

  /** What it answers to a question about the day; null where the log has no such day. */
  answer(path) {
    const { log: { id } } = this;
    if (path === '/v1/plan.json') return `{"day":"${this.state.date}","now":"${nowOf(this.state)}","flights":${rowsText(id, this.state)},${totalsText(id, this.state)}`;
    if (path === '/v1/compare') return `{"scenario":null,${totalsText(id, this.state)}`;
    const [, date] = path.split('&day=');
    const state = date === undefined ? this.state : this.states.findLast((one) => one.date === date);
    const [, flight] = /^\/v1\/options\/(\w+)/.exec(path) ?? [];
    return state ? `{"of":"${id}/${state.stamp}","date":"${state.date}"${flight ? `,"flight":"${flight}"` : ''}}` : null;
  }
}

/** What any record has. */
const NEW = { position: 0, desk: '', line: '', key: null, at: '', isAccepted: false, isClock: false, isBig: false, isChange: false, isSure: true, log: null, gone: null, flights: null, texts: null };

/** A change of day, drawn: which flights stay behind, and which others are another Row. */
export function changeOf(chance, at) {
  const [gone, flights] = [0.4, 0.1].map((share) => FLIGHTS.map((name, flight) => flight).filter(() => chance.is(share)));
  return { ...NEW, texts: [null, null], desk: 'day-at', at: wordOf(at), isAccepted: true, isChange: true, gone, flights };
}

/** A record of somebody, drawn. */
export function recordOf(chance, number, at, desk = chance.of(DESKS)) {
  const kind = chance.draw();
  const isClock = kind < 0.2;
  const isBig = kind > 0.1 && kind < 0.3;
  const flights = isBig ? FLIGHTS.map((name, flight) => flight) : isClock || kind < 0.5 ? [chance.below(FLIGHTS.length)] : [];
  if (kind >= 0.5 && kind < 0.9) flights.push(chance.below(FLIGHTS.length));
  const isAccepted = kind < 0.9;
  return { ...NEW, texts: [null, null], desk, line: `${isClock ? 'CLOCK' : 'TOBT'},${number}`, at: wordOf(at), isAccepted, isClock: isClock && isAccepted, isBig: isBig && isAccepted, flights };
}
