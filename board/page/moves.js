// Which flights moved: for ten seconds what they were just before, and until `Seen` what they were when last looked at.
import { MARKED, statusWord } from './columns.js';
import { hm, hms } from './times.js';

const SHOWN = 10000;
const KEPT = 'cdm-seen';

/** What a flight's Row says of its start-up: its TSAT, or why it has none. */
export const startUp = (row, date) => (!row ? 'unknown' : row.tsat ? hm(row.tsat, date)
  : row.status === 'BLOCKED' ? row.rule : statusWord(row.status));

/** The same to keep: a TSAT of a planned flight with its day, else the words. */
const kept = (row, date) => (row.status === 'PLANNED' ? row.tsat : startUp(row, date));
const isTime = (text) => /^\d{4}-/.test(text);

/** Whether a flight's start-up is another one. */
const isMoved = (before, after) => before.tsat !== after.tsat || before.status !== after.status || before.rule !== after.rule;

/** Earlier, later, or another kind of entry. */
const arrow = (before, after) => (!before?.tsat || !after.tsat ? '◆' : after.tsat < before.tsat ? '▲' : after.tsat > before.tsat ? '▼' : '◆');

export class Moves {
  constructor(day, onExpired) {
    this.day = day;
    this.onExpired = onExpired;
    this.recent = new Map(); // name: {before, until}
    this.causes = new Map(); // name: [position, in words] of the last record that changed its start-up
    this.told = new Map(); // name: its start-up by the last record that came before the page was opened
    this.seen = null;
    this.timer = 0;
  }

  /** Notes what a record changed; how many start-ups moved. */
  note(changed, reply) {
    let count = 0;
    const until = performance.now() + SHOWN;
    for (const [name, [before, after]] of changed) {
      if (!before || !after) continue;
      this.recent.set(name, { before: this.recent.get(name)?.before ?? before, until });
      if (!isMoved(before, after)) continue;
      count += 1;
      if (reply) this.moved(name, reply);
    }
    this.arm();
    return count;
  }

  arm() {
    if (this.timer || !this.recent.size) return;
    const next = Math.min(...[...this.recent.values()].map((move) => move.until));
    this.timer = setTimeout(() => {
      this.timer = 0;
      const now = performance.now();
      const expired = [...this.recent].filter(([, move]) => move.until <= now).map(([name]) => name);
      for (const name of expired) this.recent.delete(name);
      this.arm();
      this.onExpired(expired);
    }, Math.max(50, next - performance.now()));
  }

  /** What a flight that just moved was, as `▲ was 07:22`; of one whose start-up stays, '' ; null if it didn't move. */
  mark(name) {
    const move = this.recent.get(name);
    const row = this.day.rows.get(name);
    if (!move || !row) return null;
    const was = startUp(move.before, this.day.date);
    return was === startUp(row, this.day.date) ? '' : `${arrow(move.before, row)} was ${was}`;
  }

  /** The columns that changed of a flight that just moved, but whose start-up stays. */
  columns(name) {
    const row = this.day.rows.get(name);
    return this.mark(name) === '' ? MARKED.filter((column) => this.recent.get(name).before[column] !== row[column]) : [];
  }

  /** From now on everything counts as seen. */
  look(at) {
    const entries = [...this.day.rows.values()].map((row) => [row.flight, kept(row, this.day.date)]);
    this.seen = { at, log: this.day.moment.replace(/-[0-9]+$/, ''), position: this.day.position, rows: Object.fromEntries(entries) };
    this.keep();
  }

  /** Another day has begun, without these flights: one that has such a name from now on is another one. */
  forget(names) {
    for (const name of names) {
      for (const known of [this.recent, this.causes, this.told]) known.delete(name);
      delete this.seen?.rows[name];
    }
    if (this.seen) this.keep();
  }

  /** Another day has begun: what moved a flight in the day before isn't why the new one plans it otherwise. */
  begin(changed) {
    for (const [name, [before, after]] of changed) if (before && after && isMoved(before, after)) this.causes.set(name, [this.day.position, '']);
  }

  /** What was seen is kept for a page that is opened again on the same date. */
  keep() {
    this.seen.date = this.day.date;
    setTimeout(() => {
      try {
        sessionStorage.setItem(KEPT, JSON.stringify(this.seen));
      } catch { /* it is kept in memory alone */ }
    });
  }

  /** What was seen before the page was opened again, where it is of this log's present day; whether there is any. */
  remember() {
    try {
      this.seen = JSON.parse(sessionStorage.getItem(KEPT));
    } catch { /* nothing was kept */ }
    if (this.seen?.log !== this.day.moment.replace(/-[0-9]+$/, '') || this.seen.date !== this.day.date) this.seen = null;
    return this.seen !== null;
  }

  /** What a flight was when last looked at, if it is another now. */
  since(name) {
    const row = this.day.rows.get(name);
    if (!this.seen || !row) return null;
    const was = this.seen.rows[name] ?? null;
    if (was === kept(row, this.day.date)) return null;
    return was === null ? 'new' : isTime(was) ? hm(was, this.day.date) : was;
  }

  /** The same in words, with the record that moved it; '' where nothing moved. */
  sinceText(name) {
    const since = this.since(name);
    const why = this.why(name);
    return since === null ? '' : `${since === 'new' ? 'new' : `was ${since}`}${why && `: ${why}`}`;
  }

  /** The flights that were to start up before a moment when last looked at, and now aren't, but haven't left. */
  out(isBefore) {
    return Object.entries(this.seen?.rows ?? {}).filter(([name, was]) => {
      const row = this.day.rows.get(name);
      return isTime(was) && isBefore(was) && row
        && (row.status === 'PLANNED' ? !isBefore(row.tsat) : row.status === 'BLOCKED' || row.status === 'CANCELLED');
    }).map(([name]) => name);
  }

  /** A record that came before the page was opened: why the flights whose start-up it moved are what they are. */
  tell(reply) {
    const isSince = this.seen !== null && reply.position > this.seen.position;
    for (const row of reply.changes ?? []) {
      const is = kept(row, this.day.date);
      const was = this.told.get(row.flight) ?? (isSince ? this.seen.rows[row.flight] : undefined);
      if (is !== was) this.moved(row.flight, reply);
      this.told.set(row.flight, is);
    }
  }

  /** A record moved a flight. */
  moved(name, reply) {
    if (!(this.causes.get(name)?.[0] > reply.position)) this.causes.set(name, [reply.position, cause(reply, name)]);
  }

  /** The last record that moved a flight, in words. */
  why(name) {
    return this.causes.get(name)?.[1] ?? '';
  }
}

/** A record in words: `TOBT CLH67 07:05`. */
export function recordText(line) {
  return line.replace(/,/g, ' ').replace(/\d{4}-\d\d-\d\dT(\d\d:\d\d)Z/g, '$1');
}

/** A record of a flight without the flight's name. */
export const withoutName = (line, name) => line.split(',').filter((field, at) => at !== 1 || field !== name).join(',');

/** A record, who sent it and when; of the flight itself without its name. */
const cause = (reply, name) => `${recordText(withoutName(reply.line, name))}, ${reply.desk} ${hms(reply.at).slice(0, 5)}`;
