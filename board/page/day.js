// The day as the server said it: a Row for each flight by name, and of which moment.

/** A flight is late if its delay is more than this: the program's own limit, which the page shows in words. */
export const LATE = 15;
export const isLate = (row) => row.delay != null && row.delay > LATE;

/** Whether two moments are of one past of a log: the same record stands at the same position. One that doesn't say when it was taken is. */
export const isSameMoment = (one, other) => one.log === other.log && one.position === other.position && (one.lastAt ?? other.lastAt) === (other.lastAt ?? one.lastAt);

/** Whether what is of a moment is older than what is of another one, or, at the same position, of another past. */
export const isOlder = (one, other) => one.position < other.position || one.position === other.position && !isSameMoment(one, other);

/** Whether two Rows are the same: in all their members, also in those that no table shows. */
export function isSame(one, other) {
  const names = Object.keys(one);
  return names.length === Object.keys(other).length
    && names.every((name) => one[name] === other[name] || JSON.stringify(one[name]) === JSON.stringify(other[name]));
}

export class Day {
  constructor() {
    this.rows = new Map();
    this.date = '';
    this.now = '';
    this.position = 0;
    this.moment = '';
  }

  /** The whole day anew. What changed against the one before, by name: [before, after]; null where there is none. */
  take(plan, position, moment) {
    const rows = new Map(plan.flights.map((row) => [row.flight, row]));
    const changed = new Map();
    for (const [name, row] of rows) {
      const before = this.rows.get(name) ?? null;
      if (!before || !isSame(before, row)) changed.set(name, [before, row]);
    }
    for (const [name, before] of this.rows) if (!rows.has(name)) changed.set(name, [before, null]);
    Object.assign(this, { rows, date: plan.day, now: plan.now, position, moment });
    return changed;
  }

  /** Puts the Rows that a record changed over those that were. What changed, by name; null where it is older. */
  apply(reply) {
    if (reply.position <= this.position) return null;
    this.position = reply.position;
    if (reply.line.startsWith('CLOCK,')) this.now = reply.line.slice(6);
    const changed = new Map();
    for (const row of reply.changes ?? []) {
      changed.set(row.flight, [this.rows.get(row.flight) ?? null, row]);
      this.rows.set(row.flight, row);
    }
    return changed;
  }
}
