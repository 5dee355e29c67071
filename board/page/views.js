// Part of the page's machine: what is shown beside the rows, of which position it is, and whether the log is reached.
import { isOlder, isSameMoment } from './day.js';
import { AHEAD_WAIT, MOST_AHEAD, VIEW_WAIT, SOON, HELD_WAIT, HEALTH_OLD, VIEWS, PANELS } from './limits.js';
import { spread } from './questions.js';
import { Session } from './session.js';

export class Views extends Session {
  /** Asks for what all screens ask alike, if the server doesn't send it. */
  wantViews() {
    for (const name of VIEWS) {
      const had = this.had.get(name);
      if (had && !isOlder(had, this.rows)) this.questions.drop(name);
      else this.questions.want(name, this.at + spread(VIEW_WAIT, this.chance()));
    }
  }

  wantPanels() {
    for (const name of PANELS) this.questions.want(name, this.at + this.chance() * SOON);
  }

  /**
   * What all screens ask alike, of one position: it comes behind the events up to there. So where it is of a later position than the rows, it
   * is of their moment too; and if other events lead on from there, what they tell is newer.
   */
  takeView(view) {
    if (this.need || !this.rows) {
      this.view = view;
      return;
    }
    this.view = null;
    if (!Number.isInteger(view.position)) throw new Error('a view of no position');
    if (view.position > this.stream.moment.position) Object.assign(this.stream.moment, { position: view.position, lastAt: undefined });
    const isBehind = view.position < this.rows.position;
    const of = isBehind ? { log: this.rows.log, position: view.position } : { ...this.rows };
    for (const name of VIEWS) {
      this.questions.drop(name);
      if (isBehind) this.questions.want(name, this.at + spread(VIEW_WAIT, this.chance())); // the next one is on its way
      const had = this.had.get(name);
      if (had && view.position <= had.position && (isBehind || !isOlder(had, of))) continue;
      if (view[name] === undefined) this.questions.want(name, this.at + this.chance() * SOON);
      else {
        if (name === 'totals') this.takeTotals(view.totals, of, view.position);
        else this.showAnswer(name, view[name], of, view.position);
      }
    }
  }

  /** Shows an answer of a moment, which is called by its position or a later one. */
  showAnswer(name, list, of, position = of.position) {
    this.had.set(name, of);
    this.wantAhead();
    this.order({ do: 'show', what: 'answer', name, list, position });
  }

  takeTotals(values, of, position = of.position) {
    this.had.set('totals', of);
    this.wantAhead();
    this.totals = { values, of, position };
    if (!isOlder(of, this.rows)) this.held = null;
    this.showTotals();
  }

  /** The totals, and whether the rows are newer. */
  showTotals() {
    const { values, of, position } = this.totals;
    const isOld = isOlder(of, this.rows);
    this.totals.isOld = isOld;
    this.order({ do: 'show', what: 'totals', totals: values, position: isOld ? Math.min(position, this.rows.position - 1) : position, isOld });
  }

  /** What follows from that the rows are of a later position now. */
  settle() {
    const { held, rows } = this;
    if (held && held.of.position <= rows.position) {
      this.held = null;
      if (isSameMoment(held.of, rows)) this.takeTotals(held.values, held.of);
      else this.questions.want('totals', this.at + this.chance() * SOON);
    }
    if (this.totals && this.totals.isOld !== isOlder(this.totals.of, rows)) this.showTotals();
    if (this.operatorsAt <= this.rows.position) this.forgetOperators();
  }

  /** Operators are told for a day. Those that are newer than the rows may be of records that are lost: they are asked for once more. */
  takeOperators(isNow, position) {
    Object.assign(this, { operators: isNow, operatorsAt: position > this.rows.position ? position : Infinity });
  }

  forgetOperators() {
    Object.assign(this, { operators: false, operatorsAt: Infinity });
    this.questions.want('operators', this.at + this.chance() * SOON);
  }

  /** Totals of an answer may be newer than the rows; then they wait for the events, or for the word that nothing came between. */
  holdTotals(values, of) {
    if (of.position <= this.rows.position) {
      this.takeTotals(values, of);
      return;
    }
    this.held = { values, of };
    this.questions.want('between', this.at + spread(HELD_WAIT, this.chance()));
  }

  /** The records between the rows and the totals that wait: where none was accepted, the rows are of that position too. */
  takeBetween(list, answer) {
    if (!this.held) return true;
    if (answer.stale && !this.isStaleRead) return false;
    const { rows, held: { of } } = this;
    const isPast = rows.position === 0 || list[0]?.at === rows.lastAt;
    const last = list.find((reply) => reply.position === of.position);
    const isSame = last && isPast && !list.some((reply) => reply.reply === 'ACCEPTED' && reply.position <= of.position && reply.position > rows.position);
    if (isSame) {
      Object.assign(rows, { position: of.position, lastAt: last.at });
      this.day.position = of.position;
      this.settle();
      return true;
    }
    this.held.waits = (this.held.waits ?? 0) + 1;
    if (this.held.waits >= 3 && this.stream) {
      this.held = null;
      this.order({ do: 'close', stream: this.stream.number });
      this.onEnded({ stream: this.stream.number, status: 0, detail: 'events don’t come', retry: 0 });
    }
    return false;
  }

  /** The latest moment of what is shown. */
  get shownUpTo() {
    let latest = this.rows;
    for (const of of this.had.values()) if (of.position > latest.position) latest = of;
    return latest;
  }

  /** Whether something is shown that is newer than what the events have told. */
  get isAhead() {
    return this.shownUpTo.position > this.stream.moment.position;
  }

  wantAhead() {
    if (this.stream && this.isAhead) this.questions.want('ahead', this.at + spread(AHEAD_WAIT, this.chance()));
  }

  /**
   * The records between the events and what is shown. Where the servers have none up to there, a log has lost them, and the server of the
   * events never had them: so it can't say that they are gone.
   */
  takeAhead(list, answer) {
    if (answer.stale) return false;
    const { stream, shownUpTo } = this;
    const last = list.find((reply) => reply.position === shownUpTo.position);
    if (answer.position < shownUpTo.position || last && last.at !== (shownUpTo.lastAt ?? last.at)) {
      stream.lacks += 1;
      if (stream.lacks < MOST_AHEAD) return false;
      this.readAnew();
      return true;
    }
    stream.lacks = 0;
    const isSame = last !== undefined && !list.some((reply) => reply.reply === 'ACCEPTED' && reply.position <= shownUpTo.position);
    if (isSame) Object.assign(stream.moment, { position: shownUpTo.position, lastAt: last.at });
    return isSame;
  }

  takeStale(since) {
    const was = this.staleSince;
    this.staleSince = since || null;
    if (this.staleSince === was) return;
    this.order({ do: 'say', what: 'stale', since: this.staleSince });
    if (this.staleSince) this.questions.want('health', this.at + spread(HEALTH_OLD, this.chance()));
    else if (this.hasStale) this.askStaleAgain();
    if (this.staleSince) return;
    if (this.isStaleRead && this.rows && !this.need && this.stream?.isOpen) {
      this.isStaleRead = false;
      this.readAnew();
    }
  }

  /** What a server without its log has said may be of records that are lost: it is asked again. */
  askStaleAgain() {
    this.hasStale = false;
    for (const name of VIEWS) {
      if (name !== 'totals') this.had.delete(name);
      this.questions.want(name, this.at + spread(VIEW_WAIT, this.chance()));
    }
    this.wantPanels();
  }
}
