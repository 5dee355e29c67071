// Part of the page's machine: the whole plan is read, of a moment that the events lead on from.
import { isOlder, isSameMoment } from './day.js';
import { REOPEN, SOON, MOST_STRANGERS, MOST_STALE, RECENT, MOST_RECENT } from './limits.js';
import { pauseAfter } from './questions.js';
import { Views } from './views.js';

export class Reading extends Views {
  /**
   * The server can't say what came, or this page didn't understand it: the whole plan is to be read, of the stream's moment or a later
   * one, since what the stream told before isn't told again. What was asked before is of no use for that.
   * @param {boolean} [isOther] whether it is another day, or another past of this one
   */
  readAnew(isOther = false) {
    const { moment } = this.stream;
    const isBefore = this.rows !== null && (moment.log !== this.rows.log || isOlder(moment, this.rows));
    this.isGone ||= isOther || isBefore;
    this.need = { ...moment };
    Object.assign(this, { queue: [], view: null, held: null, staleReads: 0 });
    if (this.rows) this.oldSince ??= this.now;
    for (const ask of [...this.asks.values()]) if (this.questions.table.get(ask.name)?.isOfDay) this.askAgain(ask);
    const pause = this.faults ? pauseAfter(REOPEN, this.faults, 0, this.chance()) : this.chance() * SOON / 2;
    this.questions.want('plan', this.at + pause);
  }

  /** The first plan is to be of the moment at which the events begin, or of a later one. */
  readFirst() {
    this.need = { ...this.stream.moment };
    this.abandonAll('plan');
    this.questions.wantNow('plan', this.at);
  }

  /** The rows came before the events said where they begin: they are opened behind the rows. */
  reopen() {
    this.closeStream();
    this.reopenAt = Math.max(this.at, this.eventsAsTold);
  }

  askAgain(ask) {
    this.abandon(ask);
    this.questions.want(ask.name, this.at + this.chance() * SOON);
  }

  dropNeed() {
    this.need = null;
    this.queue = [];
    this.abandonAll('plan');
    this.questions.drop('plan');
  }

  takePlan(list, answer) {
    const [plan] = list;
    if (!Array.isArray(plan?.flights)) throw new Error('no plan');
    const moment = { log: answer.log, position: answer.position, lastAt: answer.lastAt };
    if (!this.isWanted(moment, answer)) return false;
    const isOther = this.rows !== null && (moment.log !== this.rows.log || this.isGone);
    const was = isOther ? null : this.rows;
    const isNext = this.rows !== null && this.day.date !== plan.day;
    const isWhole = this.isBroken || isNext; // on another date each time has other words
    const changed = this.day.take(plan, moment.position, `${moment.log}-${moment.position}`);
    if (isWhole) for (const [name, row] of this.day.rows) if (!changed.has(name)) changed.set(name, [row, row]);
    const { queue, isFirst, need } = this;
    this.isUntold = need !== null && (moment.position > need.position || need.lastAt === undefined);
    Object.assign(this, { rows: moment, need: null, queue: [], oldSince: null, isFirst: false, held: null, isBroken: false, isGone: false });
    if (this.stream?.moment === null) this.reopen();
    if (isOther) this.empty();
    if (isOther || isNext) this.beginDay();
    else if (!this.isWhoOfDay) this.questions.want('who', this.at + this.chance() * SOON);
    if (!this.operators || this.operatorsAt < Infinity) this.forgetOperators(); // what came meanwhile wasn't shown
    this.had.clear();
    this.order({ do: 'show', what: 'plan', changed, isFirst, isOther, isNext, isWhole });
    this.wantAhead();
    this.takeTotals(plan, { ...moment });
    this.remember(was);
    this.apply(queue);
    if (this.view) this.takeView(this.view);
    return true;
  }

  /** Whether a plan is the one that is to be shown. */
  isWanted(moment, { stale }) {
    const { need } = this;
    if (!need) {
      this.isStaleRead = Boolean(stale);
      return this.rows === null;
    }
    if (moment.log !== need.log || moment.position === need.position && !isSameMoment(moment, need)) return this.isStranger();
    if (moment.position < need.position) return false;
    return this.isFresh(stale);
  }

  /** A server without its log may not know yet that another one has lost records of it. It is believed only if no other answers. */
  isFresh(stale) {
    this.isStaleRead = Boolean(stale);
    return !stale || (this.staleReads += 1) > MOST_STALE;
  }

  /** An answer is of another log than this page follows: if that goes on, the events are opened anew, which tell what is there. */
  isStranger() {
    this.strangers += 1;
    if (this.strangers >= MOST_STRANGERS && this.stream) {
      this.strangers = 0;
      this.order({ do: 'close', stream: this.stream.number });
      this.onEnded({ stream: this.stream.number, status: 0, detail: 'the server has another log', retry: 0 });
    }
    return false;
  }

  /** What was shown of a day that is gone. */
  empty() {
    this.had.clear();
    Object.assign(this, { totals: null, history: null, seen: Infinity });
    this.order({ do: 'show', what: 'empty' });
  }

  /** What is of a day as a whole begins anew: what panels list of it, its operators, and how many records a desk may send. */
  beginDay() {
    this.dropHelp();
    this.forgetOperators();
    this.order({ do: 'show', what: 'past' });
    if (this.who?.kinds.length) this.questions.want('who', this.at + this.chance() * SOON);
  }

  /**
   * The last records are asked for, from a little before the moment of which the rows were, since a box may have failed to show some of them: when
   * a CLOCK came, what moved whom, and whether the record of that moment is still there. Of a day that is new to the page, from where it wants to
   * know.
   * @param {Moment | null} was
   */
  remember(was) {
    const { history: had, rows: { position } } = this;
    const first = was ? was.position - RECENT : Math.min(this.seen, position - RECENT);
    const since = Math.max(0, position - MOST_RECENT, Math.min(first, had?.since ?? first));
    const list = had?.list.filter((reply) => reply.position <= since) ?? [];
    this.history = { since, until: position, isFirst: had?.isFirst ?? was === null, list, were: [...had?.were ?? [], ...was ? [was] : []] };
    this.askHistory();
  }

  askHistory() {
    this.abandonAll('history');
    if (this.history.since >= this.history.until) this.endHistory();
    else this.questions.want('history', this.at);
  }

  takeHistory(list, answer) {
    if (!this.history) return true;
    const isOther = ({ position, at }) => this.history.were.some((was) => position === was.position && at !== (was.lastAt ?? at));
    if (list.some(isOther)) {
      this.readAnew(true); // another record stands there: what was shown has been of a past that is lost
      return true;
    }
    const found = list.filter((reply) => reply.position <= this.history.until);
    this.history.list.push(...found);
    if (found.length && found.at(-1).position < this.history.until) {
      this.history.since = found.at(-1).position;
      this.questions.want('history', this.at);
    } else {
      this.endHistory();
    }
    return true;
  }

  endHistory() {
    const { list, isFirst } = this.history;
    this.history = null;
    this.order({ do: 'show', what: 'history', list, isFirst });
  }

  /** From where on the page wants to know what moved whom. */
  onSeen({ position }) {
    this.seen = position;
    if (!this.history?.isFirst || this.history.list.length) return;
    this.history.since = Math.max(0, Math.min(this.history.since, position), this.history.until - MOST_RECENT);
    this.askHistory();
  }
}
