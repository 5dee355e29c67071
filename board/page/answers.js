// Part of the page's machine: what it knows, on which its other parts build; requests go out, and each answer is taken by its name.
import { Day, isSameMoment } from './day.js';
import { DEADLINE, HEALTH, HEALTH_OLD, VIEWS } from './limits.js';
import { Questions, spread } from './questions.js';
import { Sending } from './sending.js';

class Knowing {
  /** @param {() => number} chance from 0 to 1, drawn by who uses it; @param {string} role that is said where the server asks for none */
  constructor(chance, role = '') {
    this.chance = chance;
    this.day = new Day();
    this.sending = new Sending();
    this.questions = new Questions(this.table(), chance);
    /** @type {Order[]} */
    this.orders = [];
    /** @type {Map<number, object>} what is asked for and not yet answered */
    this.asks = new Map();
    Object.assign(this, { at: 0, now: 0, number: 0, role, who: null, kinds: null, was: null, isForgotten: false, isOut: false, isNew: true });
    /** @type {Moment | null} of which moment the rows are; @type {Moment | null} which one is to be read */
    this.rows = null;
    this.need = null;
    this.isGone = false; // whether the rows' past is known to be gone: what is read is of another day, or of another past of this one
    this.isUntold = false; // whether the rows' moment is one of which the events have told no record
    this.queue = [];
    this.stream = null;
    Object.assign(this, { reopenAt: 0, eventsAsTold: 0, failures: 0, lost: null, oldSince: null, staleSince: null, isStaleRead: false });
    Object.assign(this, { strangers: 0, staleReads: 0, isFirst: true, told: null, toldWhyNot: null, wakeAt: null });
    /** @type {Map<string, Moment>} of which moment the answer to a question is that is shown */
    this.had = new Map();
    Object.assign(this, { totals: null, held: null, view: null, operators: false, operatorsAt: Infinity, history: null, seen: Infinity });
    Object.assign(this, { isBroken: false, faults: 0, lostSince: null, hasStale: false }); // isBroken: a box has failed to show rows
    this.panel = { open: null, flight: null };
    this.causesOf = { isOpen: false, by: 'operator' };
    this.isHelpAsked = false; // whether somebody waits for what could help the flight of the panel
  }

  order(order) {
    this.orders.push(order);
  }
}

export class Answers extends Knowing {
  /** Asks a question of the table. */
  ask(name) {
    const question = this.questions.table.get(name);
    const after = question.after ? question.after() : !question.isOfDay ? 0 : this.need ? this.need.position : this.rows?.position ?? 0;
    const { method = 'GET', body, accept } = question;
    this.questions.ask(name, this.at);
    this.send_({ name, path: question.path(), method, body, accept, after, isOfSession: true, isQuestion: true }, DEADLINE);
  }

  /** Sends a request; its answer is taken by its name. */
  send_(ask, most) {
    ask.id = this.number += 1;
    ask.until = this.at + most;
    this.asks.set(ask.id, ask);
    const { id, name, path, method, body, accept, after, key } = ask;
    this.order({ do: 'ask', id, name, path, method, body, accept, after: after || 0, key, role: this.role });
  }

  abandon(ask) {
    this.asks.delete(ask.id);
    if (ask.isQuestion) this.questions.forget(ask.name);
    this.order({ do: 'abandon', id: ask.id });
  }

  abandonAll(name) {
    for (const ask of [...this.asks.values()]) if (ask.name === name) this.abandon(ask);
  }

  /** No answer came in time. */
  giveUp(ask) {
    this.order({ do: 'abandon', id: ask.id });
    this.onAnswer({ id: ask.id, status: 0, text: '', detail: 'No answer came in time', retry: 0, isOwn: false });
  }

  onAnswer(event) {
    const ask = this.asks.get(event.id);
    if (!ask) return;
    this.asks.delete(ask.id);
    if (ask.name === 'record') this.takeSent(ask, event);
    else if (ask.name === 'sign-in') this.takeSignIn(event);
    else if (ask.name === 'forget') this.takeForgotten(ask);
    else if (ask.name === 'health') this.takeHealth(event);
    else if (event.status === 200) this.takeAnswer(ask, event);
    else this.takeProblem(ask, event);
    if (event.status === 401 && ask.isOfSession) this.signedOut(event.detail);
  }

  takeSignIn(event) {
    const isIn = event.status >= 200 && event.status < 300;
    this.order({ do: 'say', what: 'sign-in', isIn, detail: event.detail });
    if (!isIn) return;
    this.order({ do: 'tell', word: 'in' });
    this.isForgotten = false;
    this.begin();
  }

  takeForgotten({ word }) {
    if (word) this.order({ do: 'tell', word });
    this.begin();
  }

  takeHealth(event) {
    if (event.retry > 0) {
      this.questions.failed('health', this.at, event.retry);
      return;
    }
    this.questions.answered('health');
    try {
      const told = JSON.parse(event.text);
      if (event.status === 200) this.takeStale(told.stale_since ?? null);
    } catch { /* it isn't the server's own word */ }
    this.questions.want('health', this.at + spread(this.staleSince ? HEALTH_OLD : HEALTH, this.chance()));
  }

  takeAnswer(ask, event) {
    const question = this.questions.table.get(ask.name);
    let isTaken = true;
    let fault = '';
    try {
      const list = event.text.split('\n').filter(Boolean).map((line) => JSON.parse(line));
      if (question.isOfDay && ask.name !== 'plan' && !this.isOfRows(event)) isTaken = false;
      else isTaken = this.takeList(ask, list, event) !== false;
      if (question.isOfDay && event.stale !== undefined) this.takeStale(event.stale);
    } catch {
      isTaken = false;
      fault = 'the server’s answer isn’t understood';
    }
    if (isTaken) this.questions.answered(ask.name);
    else this.questions.failed(ask.name, this.at, 0);
    if (fault) this.unanswered(ask, fault);
    else if (isTaken) this.order({ do: 'say', what: 'answered', name: ask.name });
  }

  /** Whether an answer is of the log of which the rows are, and, where it is of their position, of their past. */
  isOfRows({ log, position, lastAt, stale }) {
    const { rows } = this;
    if (!Number.isInteger(position) || !log) throw new Error('of no moment');
    if (log !== rows.log) return this.isStranger();
    if (position === rows.position && !isSameMoment({ log, position, lastAt }, rows)) return !stale && this.isStranger();
    this.strangers = 0;
    return true;
  }

  /** @returns {boolean | void} false: it isn't what was asked for, and is asked again */
  takeList(ask, list, event) {
    const own = { who: () => this.takeWho(list[0]), kinds: () => this.takeKinds(list), plan: () => this.takePlan(list, event),
      history: () => this.takeHistory(list, event), between: () => this.takeBetween(list, event),
      ahead: () => this.takeAhead(list, event), options: () => this.takeOptions(list, event) }[ask.name];
    if (own) return own();
    const question = this.questions.table.get(ask.name);
    if (!question.isWanted() || this.need) return true;
    const isSame = ask.name === 'log' ? ask.path.endsWith(this.day.date) : question.path() === ask.path;
    if (!isSame) {
      this.questions.wantNow(ask.name, this.at);
      return true;
    }
    if (event.position < (this.had.get(ask.name)?.position ?? -1) && VIEWS.includes(ask.name)) return false;
    if (ask.name === 'totals' && event.stale && !this.isStaleRead) return false;
    this.hasStale ||= Boolean(event.stale);
    const of = { log: event.log, position: event.position, lastAt: event.lastAt };
    if (ask.name === 'totals') this.holdTotals(list[0], of);
    else this.showAnswer(ask.name, list, of);
    const isNow = event.position >= this.rows.position;
    if (ask.name === 'operators') this.takeOperators(isNow, event.position);
    return isNow;
  }

  /** It is shown of the moment of which it is, also where the rows are newer by now: nothing is asked again that nobody wants. */
  takeOptions(list, { log, position, lastAt }) {
    if (!this.isHelpAsked) return true;
    this.isHelpAsked = false;
    this.showAnswer('options', list, { log, position, lastAt });
    return true;
  }

  /** Nobody waits for what could help any more. */
  dropHelp() {
    this.isHelpAsked = false;
    this.had.delete('options');
    this.abandonAll('options');
    this.questions.drop('options');
  }

  takeKinds(list) {
    this.kinds = list;
    this.order({ do: 'show', what: 'kinds', kinds: list });
  }

  /** A question that wasn't answered: it is asked again, but for one that can't be answered as the day stands. */
  takeProblem(ask, { status, detail, retry }) {
    if (status === 403 && this.role && ask.name === 'who') {
      this.role = ''; // a server with desks knows no such role
      this.questions.forget('who');
      this.questions.want('who', this.at);
      return;
    }
    const isNever = status >= 400 && status < 500 && status !== 401 && status !== 429 && !['who', 'kinds', 'plan'].includes(ask.name);
    if (isNever) this.questions.answered(ask.name);
    else this.questions.failed(ask.name, this.at, retry);
    if (status !== 401) this.unanswered(ask, detail);
    if (['who', 'kinds', 'plan'].includes(ask.name) && status !== 401 && !this.stream?.isOpen) this.losing(detail);
  }

  unanswered({ name }, detail) {
    if (name === 'options') this.dropHelp();
    this.order({ do: 'say', what: 'unanswered', name, detail });
  }
}
